/* The stack that each call takes. Each runs on a stack that was filled with one byte before; what it has changed, from the
 * caller's frame down, is what it took. One that takes less than OWN bytes shows as OWN. The tree is the deepest, 4,096 levels
 * of one byte each, and the key the longest; where something else is meant the name says so. */
#include <pthread.h>
#include <stdint.h>
#include <stdio.h>
#include <stdlib.h>
#include <string.h>
#include "yarnhollow.h"

#define LEVELS YARNHOLLOW_KEY_MAX
#define SLOTS (LEVELS + 64)
#define STACK (8u << 20)
#define FILL 0xA5
#define OWN 256
#define BYTE 7

/* A pool as large as the tree wants, one of its first slot alone, and one for what split cuts out */
static uint8_t labels[YARNHOLLOW_LABELS(SLOTS)], labels2[YARNHOLLOW_LABELS(SLOTS)];
static uint32_t words[YARNHOLLOW_WORDS(SLOTS)], words2[YARNHOLLOW_WORDS(SLOTS)];
#define POOL labels, YARNHOLLOW_LABELS(SLOTS), words, YARNHOLLOW_WORDS(SLOTS)
#define ONE_SLOT labels, YARNHOLLOW_LABELS(1), words, YARNHOLLOW_WORDS(1)
#define POOL2 labels2, YARNHOLLOW_LABELS(SLOTS), words2, YARNHOLLOW_WORDS(SLOTS)

static uint8_t image[4 + 5 * LEVELS], written[4 + 5 * LEVELS], key[LEVELS], fork_key[LEVELS], out[LEVELS];
static uint64_t numbers[1] = { 1 }, written_numbers[1];

/* Every node has one byte and one child, but for the last, which has the number. */
static void make_image(void)
{
    image[0] = 12;
    for (size_t level = 1; level <= LEVELS; level++) {
        uint8_t *record = image + 5 * level - 1;
        record[0] = level < LEVELS ? 12 : 3;
        record[1] = 1;
        record[2] = (uint8_t)(level >> 8);
        record[3] = (uint8_t)level;
        record[4] = BYTE;
    }
}

static void read_deepest(void)
{
    size_t offset = 0;
    if (yarnhollow_read(POOL, image, sizeof image, numbers, 1, &offset) != YARNHOLLOW_DONE)
        exit(1);
}

static void make_empty(void)
{
    if (yarnhollow_make(POOL) != YARNHOLLOW_DONE)
        exit(1);
}

/* A key of two bytes, which a long key leaves behind its first byte */
static void make_forked(void)
{
    uint32_t had_old = 0;
    uint64_t old = 0;
    size_t looked = 0;
    make_empty();
    if (yarnhollow_insert(POOL, key, 2, 1, &had_old, &old, &looked) != YARNHOLLOW_DONE)
        exit(1);
}

static uint32_t had_old;
static uint64_t number;
static size_t length, length2, looked;
static uint32_t call_make(void) { return yarnhollow_make(POOL); }
static uint32_t call_clear(void) { return yarnhollow_clear(POOL); }
static uint32_t call_get(void) { return yarnhollow_get(POOL, key, LEVELS, &number, &looked); }
static uint32_t call_insert(void) { return yarnhollow_insert(POOL, key, LEVELS, 2, &had_old, &number, &looked); }
static uint32_t call_insert_fork(void)
{
    return yarnhollow_insert(POOL, fork_key, LEVELS, 2, &had_old, &number, &looked);
}
static uint32_t call_remove(void) { return yarnhollow_remove(POOL, key, LEVELS, &number, &looked); }
static uint32_t call_longest(void) { return yarnhollow_longest(POOL, key, LEVELS, &length, &number, &looked); }
static uint32_t call_shared(void) { return yarnhollow_shared(POOL, key, LEVELS, &length, &looked); }
static uint32_t call_next(void) { return yarnhollow_next(POOL, key, 1, key, LEVELS - 1, 1, out, sizeof out, &length, &number); }
static uint32_t call_split(void) { return yarnhollow_split(POOL, key, 1, POOL2); }
static uint32_t call_counts(void) { return yarnhollow_counts(POOL, &length, &length2); }
static uint32_t call_write(void) { return yarnhollow_write(POOL, written, sizeof written, written_numbers, 1, &length, &length2); }
static uint32_t call_read(void) { return yarnhollow_read(POOL, image, sizeof image, numbers, 1, &length); }
static uint32_t call_read_one_slot(void) { return yarnhollow_read(ONE_SLOT, image, sizeof image, numbers, 1, &length); }

static const struct {
    const char *name;
    void (*prepare)(void);
    uint32_t (*call)(void);
    uint32_t due;
} calls[] = {
    { "make", make_empty, call_make, YARNHOLLOW_DONE },
    { "clear", read_deepest, call_clear, YARNHOLLOW_DONE },
    { "get", read_deepest, call_get, YARNHOLLOW_DONE },
    { "insert of an old key", read_deepest, call_insert, YARNHOLLOW_DONE },
    { "insert into an empty tree", make_empty, call_insert, YARNHOLLOW_DONE },
    { "insert that forks", make_forked, call_insert_fork, YARNHOLLOW_DONE },
    { "remove", read_deepest, call_remove, YARNHOLLOW_DONE },
    { "longest", read_deepest, call_longest, YARNHOLLOW_DONE },
    { "shared", read_deepest, call_shared, YARNHOLLOW_DONE },
    { "next", read_deepest, call_next, YARNHOLLOW_DONE },
    { "split", read_deepest, call_split, YARNHOLLOW_DONE },
    { "counts", read_deepest, call_counts, YARNHOLLOW_DONE },
    { "write", read_deepest, call_write, YARNHOLLOW_DONE },
    { "read", make_empty, call_read, YARNHOLLOW_DONE },
    { "read into one slot", make_empty, call_read_one_slot, YARNHOLLOW_NO_ROOM },
};

static uint8_t *stack;
static uint32_t (*call)(void);
static uint32_t returned;
static size_t taken;

/* The thread's start has used the stack too: it is filled here, but for what this function itself may hold. */
static void *on_filled_stack(void *unused)
{
    uint8_t here = 0;
    size_t unused_bytes = 0;
    memset(stack, FILL, (size_t)(&here - stack) - OWN);
    returned = call();
    while (stack[unused_bytes] == FILL)
        unused_bytes++;
    taken = (size_t)(&here - stack) - unused_bytes;
    return unused;
}

static void measure(const char *name, uint32_t due)
{
    pthread_attr_t attributes;
    pthread_t thread;
    pthread_attr_init(&attributes);
    pthread_attr_setstack(&attributes, stack, STACK);
    if (pthread_create(&thread, &attributes, on_filled_stack, NULL) != 0)
        exit(1);
    pthread_join(thread, NULL);
    if (returned != due) {
        printf("%s: returned %u\n", name, (unsigned)returned);
        exit(1);
    }
    printf("%-26s %9zu\n", name, taken);
}

int main(void)
{
    stack = aligned_alloc(4096, STACK);
    if (stack == NULL)
        return 1;
    make_image();
    memset(key, BYTE, sizeof key);
    memset(fork_key, BYTE + 1, sizeof fork_key);
    fork_key[0] = BYTE;
    for (size_t i = 0; i < sizeof calls / sizeof calls[0]; i++) {
        calls[i].prepare();
        call = calls[i].call;
        measure(calls[i].name, calls[i].due);
    }
    return 0;
}
