/*
 * A result is stored only where the call tells a value for it: here each other result stands in memory that can't be written,
 * so that a call which stored one, even the value that it had, would end the program. `examples/run` builds and runs it.
 */
#include "yarnhollow.h"

#include <stdio.h>
#include <stdlib.h>
#include <string.h>

enum { SLOTS = 2 };

static uint8_t labels[YARNHOLLOW_LABELS(SLOTS)];
static uint32_t words[YARNHOLLOW_WORDS(SLOTS)];
static uint8_t other_labels[YARNHOLLOW_LABELS(SLOTS)];
static uint32_t other_words[YARNHOLLOW_WORDS(SLOTS)];
static uint8_t key[YARNHOLLOW_KEY_MAX + 1] = {'a'};

#define LENT labels, sizeof labels, words, YARNHOLLOW_WORDS(SLOTS)
#define OTHER other_labels, sizeof other_labels, other_words, YARNHOLLOW_WORDS(SLOTS)
#define NO_POOL labels, sizeof labels, words, 0
#define OLD_POOL labels, sizeof labels, words, 6 * SLOTS + 8

/* Constants: the linker puts them where nothing can be written. */
static const uint32_t kept32 = 7;
static const uint64_t kept64 = 7;
static const size_t kept = 7;
#define NO32 ((uint32_t *)&kept32)
#define NO64 ((uint64_t *)&kept64)
#define NO ((size_t *)&kept)

static void expect(uint32_t due, uint32_t number)
{
    if (number == due)
        return;
    printf("refusals: %u in place of %u\n", (unsigned)number, (unsigned)due);
    exit(1);
}

/* What is no pool, and what is too long */
static void one_and_two(void)
{
    expect(1, yarnhollow_get(NO_POOL, key, 1, NO64, NO));
    expect(1, yarnhollow_insert(NO_POOL, key, 1, 1, NO32, NO64, NO));
    expect(1, yarnhollow_remove(NO_POOL, key, 1, NO64, NO));
    expect(1, yarnhollow_longest(NO_POOL, key, 1, NO, NO64, NO));
    expect(1, yarnhollow_shared(NO_POOL, key, 1, NO, NO));
    expect(1, yarnhollow_next(NO_POOL, key, 1, NULL, 0, 0, NULL, 0, NO, NO64));
    expect(1, yarnhollow_counts(NO_POOL, NO, NO));
    expect(1, yarnhollow_write(NO_POOL, NULL, 0, NULL, 0, NO, NO));
    expect(1, yarnhollow_read(NO_POOL, NULL, 0, NULL, 0, NO));
    expect(2, yarnhollow_get(LENT, key, sizeof key, NO64, NO));
    expect(2, yarnhollow_insert(LENT, key, sizeof key, 1, NO32, NO64, NO));
    expect(2, yarnhollow_remove(LENT, key, sizeof key, NO64, NO));
    expect(2, yarnhollow_longest(LENT, key, sizeof key, NO, NO64, NO));
    expect(2, yarnhollow_shared(LENT, key, sizeof key, NO, NO));
    expect(2, yarnhollow_next(LENT, key, sizeof key, NULL, 0, 0, NULL, 0, NO, NO64));
    expect(2, yarnhollow_next(LENT, key, 1, key, sizeof key, 1, NULL, 0, NO, NO64));
}

/* Not found, no room, and what is done or refused with fewer values than there are results */
static void others(void)
{
    static const uint8_t tree[] = {0x0C, 0, 0, 0, 0x33, 1, 0, 1, 'a', 0x03, 1, 0, 1, 'b'};
    static const uint8_t empty[] = {0, 0, 0, 0};
    static const uint64_t numbers[] = {1, 2};
    uint32_t had_old = 7;
    size_t length = 7, looked = 7;

    expect(3, yarnhollow_get(LENT, key, 1, NO64, &looked));
    expect(1, (uint32_t)looked);
    expect(3, yarnhollow_remove(LENT, key, 1, NO64, &looked));
    expect(3, yarnhollow_longest(LENT, key, 1, NO, NO64, &looked));
    expect(3, yarnhollow_next(LENT, key, 1, NULL, 0, 0, NULL, 0, NO, NO64));
    expect(0, yarnhollow_insert(LENT, key, 1, 1, &had_old, NO64, &looked));
    expect(4, yarnhollow_insert(LENT, key, 2, 1, NO32, NO64, NO));
    expect(5, yarnhollow_next(LENT, key, 1, NULL, 0, 0, NULL, 0, &length, NO64));
    expect(4, yarnhollow_read(LENT, tree, sizeof tree, numbers, 2, NO));
    expect(0, yarnhollow_read(LENT, empty, sizeof empty, NULL, 0, NO));
}

/* A pool of the length that it had with numbers of 32 bits is none, and stays as it was. */
static void old_length(void)
{
    static uint8_t labels_before[sizeof labels];
    static uint32_t words_before[YARNHOLLOW_WORDS(SLOTS)];

    memcpy(labels_before, labels, sizeof labels);
    memcpy(words_before, words, sizeof words);
    expect(1, yarnhollow_make(OLD_POOL));
    expect(1, yarnhollow_clear(OLD_POOL));
    expect(1, yarnhollow_get(OLD_POOL, key, 1, NO64, NO));
    expect(1, yarnhollow_insert(OLD_POOL, key, 1, 1, NO32, NO64, NO));
    expect(1, yarnhollow_remove(OLD_POOL, key, 1, NO64, NO));
    expect(1, yarnhollow_longest(OLD_POOL, key, 1, NO, NO64, NO));
    expect(1, yarnhollow_shared(OLD_POOL, key, 1, NO, NO));
    expect(1, yarnhollow_next(OLD_POOL, key, 1, NULL, 0, 0, NULL, 0, NO, NO64));
    expect(1, yarnhollow_split(OLD_POOL, key, 1, OTHER));
    expect(1, yarnhollow_counts(OLD_POOL, NO, NO));
    expect(1, yarnhollow_write(OLD_POOL, NULL, 0, NULL, 0, NO, NO));
    expect(1, yarnhollow_read(OLD_POOL, NULL, 0, NULL, 0, NO));
    expect(0, (uint32_t)(memcmp(labels_before, labels, sizeof labels) != 0));
    expect(0, (uint32_t)(memcmp(words_before, words, sizeof words) != 0));
}

int main(void)
{
    expect(0, yarnhollow_make(LENT));
    one_and_two();
    others();
    old_length();
    printf("refusals: no result was stored\n");
    return 0;
}
