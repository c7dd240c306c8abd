/*
 * A small cache daemon's life with the store: an image is loaded, a damaged one refused, prefixes are looked up, a subtree
 * is purged, and what is left is written back. `examples/run` builds and runs it.
 */
#include "yarnhollow.h"

#include <inttypes.h>
#include <stdio.h>
#include <stdlib.h>
#include <string.h>

enum { SLOTS = 128, IMAGE_MAX = 4096, NUMBERS_MAX = SLOTS };

struct pool {
    uint8_t labels[YARNHOLLOW_LABELS(SLOTS)];
    uint32_t words[YARNHOLLOW_WORDS(SLOTS)];
};

#define LENT(p) (p)->labels, sizeof (p)->labels, (p)->words, sizeof (p)->words / sizeof (p)->words[0]

static struct pool rules;
static struct pool purged;

/* As it comes from outside: /img/ 10, /img/logo 11, /shop/ 20, /shop/cat 21. */
static const uint8_t tree[] = {
    0x0C, 0, 0, 0,
    0x0C, 1, 0, 1, '/',
    0x3F, 4, 0, 2, 'i', 'm', 'g', '/',
    0x03, 4, 0, 3, 'l', 'o', 'g', 'o',
    0x0F, 5, 0, 2, 's', 'h', 'o', 'p', '/',
    0x03, 3, 0, 3, 'c', 'a', 't',
};
static const uint64_t numbers[] = {10, 11, 20, 21};

/* What a number means. There is no default, so that the compiler names a number that is left out. */
static const char *meaning(uint32_t number)
{
    switch ((enum yarnhollow_number)number) {
    case YARNHOLLOW_DONE: return "done";
    case YARNHOLLOW_NOT_POOL: return "not a pool";
    case YARNHOLLOW_TOO_LONG: return "over 4,096 bytes";
    case YARNHOLLOW_NOT_FOUND: return "not found";
    case YARNHOLLOW_NO_ROOM: return "no room";
    case YARNHOLLOW_OUTPUT_SHORT: return "output too short";
    case YARNHOLLOW_IMAGE_CUT_SHORT: return "image cut short";
    case YARNHOLLOW_IMAGE_FLAG_BYTE: return "flag byte";
    case YARNHOLLOW_IMAGE_LEVEL: return "level";
    case YARNHOLLOW_IMAGE_LABEL_LENGTH: return "label length";
    case YARNHOLLOW_IMAGE_SIBLING_ORDER: return "sibling order";
    case YARNHOLLOW_IMAGE_IDLE_NODE: return "idle node";
    case YARNHOLLOW_IMAGE_NUMBER_COUNT: return "number count";
    case YARNHOLLOW_IMAGE_BYTES_LEFT: return "bytes after the tree";
    }
    return "no number of the store";
}

/* For a call that can't be refused here: a daemon would not go on with a store that is damaged. */
static void must(const char *call, uint32_t number)
{
    if (number == YARNHOLLOW_DONE)
        return;
    printf("%s: %u, %s\n", call, (unsigned)number, meaning(number));
    exit(1);
}

static void load(const char *name, const uint8_t *bytes, size_t bytes_len, const uint64_t *values, size_t values_len)
{
    size_t offset = 0;
    uint32_t number = yarnhollow_read(LENT(&rules), bytes, bytes_len, values, values_len, &offset);

    printf("load %s: %u, %s", name, (unsigned)number, meaning(number));
    if (number >= YARNHOLLOW_IMAGE_CUT_SHORT && number <= YARNHOLLOW_IMAGE_BYTES_LEFT)
        printf(" at %zu", offset);
    printf("\n");
}

static void show_counts(const char *name, const struct pool *pool)
{
    size_t keys = 0, nodes = 0;

    must("counts", yarnhollow_counts(LENT(pool), &keys, &nodes));
    printf("%s: %zu keys, %zu nodes\n", name, keys, nodes);
}

/* The rule for a path: the longest stored key that the path starts with. Both calls search alike. */
static void look_up(const char *path)
{
    const uint8_t *query = (const uint8_t *)path;
    size_t prefix_length = 0, shared_length = 0, looked = 0, looked_again = 0;
    uint64_t rule = 0;
    uint32_t number = yarnhollow_longest(LENT(&rules), query, strlen(path), &prefix_length, &rule, &looked);

    must("shared", yarnhollow_shared(LENT(&rules), query, strlen(path), &shared_length, &looked_again));
    if (number == YARNHOLLOW_DONE)
        printf("%s: rule %" PRIu64 " by %.*s", path, rule, (int)prefix_length, path);
    else
        printf("%s: %u, %s", path, (unsigned)number, meaning(number));
    printf("; shares %zu bytes; looked at %zu nodes, and at %zu\n", shared_length, looked, looked_again);
}

/* Every key under a prefix, in order. The walk's state is here: two buffers that change places. */
static void list(const char *prefix)
{
    static uint8_t room[2][YARNHOLLOW_KEY_MAX];
    size_t last_len = 0, length = 0;
    uint64_t rule = 0;
    uint32_t begun = 0, number;
    int turn = 0;

    for (;;) {
        number = yarnhollow_next(LENT(&rules), (const uint8_t *)prefix, strlen(prefix), room[1 - turn], last_len, begun,
                                 room[turn], sizeof room[turn], &length, &rule);
        if (number != YARNHOLLOW_DONE)
            break;
        printf("  %.*s = %" PRIu64 "\n", (int)length, (const char *)room[turn], rule);
        last_len = length;
        begun = 1;
        turn = 1 - turn;
    }
    if (number != YARNHOLLOW_NOT_FOUND)
        must("next", number);
}

static void store(const char *key, uint64_t rule)
{
    uint32_t had_old = 0;
    uint64_t old = 0;
    size_t looked = 0;

    must("insert", yarnhollow_insert(LENT(&rules), (const uint8_t *)key, strlen(key), rule, &had_old, &old, &looked));
    if (had_old)
        printf("insert %s: was %" PRIu64, key, old);
    else
        printf("insert %s: new", key);
    printf("; looked at %zu nodes\n", looked);
}

static void drop(const char *key)
{
    uint64_t old = 0;
    size_t looked = 0;
    uint32_t number = yarnhollow_remove(LENT(&rules), (const uint8_t *)key, strlen(key), &old, &looked);

    if (number == YARNHOLLOW_DONE)
        printf("remove %s: was %" PRIu64, key, old);
    else
        printf("remove %s: %u, %s", key, (unsigned)number, meaning(number));
    printf("; looked at %zu nodes\n", looked);
}

/* A purge cuts out all that is under a prefix; what was cut out can still be looked at, and is then given up. */
static void purge(const char *prefix)
{
    uint32_t number = yarnhollow_split(LENT(&rules), (const uint8_t *)prefix, strlen(prefix), LENT(&purged));

    printf("purge %s: %u, %s\n", prefix, (unsigned)number, meaning(number));
    if (number != YARNHOLLOW_DONE)
        return;
    show_counts("purged", &purged);
    must("clear", yarnhollow_clear(LENT(&purged)));
}

/* The first call has no room and asks for the lengths. */
static void write_back(void)
{
    static uint8_t image[IMAGE_MAX];
    static uint64_t values[NUMBERS_MAX];
    size_t tree_length = 0, numbers_length = 0, i;
    uint32_t number = yarnhollow_write(LENT(&rules), NULL, 0, NULL, 0, &tree_length, &numbers_length);

    printf("write: %u, %s: %zu bytes and %zu numbers\n", (unsigned)number, meaning(number), tree_length, numbers_length);
    must("write", yarnhollow_write(LENT(&rules), image, sizeof image, values, NUMBERS_MAX, &tree_length, &numbers_length));
    for (i = 0; i < tree_length; i++)
        printf("%02X%c", image[i], i + 1 < tree_length ? ' ' : '\n');
    for (i = 0; i < numbers_length; i++)
        printf("%" PRIu64 "%c", values[i], i + 1 < numbers_length ? ' ' : '\n');
    load("what was written", image, tree_length, values, numbers_length);
}

int main(void)
{
    uint8_t damaged[sizeof tree];
    uint64_t rule = 7;
    uint32_t number;
    size_t looked = 7;

    number = yarnhollow_get(LENT(&rules), NULL, 0, &rule, &looked);
    printf("get before make: %s, rule still %" PRIu64 ", looked still %zu\n", meaning(number), rule, looked);
    must("make", yarnhollow_make(LENT(&rules)));
    load("image", tree, sizeof tree, numbers, 4);
    memcpy(damaged, tree, sizeof tree);
    damaged[9] = 0x3E;
    load("damaged image", damaged, sizeof damaged, numbers, 4);
    load("image cut short", tree, sizeof tree - 1, numbers, 4);
    show_counts("rules", &rules);
    look_up("/img/logo.png");
    look_up("/shop/cart");
    look_up("/index.html");
    store("/shop/cart", 22);
    store("/shop/cat", ((uint64_t)7 << 32) + 23);
    drop("/shop/dog");
    list("/shop/");
    purge("/img/");
    purge("/css/");
    drop("/shop/cat");
    write_back();
    show_counts("rules", &rules);
    return 0;
}
