/* The worst case of remove: an image whose nodes all have one byte, no number and one child, but for the last, which has two.
 * Removing one of those two lets every ancestor take in its only child. Prints the best of some calls, in nanoseconds. */
#include <stdint.h>
#include <stdio.h>
#include <string.h>
#include <time.h>
#include "yarnhollow.h"

#define SLOTS 16384

static uint8_t labels[YARNHOLLOW_LABELS(SLOTS)];
static uint32_t words[YARNHOLLOW_WORDS(SLOTS)];
static uint8_t image[32768];
static uint8_t key[4096];

static double now(void)
{
    struct timespec t;
    clock_gettime(CLOCK_MONOTONIC, &t);
    return (double)t.tv_sec * 1e9 + (double)t.tv_nsec;
}

static size_t record(size_t at, int flags, int length, int level, uint8_t byte)
{
    image[at] = (uint8_t)flags;
    image[at + 1] = (uint8_t)length;
    image[at + 2] = (uint8_t)(level >> 8);
    image[at + 3] = (uint8_t)level;
    image[at + 4] = byte;
    return at + 4 + (size_t)length;
}

static int chain(int depth)
{
    const uint64_t numbers[2] = {1, 2};
    const size_t lb = sizeof labels, lw = sizeof words / sizeof words[0];
    size_t offset, keys, nodes, left, looked;
    uint64_t old;
    double test = 1e18, best = 1e18;
    for (int round = 0; round < 9; round++) {
        size_t at = record(0, 0x0c, 0, 0, 0);
        for (int i = 1; i <= depth; i++) {
            at = record(at, 0x0c, 1, i, 'x');
            key[i - 1] = 'x';
        }
        key[depth] = 'a';
        at = record(at, 0x33, 1, depth + 1, 'a');
        at = record(at, 0x03, 1, depth + 1, 'b');
        if (yarnhollow_read(labels, lb, words, lw, image, at, numbers, 2, &offset) != 0)
            return 1;
        double from = now();
        if (yarnhollow_counts(labels, lb, words, lw, &keys, &nodes) != 0)
            return 1;
        double took = now() - from;
        test = took < test ? took : test;
        from = now();
        if (yarnhollow_remove(labels, lb, words, lw, key, (size_t)depth + 1, &old, &looked) != 0)
            return 1;
        took = now() - from;
        best = took < best ? took : best;
        if (yarnhollow_counts(labels, lb, words, lw, &keys, &left) != 0)
            return 1;
    }
    printf("%d ancestors: %zu nodes become %zu; test %.0f ns, remove %.0f ns, %.1f tests\n", depth, nodes, left, test, best, best / test);
    return 0;
}

int main(void)
{
    return chain(1000) + chain(4000);
}
