/* How long the shared length of two runs takes, by the plain loop and by steps of eight, side by side in one run. The
 * runs stand at odd places, as they do in a pool, and share so many bytes: then either they differ, and both go on for
 * some bytes more, or the key ends. Prints for each the best round of many calls, in nanoseconds a call, and how many
 * times as fast the steps are. */
#include <stdint.h>
#include <stdio.h>
#include <stdlib.h>
#include <time.h>

#define CALLS 10000
#define ROUNDS 301
#define BEHIND 24

size_t probe_shared(const uint8_t *k, size_t k_length, const uint8_t *l, size_t l_length);
size_t probe_shared_singly(const uint8_t *k, size_t k_length, const uint8_t *l, size_t l_length);

typedef size_t count(const uint8_t *, size_t, const uint8_t *, size_t);

static uint8_t key_room[512], label_room[512];

static double now(void)
{
    struct timespec t;
    clock_gettime(CLOCK_MONOTONIC, &t);
    return (double)t.tv_sec * 1e9 + (double)t.tv_nsec;
}

static double round_of(count *f, size_t k_length, size_t l_length, size_t shared)
{
    const uint8_t *k = key_room + 3, *l = label_room + 255;
    size_t sum = 0;
    double from = now();
    for (int i = 0; i < CALLS; i++) {
        sum += f(k, k_length, l, l_length);
        __asm__ volatile("" ::: "memory");
    }
    double took = (now() - from) / CALLS;
    if (sum != shared * CALLS) {
        printf("wrong count at %zu\n", shared);
        exit(1);
    }
    return took;
}

static void measure(const char *how, size_t shared, int differ)
{
    double singly = 1e18, eights = 1e18;
    size_t k_length = differ ? shared + BEHIND : shared, l_length = shared + BEHIND;
    for (size_t i = 0; i < l_length; i++)
        key_room[3 + i] = label_room[255 + i] = (uint8_t)(7 * i + 3);
    if (differ)
        label_room[255 + shared] ^= 1;
    for (int round = 0; round < ROUNDS; round++) {
        double took = round_of(probe_shared_singly, k_length, l_length, shared);
        singly = took < singly ? took : singly;
        took = round_of(probe_shared, k_length, l_length, shared);
        eights = took < eights ? took : eights;
    }
    printf("| %zu | %s | %.1f | %.1f | %.2f |\n", shared, how, singly, eights, singly / eights);
}

int main(void)
{
    const size_t shared[] = {1, 2, 3, 4, 8, 16, 40, 200};
    for (size_t i = 0; i < sizeof shared / sizeof shared[0]; i++) {
        measure("differ", shared[i], 1);
        measure("one ends", shared[i], 0);
    }
    return 0;
}
