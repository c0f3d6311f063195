/* The weighted list of BS.1770-4 Annex 1: what bench_meters does, by the filter of meters.h. */
#include "meters.h"
#include <stdio.h>
#include <stdlib.h>

#define ROUND 48000

static filter state_of_all;

static void feed(const int32_t *samples, int32_t *out) {
    filter state = state_of_all;
    for (int i = 0; i < ROUND; i++)
        out[i] = weighted(&state, (int64_t)samples[i] * (1 << 24));
    state_of_all = state;
}

int main(int count, char **words) {
    long rounds = count > 2 ? atol(words[2]) : 1;
    int32_t *samples = malloc(ROUND * sizeof *samples), *out = calloc(ROUND, sizeof *out);
    uint32_t state = 1;
    for (int i = 0; i < ROUND; i++) {
        state = state * 1664525u + 1013904223u;
        samples[i] = (int32_t)(state >> 16) - 32768;
    }
    for (long round = 0; round < rounds; round++)
        feed(samples, out);
    uint64_t sum = 0;
    for (int i = 0; i < ROUND; i++)
        sum = sum * 31 + (uint32_t)out[i];
    printf("%llu\n", (unsigned long long)sum);
}
