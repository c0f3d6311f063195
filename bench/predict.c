/* Samples from their residuals (RFC 9639 sections 9.2.5 and 9.2.6) in plain C: what bench_flac does. */
#include <stdint.h>
#include <stdio.h>
#include <stdlib.h>
#include <string.h>

#define BLOCK 4096
#define DEPTH 16
#define SHIFT 14

/* the first place whose sample leaves the depth, or -1 */
static int restore_fixed_2(int32_t *samples, int count, int depth) {
    int64_t limit = (int64_t)1 << (depth - 1);
    for (int place = 2; place < count; place++) {
        int64_t value = samples[place] + 2 * (int64_t)samples[place - 1] - samples[place - 2];
        if (value < -limit || value >= limit)
            return place;
        samples[place] = (int32_t)value;
    }
    return -1;
}

static int restore_linear(const int32_t *weights, int order, int shift, int32_t *samples, int count, int depth) {
    int64_t limit = (int64_t)1 << (depth - 1);
    for (int place = order; place < count; place++) {
        int64_t sum = 0;
        for (int k = 0; k < order; k++)
            sum += (int64_t)weights[k] * samples[place - 1 - k];
        int64_t value = samples[place] + (sum >> shift);
        if (value < -limit || value >= limit)
            return place;
        samples[place] = (int32_t)value;
    }
    return -1;
}

static void noise(int32_t *values, int count) {
    uint32_t state = 1;
    for (int i = 0; i < count; i++) {
        state = state * 1664525u + 1013904223u;
        values[i] = (int32_t)(state >> 16) - 32768;
    }
}

int main(int count, char **words) {
    const char *kind = count > 1 ? words[1] : "fixed";
    long rounds = count > 2 ? atol(words[2]) : 1;
    int fixed = strcmp(kind, "fixed") == 0;
    int order = fixed ? 2 : atoi(kind + strlen("linear"));
    int shift = fixed ? 0 : SHIFT;
    int32_t weights[32] = {2, -1}, coded[BLOCK], block[BLOCK];
    if (!fixed) {
        noise(weights, order);
        for (int k = 0; k < order; k++)
            weights[k] >>= 1;
    }
    noise(coded, BLOCK);
    for (int place = BLOCK - 1; place >= order; place--) {
        int64_t sum = 0;
        for (int k = 0; k < order; k++)
            sum += (int64_t)weights[k] * coded[place - 1 - k];
        coded[place] -= (int32_t)(sum >> shift);
    }
    for (long round = 0; round < rounds; round++) {
        memcpy(block, coded, sizeof block);
        int place = fixed ? restore_fixed_2(block, BLOCK, DEPTH) : restore_linear(weights, order, shift, block, BLOCK, DEPTH);
        if (place >= 0) {
            fprintf(stderr, "out of depth at %d\n", place);
            return 1;
        }
    }
    uint64_t sum = 0;
    for (int place = 0; place < BLOCK; place++)
        sum = sum * 31 + (uint32_t)block[place];
    printf("%llu\n", (unsigned long long)sum);
}
