/* The samples of a channel out of a wave's bytes, piece by piece, in plain C: what bench_meters does. */
#include <stdint.h>
#include <stdio.h>
#include <stdlib.h>
#include <string.h>

#define CHANNELS 2
#define FRAMES 24000
#define FILLED 4000

static void fill_16(const uint8_t *bytes, size_t channel, size_t start, int32_t *out) {
    for (size_t i = 0; i < FILLED; i++) {
        const uint8_t *at = bytes + 2 * (CHANNELS * (start + i) + channel);
        out[i] = (int16_t)(at[0] | at[1] << 8);
    }
}

static void fill_24(const uint8_t *bytes, size_t channel, size_t start, int32_t *out) {
    for (size_t i = 0; i < FILLED; i++) {
        const uint8_t *at = bytes + 3 * (CHANNELS * (start + i) + channel);
        out[i] = (int32_t)((uint32_t)at[0] << 8 | (uint32_t)at[1] << 16 | (uint32_t)at[2] << 24) >> 8;
    }
}

int main(int count, char **words) {
    int deep = count > 1 && strcmp(words[1], "fill24") == 0;
    long rounds = count > 2 ? atol(words[2]) : 1;
    size_t whole = (size_t)FRAMES * CHANNELS * (deep ? 3 : 2);
    uint8_t *bytes = malloc(whole);
    int32_t *out = calloc(FILLED, sizeof *out);
    uint32_t state = 1;
    for (size_t i = 0; i < whole; i++) {
        state = state * 1664525u + 1013904223u;
        bytes[i] = state >> 24;
    }
    uint64_t sum = 0;
    for (long round = 0; round < rounds; round++)
        for (size_t channel = 0; channel < CHANNELS; channel++)
            for (size_t start = 0; start < FRAMES; start += FILLED) {
                if (deep)
                    fill_24(bytes, channel, start, out);
                else
                    fill_16(bytes, channel, start, out);
                sum += (uint32_t)out[0];
            }
    uint64_t checksum = 0;
    for (int i = 0; i < FILLED; i++)
        checksum = checksum * 31 + (uint32_t)out[i];
    printf("%llu\n", (unsigned long long)(checksum + sum));
    return 0;
}
