/* The true peak of BS.1770-4 Annex 2: what bench_meters does, by meters.h.
 *
 * It keeps the eleven samples before a place in front of each round's, and adds up all the taps. */
#include "meters.h"
#include <stdio.h>
#include <stdlib.h>
#include <string.h>

#define ROUND 48000

/* the greatest size so far, over the places of so many samples; REACH more stand before them */
static int64_t feed(const int64_t *samples, int count, int64_t greatest) {
    for (int place = 0; place < count; place++)
        greatest = raised(greatest, samples + place);
    return greatest;
}

int main(int count, char **words) {
    long rounds = count > 2 ? atol(words[2]) : 1;
    int fading = count > 1 && strcmp(words[1], "fading") == 0;
    int64_t *room = calloc(REACH + ROUND, sizeof *room), *samples = room + REACH;
    uint32_t state = 1;
    for (int i = 0; i < ROUND; i++) {
        state = state * 1664525u + 1013904223u;
        int32_t sample = (int32_t)(state >> 16) - 32768;
        samples[i] = (fading ? sample >> (i % 12000 / 1500) : sample) * 256LL;
    }
    int64_t greatest = 0;
    for (long round = 0; round < rounds; round++) {
        greatest = feed(samples, ROUND, greatest);
        memcpy(room, samples + ROUND - REACH, REACH * sizeof *room);
    }
    memset(samples, 0, REACH * sizeof *samples);
    printf("%lld\n", (long long)feed(samples, REACH, greatest));
}
