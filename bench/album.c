/* The loudness and the range of an album of 256 recordings with 60 segments each, in plain C: what
 * bench_albums does. The blocks are gated list after list; for the range the windows that pass both gates
 * are copied into one list and sorted. */
#include <math.h>
#include <stdint.h>
#include <stdio.h>
#include <stdlib.h>
#include <string.h>

typedef unsigned __int128 wide;

#define RECORDINGS 256
#define SEGMENTS 60
#define BLOCKS (SEGMENTS - 3)
#define WINDOWS (SEGMENTS - 29)

static const wide full_power = ((wide)11724653) << 54;
static wide blocks[RECORDINGS][BLOCKS], windows[RECORDINGS][WINDOWS], kept[RECORDINGS * WINDOWS];

static void fill(void) {
    uint32_t state = 1;
    for (int id = 0; id < RECORDINGS; id++) {
        wide segments[SEGMENTS];
        for (int i = 0; i < SEGMENTS; i++) {
            state = state * 1664525u + 1013904223u;
            segments[i] = (wide)(state >> 16) << 57 >> id % 16;
        }
        for (int i = 0; i < BLOCKS; i++)
            for (int j = 0; j < 4; j++)
                blocks[id][i] += segments[i + j];
        for (int i = 0; i < WINDOWS; i++)
            for (int j = 0; j < 30; j++)
                windows[id][i] += segments[i + j];
    }
}

static long hundredths(wide a, wide b) {
    return lround(1000 * log10((double)a / (double)b));
}

static long loudness(void) {
    wide count = 0, sum = 0, near = 0, power = 0;
    for (int id = 0; id < RECORDINGS; id++)
        for (int i = 0; i < BLOCKS; i++)
            if (blocks[id][i] * 1250000000 > 24 * full_power)
                count++, sum += blocks[id][i];
    for (int id = 0; id < RECORDINGS; id++)
        for (int i = 0; i < BLOCKS; i++)
            if (blocks[id][i] * 1250000000 > 24 * full_power && 10 * count * blocks[id][i] > sum)
                near++, power += blocks[id][i];
    return hundredths(125 * (power / near), 24 * full_power);
}

static int order(const void *one, const void *other) {
    wide a = *(const wide *)one, b = *(const wide *)other;
    return (a > b) - (a < b);
}

static long range(void) {
    wide count = 0, sum = 0;
    for (int id = 0; id < RECORDINGS; id++)
        for (int i = 0; i < WINDOWS; i++)
            if (windows[id][i] * 1250000000 >= 180 * full_power)
                count++, sum += windows[id][i];
    long n = 0;
    for (int id = 0; id < RECORDINGS; id++)
        for (int i = 0; i < WINDOWS; i++)
            if (windows[id][i] * 1250000000 >= 180 * full_power && 100 * count * windows[id][i] >= sum)
                kept[n++] = windows[id][i];
    qsort(kept, n, sizeof *kept, order);
    return hundredths(kept[(2 * (n - 1) * 95 + 100) / 200], kept[(2 * (n - 1) * 10 + 100) / 200]);
}

int main(int count, char **words) {
    long rounds = count > 2 ? atol(words[2]) : 1, sum = 0;
    int ranges = count > 1 && strcmp(words[1], "range") == 0;
    fill();
    for (long round = 0; round < rounds; round++)
        sum += ranges ? range() : loudness();
    printf("%ld\n", sum);
}
