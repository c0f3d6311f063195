/* Writes so many seconds of stereo at 48,000 Hz, in 16 or 24 bits, as raw samples: chords whose notes
 * fade and change twice a second, a side that is a part of them, and quiet noise. It is meant to be
 * coded like music: neither silence nor noise. */
#include <math.h>
#include <stdint.h>
#include <stdio.h>
#include <stdlib.h>

#define RATE 48000
#define NOTES 6

static uint32_t state = 1;

static double noise(void) {
    state = state * 1664525u + 1013904223u;
    return (int32_t)state / 2147483648.0;
}

static void put(double value, int bits) {
    int32_t sample = (int32_t)lrint(value * ((1 << (bits - 1)) - 1));
    for (int i = 0; i < bits; i += 8) putchar(sample >> i & 255);
}

int main(int argc, char **argv) {
    if (argc != 3) return 1;
    int bits = atoi(argv[1]), seconds = atoi(argv[2]);
    double step[NOTES] = {0}, turn[NOTES] = {0};
    for (long place = 0; place < (long)seconds * RATE; place++) {
        if (place % (RATE / 2) == 0)
            for (int i = 0; i < NOTES; i++) step[i] = 6.283185307 * 55 * pow(2, (noise() + 1) * 3) / RATE;
        double fade = exp(-3.0 * (place % (RATE / 2)) / (RATE / 2)), left = 0, right = 0;
        for (int i = 0; i < NOTES; i++) {
            double tone = sin(turn[i] += step[i]) * fade * 0.12;
            left += tone * (i + 3) / 8;
            right += tone * (10 - i) / 10;
        }
        double hiss = noise() * 0.001;
        put(left + hiss + noise() * 0.0005, bits);
        put(right + hiss + noise() * 0.0005, bits);
    }
    return 0;
}
