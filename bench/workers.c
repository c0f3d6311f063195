/* Noise measured by so many workers, in plain C: what bench_workers does, by meters.h, with the same
 * jobs in the same rounds, and the same lines printed.
 *
 * usage: workers CHANNELS BITS TENTHS WORKERS ROUNDS, the words of bench_workers
 *        workers turn TURNS THREADS, so many turns of a loop of products in each of so many threads */
#include "meters.h"
#include <pthread.h>
#include <stdio.h>
#include <stdlib.h>
#include <string.h>

#define MOST_CHANNELS 6
#define MOST_JOBS 390
#define SEGMENT 4800
#define PIECE 4096
#define SECOND 48000

typedef unsigned __int128 energy;

/* what is measured */
static int channels, bits;
static long frames;
static int32_t *samples[MOST_CHANNELS];

/* a run over places: the last eleven samples, the greatest size, and how many of the last samples are
 * so low that they can't raise it with others that are */
typedef struct {
    int64_t room[REACH + PIECE], greatest;
    int low;
} run;

/* the run over so many more samples; none are silence */
static void go_over(run *r, const int32_t *piece, int count) {
    int64_t *places = r->room + REACH, greatest = r->greatest;
    int low = r->low, scale = 1 << (24 - bits);
    for (int i = 0; i < count; i++) {
        places[i] = piece ? (int64_t)piece[i] * scale : 0;
        low = 16571 * size(places[i]) > greatest ? 0 : low + 1;
        if (low < 12)
            greatest = raised(greatest, places + i);
    }
    memmove(r->room, places + count - REACH, REACH * sizeof *places);
    r->greatest = greatest, r->low = low < 12 ? low : 12;
}

/* what a job takes, and what it finds */
typedef struct {
    int channel, takes_energies;
    long from, to; /* the places whose peak it takes */
    energy *energies;
    int64_t peak;
} job;

static energy squares(const int32_t *values, int count) {
    energy sum = 0;
    for (int i = 0; i < count; i++)
        sum += (uint64_t)((int64_t)values[i] * values[i]);
    return sum;
}

static long least(long one, long other) {
    return one < other ? one : other;
}

static void *do_job(void *given) {
    job *j = given;
    const int32_t *all = samples[j->channel];
    int32_t values[PIECE];
    filter state = {0};
    run places = {0};
    int taken = 0;
    long segment = 0, start = j->from > REACH ? j->from - REACH : 0;
    energy sum = 0;
    if (start < j->from) { /* those before count where they reach a place, but their own do not */
        go_over(&places, all + start, j->from - start);
        places.greatest = 0, places.low = 0;
    }
    if (j->takes_energies)
        j->energies = malloc((frames / SEGMENT + 1) * sizeof *j->energies);
    for (long at = j->from; at < (j->takes_energies ? frames : least(j->to, frames)); at += PIECE) {
        int count = least(PIECE, frames - at), heard = least(count, j->to - at);
        if (heard > 0)
            go_over(&places, all + at, heard);
        if (!j->takes_energies)
            continue;
        filter passing = state;
        for (int i = 0; i < count; i++)
            values[i] = weighted(&passing, (int64_t)all[at + i] * (1 << (40 - bits)));
        state = passing;
        for (int i = 0, part; i < count; i += part) {
            part = least(count - i, SEGMENT - taken);
            sum += squares(values + i, part), taken += part;
            if (taken == SEGMENT)
                j->energies[segment++] = sum, sum = 0, taken = 0;
        }
    }
    if (j->to > frames)
        go_over(&places, NULL, j->to - (j->from > frames ? j->from : frames));
    j->peak = places.greatest;
    return NULL;
}

/* does so many jobs, each but the last in a thread of its own */
static void do_round(job *jobs, int count) {
    pthread_t threads[MOST_JOBS];
    for (int i = 0; i + 1 < count; i++)
        if (pthread_create(&threads[i], NULL, do_job, &jobs[i]))
            exit(1);
    do_job(&jobs[count - 1]);
    for (int i = 0; i + 1 < count; i++)
        pthread_join(threads[i], NULL);
}

/* the place at which a stretch of so many places begins */
static long cut_at(int stretch, long places) {
    return least(stretch * places, frames + REACH);
}

/* the jobs, as measure_pool cuts a sound into them */
static int cut(job *jobs, int workers) {
    long end = frames + REACH, longest = end / 16384;
    int left = end < SECOND ? 0 : channels % workers, stretches = 1, count = 0;
    if (left) {
        int wanted = (workers / left < 2 ? 2 : 1) * workers / left - 1;
        stretches = wanted < longest ? wanted : (int)longest;
        stretches = stretches < 1 ? 1 : stretches;
    }
    long each = end / stretches + 1;
    for (int c = 0; c < channels; c++)
        jobs[count++] = (job){.channel = c, .takes_energies = 1, .to = c < channels - left ? end : 0};
    for (int c = channels - left; c < channels; c++)
        for (int s = 0; s < stretches; s++)
            jobs[count++] = (job){.channel = c, .from = cut_at(s, each), .to = cut_at(s + 1, each)};
    return count;
}

static int weight(int channel) {
    return channels < 6 || channel < 3 ? 100 : channel == 3 ? 0 : 141;
}

static void measure(int workers) {
    static job jobs[MOST_JOBS];
    int count = cut(jobs, workers);
    for (int first = 0; first < count; first += workers)
        do_round(jobs + first, least(workers, count - first));
    int64_t peak = 0;
    for (int i = 0; i < count; i++)
        peak = jobs[i].peak > peak ? jobs[i].peak : peak;
    uint64_t sum = 0;
    for (long s = 0; s < frames / SEGMENT; s++) {
        energy total = 0;
        for (int c = 0; c < channels; c++)
            total += jobs[c].energies[s] * weight(c);
        sum = sum * 31 + ((uint64_t)total & ((1ULL << 61) - 1));
    }
    for (int c = 0; c < channels; c++)
        free(jobs[c].energies);
    printf("%lld %llu\n", (long long)peak, (unsigned long long)sum);
}

static void make_noise(void) {
    for (int c = 0; c < channels; c++) {
        uint32_t state = c + 1;
        samples[c] = malloc((frames + 1) * sizeof **samples);
        for (long i = 0; i < frames; i++) {
            state = state * 1664525u + 1013904223u;
            samples[c][i] = (int32_t)(state >> (32 - bits)) - (1 << (bits - 1));
        }
    }
}

/* Four numbers go on by themselves, so that a thread waits for the multiplier alone and leaves none of
 * it to another thread on the same core. */
static void *turn(void *given) {
    volatile uint64_t kept;
    uint64_t a = 1, b = 2, c = 3, d = 4;
    for (long i = *(long *)given; i > 0; i--)
        a = a * a + 1, b = b * b + 1, c = c * c + 1, d = d * d + 1;
    kept = a ^ b ^ c ^ d;
    (void)kept;
    return NULL;
}

static void turn_together(long turns, int threads) {
    pthread_t others[64];
    for (int i = 1; i < threads; i++)
        if (pthread_create(&others[i], NULL, turn, &turns))
            exit(1);
    turn(&turns);
    for (int i = 1; i < threads; i++)
        pthread_join(others[i], NULL);
}

int main(int count, char **words) {
    if (count == 4 && strcmp(words[1], "turn") == 0) {
        turn_together(atol(words[2]), least(64, atoi(words[3])));
        return 0;
    }
    if (count != 6)
        return 1;
    channels = least(MOST_CHANNELS, atoi(words[1])), bits = atoi(words[2]);
    frames = atol(words[3]) * SEGMENT;
    make_noise();
    for (long rounds = atol(words[5]); rounds > 0; rounds--)
        measure(least(64, atoi(words[4])));
}
