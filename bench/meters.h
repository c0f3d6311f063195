/* The filter of BS.1770-4 Annex 1 and the true peak of its Annex 2 in whole numbers, in plain C, a
 * sample at a time.
 *
 * With FAST the floor of a division by 10^14 is taken as the library takes it, by a reciprocal and
 * one correction, and the second section's whole part is apart; without it, by the division of 128
 * bits that the definition is written with. */
#include <stdint.h>

typedef __int128 wide;

#define UNIT 100000000000000LL
#define OUTPUT_LIMIT (1LL << 50)
#define REACH 11

/* the last two inputs, outputs of the first section, and outputs of the second */
typedef struct {
    int64_t x1, x2, u1, u2, v1, v2;
} filter;

static int64_t held(int64_t limit, int64_t value) {
    return value < -limit ? -limit : value > limit ? limit : value;
}

#ifdef FAST
static inline int64_t floor_units(wide sum) {
    const int64_t reciprocal = 6490371073168534535LL; /* 2^109 / 10^14 */
    int64_t whole = (int64_t)(((wide)(int64_t)(sum >> 35) * reciprocal) >> 74);
    return sum - (wide)whole * UNIT >= UNIT ? whole + 1 : whole;
}
#else
static inline int64_t floor_units(wide sum) {
    wide whole = sum / UNIT;
    return (int64_t)(sum % UNIT < 0 ? whole - 1 : whole);
}
#endif

/* the weighted value of the next sample, which enters in units of 2^-39 of full scale */
static inline int32_t weighted(filter *f, int64_t input) {
    int64_t u = held(OUTPUT_LIMIT, floor_units(
        (wide)153512485958697 * input - (wide)269169618940638 * f->x1 + (wide)119839281085285 * f->x2
        + (wide)169065929318241 * f->u1 - (wide)73248077421585 * f->u2 + UNIT / 2));
#ifdef FAST
    int64_t v = held(OUTPUT_LIMIT, u - 2 * f->u1 + f->u2 + 2 * f->v1 - f->v2 + floor_units(
        (wide)-995254516602 * f->v1 + (wide)992774963379 * f->v2 + UNIT / 2));
#else
    int64_t v = held(OUTPUT_LIMIT, floor_units(
        (wide)UNIT * u - (wide)(2 * UNIT) * f->u1 + (wide)UNIT * f->u2
        + (wide)199004745483398 * f->v1 - (wide)99007225036621 * f->v2 + UNIT / 2));
#endif
    f->x2 = f->x1, f->x1 = input, f->u2 = f->u1, f->u1 = u, f->v2 = f->v1, f->v1 = v;
    return (int32_t)held(1 << 30, (v + 2048) >> 12);
}

static const int64_t taps[4][12] = {
    {14, 90, -161, 272, -487, 1125, 7964, -838, 390, -218, 122, -68},
    {-239, 240, -424, 730, -1364, 3810, 6388, -1641, 832, -477, 271, -155},
    {-155, 271, -477, 832, -1641, 6388, 3810, -1364, 730, -424, 240, -239},
    {-68, 122, -218, 390, -838, 7964, 1125, -487, 272, -161, 90, 14},
};

static int64_t size(int64_t value) {
    return value < 0 ? -value : value;
}

/* the greatest size so far and at one place more, whose sample is scaled to 24 bits; REACH more stand
 * before it */
static inline int64_t raised(int64_t greatest, const int64_t *sample) {
    int64_t own = 8192 * size(*sample);
    if (own > greatest)
        greatest = own;
    for (int phase = 0; phase < 4; phase++) {
        int64_t value = 0;
        for (int i = 0; i < 12; i++)
            value += taps[phase][i] * sample[-i];
        if (size(value) > greatest)
            greatest = size(value);
    }
    return greatest;
}
