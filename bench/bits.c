/* Rice values (RFC 9639 section 9.2.7) and the check of a frame (section 9.3) in plain C: what bench_flac does. */
#include <stdint.h>
#include <stdio.h>
#include <stdlib.h>
#include <string.h>

#define BYTES 65536

struct reader {
    const uint8_t *bytes;
    size_t count, byte;
    unsigned bit;
};

static int next_bit(struct reader *reader) {
    if (reader->byte >= reader->count)
        return -1;
    int bit = reader->bytes[reader->byte] >> (7 - reader->bit) & 1;
    if (++reader->bit == 8) {
        reader->bit = 0;
        reader->byte++;
    }
    return bit;
}

static int slow_rice(struct reader *reader, unsigned low, uint64_t *value) {
    uint64_t quotient = 0, rest = 0;
    int bit;
    while ((bit = next_bit(reader)) == 0)
        quotient++;
    if (bit < 0)
        return -1;
    for (unsigned k = 0; k < low; k++) {
        if ((bit = next_bit(reader)) < 0)
            return -1;
        rest = rest << 1 | (uint64_t)bit;
    }
    *value = quotient << low | rest;
    return 0;
}

static int rice(struct reader *reader, unsigned low, uint64_t *value) {
    if (reader->byte + 8 <= reader->count) {
        uint64_t window;
        memcpy(&window, reader->bytes + reader->byte, 8);
        window = __builtin_bswap64(window) << reader->bit;
        if (window != 0) {
            unsigned quotient = (unsigned)__builtin_clzll(window);
            unsigned width = quotient + 1 + low;
            if (width + reader->bit <= 64) {
                *value = ((uint64_t)quotient << low) + ((window >> (63 - quotient - low)) - ((uint64_t)1 << low));
                unsigned bit = reader->bit + width;
                reader->byte += bit / 8;
                reader->bit = bit % 8;
                return 0;
            }
        }
    }
    return slow_rice(reader, low, value);
}

static uint16_t tables[8][256];

static void fill_tables(void) {
    for (int byte = 0; byte < 256; byte++) {
        uint16_t check = (uint16_t)(byte << 8);
        for (int k = 0; k < 8; k++)
            check = (uint16_t)(check << 1 ^ (check & 0x8000 ? 0x8005 : 0));
        tables[0][byte] = check;
    }
    for (int k = 1; k < 8; k++)
        for (int byte = 0; byte < 256; byte++)
            tables[k][byte] = (uint16_t)(tables[0][tables[k - 1][byte] >> 8] ^ tables[k - 1][byte] << 8);
}

static uint16_t crc16(const uint8_t *bytes, size_t count) {
    uint16_t check = 0;
    for (; count >= 8; bytes += 8, count -= 8)
        check = tables[7][bytes[0] ^ check >> 8] ^ tables[6][bytes[1] ^ (check & 0xFF)] ^ tables[5][bytes[2]] ^ tables[4][bytes[3]]
              ^ tables[3][bytes[4]] ^ tables[2][bytes[5]] ^ tables[1][bytes[6]] ^ tables[0][bytes[7]];
    for (; count > 0; bytes++, count--)
        check = (uint16_t)(tables[0][check >> 8 ^ *bytes] ^ check << 8);
    return check;
}

int main(int count, char **words) {
    const char *kind = count > 1 ? words[1] : "crc16";
    long rounds = count > 2 ? atol(words[2]) : 1;
    static uint8_t bytes[BYTES];
    uint32_t state = 1;
    for (int i = 0; i < BYTES; i++) {
        state = state * 1664525u + 1013904223u;
        bytes[i] = (uint8_t)((state >> 16) - 32768 >> 8);
    }
    fill_tables();
    uint64_t sum = 0;
    for (long round = 0; round < rounds; round++) {
        if (strcmp(kind, "crc16") == 0) {
            sum = crc16(bytes, BYTES);
            __asm__ volatile("" : : "g"(bytes) : "memory");
            continue;
        }
        unsigned low = (unsigned)atoi(kind + strlen("rice"));
        struct reader reader = {bytes, BYTES, 0, 0};
        sum = 0;
        for (long values = low == 4 ? 80000 : 40000; values > 0; values--) {
            uint64_t value;
            if (rice(&reader, low, &value) != 0) {
                fprintf(stderr, "the bits end\n");
                return 1;
            }
            sum = sum * 31 + value;
        }
    }
    printf("%llu\n", (unsigned long long)sum);
}
