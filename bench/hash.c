// Measures the proved checksum beside plain C ones: CRC-16/IBM-3740, a byte a step by a table of 256 and two bytes a step
// by two. bench/hash builds and runs this. Prints a line for each size, and ends with status 1 if two sums ever differ.
#define _POSIX_C_SOURCE 199309L
#include <stdint.h>
#include <stdio.h>
#include <stdlib.h>
#include <time.h>

enum { ROUNDS = 9, LARGEST = 67108864 };

typedef uint16_t hash_fn(const uint8_t *bytes, size_t length);

// the proved function, a slice as its place and its length
hash_fn bench_hash;

static uint16_t table[256], second[256];

static uint16_t after_bits(unsigned r, int bits)
{
    for (int bit = 0; bit < bits; bit++)
        r = r & 0x8000 ? r << 1 ^ 0x1021 : r << 1;
    return (uint16_t)r;
}

static void fill_tables(void)
{
    for (unsigned k = 0; k < 256; k++) {
        table[k] = after_bits(k << 8, 8);
        second[k] = after_bits(k << 8, 16);
    }
}

static uint16_t plain_bytes(const uint8_t *bytes, size_t length)
{
    uint16_t r = 0xffff;
    for (size_t i = 0; i < length; i++)
        r = (uint16_t)(r << 8) ^ table[r >> 8 ^ bytes[i]];
    return r;
}

static uint16_t plain_pairs(const uint8_t *bytes, size_t length)
{
    uint16_t r = 0xffff;
    size_t i = 0;
    for (; i + 1 < length; i += 2)
        r = second[r >> 8 ^ bytes[i]] ^ table[(r & 0xff) ^ bytes[i + 1]];
    return i < length ? (uint16_t)(r << 8) ^ table[r >> 8 ^ bytes[i]] : r;
}

// Calls go through these, so that the compiler can neither merge nor skip them.
enum { PROVED, BYTES, PAIRS, SIDES };
static hash_fn *volatile const sides[SIDES] = {bench_hash, plain_bytes, plain_pairs};

static double now(void)
{
    struct timespec t;
    clock_gettime(CLOCK_MONOTONIC, &t);
    return (double)t.tv_sec + (double)t.tv_nsec / 1e9;
}

// The seconds that `calls` calls take.
static double timed(int side, const uint8_t *bytes, size_t length, size_t calls)
{
    double began = now();
    for (size_t i = 0; i < calls; i++)
        sides[side](bytes, length);
    return now() - began;
}

static int agree(const uint8_t *bytes, size_t length)
{
    uint16_t sum = sides[PROVED](bytes, length);
    return sides[BYTES](bytes, length) == sum && sides[PAIRS](bytes, length) == sum;
}

static int measure(const uint8_t *bytes, size_t length)
{
    size_t calls = LARGEST / length;
    double best[SIDES] = {1e9, 1e9, 1e9};
    for (int round = 0; round < ROUNDS; round++)
        for (int side = 0; side < SIDES; side++) {
            double took = timed(side, bytes, length, calls);
            if (took < best[side])
                best[side] = took;
        }
    double megabytes = (double)length * (double)calls / 1e6;
    int right = agree(bytes, length);
    printf("%10zu  %11.0f  %11.0f  %11.0f  %11.2f  %11.2f  %s\n", length, megabytes / best[PROVED], megabytes / best[BYTES],
           megabytes / best[PAIRS], best[BYTES] / best[PROVED], best[PAIRS] / best[PROVED], right ? "agree" : "DIFFER");
    return right;
}

int main(void)
{
    static const size_t lengths[] = {13, 4096, LARGEST};
    const uint8_t *digits = (const uint8_t *)"123456789";
    uint8_t *bytes = malloc(LARGEST);
    if (!bytes) {
        fputs("hash: no room for 64 MiB\n", stderr);
        return 1;
    }
    uint32_t seed = 1;
    for (size_t i = 0; i < LARGEST; i++) {
        seed = seed * 1664525 + 1013904223;
        bytes[i] = (uint8_t)(seed >> 24);
    }
    fill_tables();

    int right = agree(digits, 9) && sides[PROVED](digits, 9) == 0x29b1;
    printf("sum of \"123456789\": %04x, catalogue 29b1: %s\n", sides[PROVED](digits, 9), right ? "agree" : "DIFFER");
    printf("%10s  %11s  %11s  %11s  %11s  %11s  %s\n", "bytes", "proved MB/s", "C, 1 a step", "C, 2 a step", "over C, 1", "over C, 2",
           "sums");
    for (size_t i = 0; i < sizeof lengths / sizeof *lengths; i++)
        right &= measure(bytes, lengths[i]);
    free(bytes);
    return right ? 0 : 1;
}
