/* Throughput of the proved CRC-32 and of zlib's, over the same 128 MiB, and over shorter runs from the cache. */
#include <stdint.h>
#include <stdio.h>
#include <stdlib.h>
#include <time.h>
#include <zlib.h>

/* crates/bench_crc: a slice is a pointer and a length */
uint32_t bench_crc_update(uint32_t state, const uint8_t *bytes, size_t len);

enum { SIZE = 128 << 20, ROUNDS = 15, STARTS = 16, LENGTHS = 700, LONGEST = 20000, CACHED = 1 << 20, CACHED_ROUNDS = 60 };

static uint32_t proved(const uint8_t *bytes, size_t len)
{
    return bench_crc_update(0xFFFFFFFF, bytes, len);
}

/* zlib complements the result: undone, so that both answers are the same number */
static uint32_t zlib(const uint8_t *bytes, size_t len)
{
    return ~(uint32_t)crc32_z(0, bytes, len);
}

static double seconds(void)
{
    struct timespec t;
    clock_gettime(CLOCK_MONOTONIC, &t);
    return t.tv_sec + t.tv_nsec * 1e-9;
}

/* the least time so far: the runs that were disturbed do not count */
static void timed(uint32_t (*crc)(const uint8_t *, size_t), const uint8_t *bytes, double *least, uint32_t *answer)
{
    double start = seconds();
    *answer = crc(bytes, SIZE);
    double took = seconds() - start;
    if (took < *least)
        *least = took;
}

static void fill(uint8_t *bytes)
{
    uint64_t x = 88172645463325252u;
    for (size_t i = 0; i < SIZE; i++) {
        x ^= x << 13;
        x ^= x >> 7;
        x ^= x << 17;
        bytes[i] = (uint8_t)x;
    }
}

static int agree_at(const uint8_t *bytes, size_t at, size_t len)
{
    if (proved(bytes + at, len) == zlib(bytes + at, len))
        return 1;
    printf("differ: start %zu, length %zu\n", at, len);
    return 0;
}

/* every short length from every start, and longer ones */
static int agree(const uint8_t *bytes)
{
    for (size_t at = 0; at < STARTS; at++) {
        for (size_t len = 0; len < LENGTHS; len++)
            if (!agree_at(bytes, at, len))
                return 0;
        for (size_t len = LENGTHS; len < LONGEST; len += 61)
            if (!agree_at(bytes, at, len))
                return 0;
    }
    return 1;
}

/* all checksums of CACHED bytes in runs, in one word, so that none can be left out */
static uint32_t in_runs(uint32_t (*crc)(const uint8_t *, size_t), const uint8_t *bytes, size_t run, double *least)
{
    uint32_t all = 0;
    double start = seconds();
    for (size_t at = 0; at + run <= CACHED; at += run)
        all = all * 31 + crc(bytes + at, run);
    double took = (seconds() - start) / (CACHED / run);
    if (took < *least)
        *least = took;
    return all;
}

static int measure_runs(const uint8_t *bytes, size_t run)
{
    double ours = 1e9, theirs = 1e9;
    for (int i = 0; i < CACHED_ROUNDS; i++)
        if (in_runs(proved, bytes, run, &ours) != in_runs(zlib, bytes, run, &theirs)) {
            printf("differ: runs of %zu\n", run);
            return 0;
        }
    printf("runs of %6zu: proved %8.1f ns, zlib %8.1f ns, ratio %.2f\n", run, ours * 1e9, theirs * 1e9, theirs / ours);
    return 1;
}

int main(void)
{
    double ours = 1e9, theirs = 1e9;
    uint32_t a, b;
    uint8_t *bytes = malloc(SIZE);
    if (!bytes)
        return 1;
    fill(bytes);
    if (!agree(bytes))
        return 1;
    for (int i = 0; i < ROUNDS; i++) {
        timed(proved, bytes, &ours, &a);
        timed(zlib, bytes, &theirs, &b);
    }
    printf("proved       %5.2f GB/s  %08x\n", SIZE / ours / 1e9, a);
    printf("zlib %-7s %5.2f GB/s  %08x\n", zlibVersion(), SIZE / theirs / 1e9, b);
    printf("ratio        %5.2f\n", theirs / ours);
    int same = a == b && measure_runs(bytes, 60) && measure_runs(bytes, 1900) && measure_runs(bytes, 126976);
    free(bytes);
    return !same;
}
