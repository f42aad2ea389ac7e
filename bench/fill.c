/* The loops of slab_fill in C, one batch of at most 64 KiB each: what a batch takes, in nanoseconds.
 *
 *     gcc -O2 -o fill bench/fill.c && ./fill
 *     gcc -O2 -Wa,-mbranches-within-32B-boundaries -o fill bench/fill.c && ./fill
 *
 * The second build takes luck out of where the loops lie: of the spaced Int32s the first takes twice
 * as long. The loops are `noipa`, so that they are not made for these very steps and counts.
 *
 * The other side is a program of a page, which is not kept: for each type a plan of 100,000 elements
 * of rank 1, end to end or every second one, and 600 rounds in which each plan's first batch is filled
 * 50 times by one worker between two `Instant::now`. Both sides use two buffers of 65,536 bytes for
 * all loops, and go round them again and again, since what the machine does beside them changes: how
 * the buffers lie to one another is worth a fifth of a copy. Run the two in turn, and compare the
 * least times.
 */
#include <stdint.h>
#include <stdio.h>
#include <stdlib.h>
#include <string.h>
#include <time.h>

#define LOOP __attribute__((noipa)) static void

static uint8_t *raw, *out;

static double now(void) {
    struct timespec t;
    clock_gettime(CLOCK_MONOTONIC, &t);
    return t.tv_sec * 1e9 + t.tv_nsec;
}

static inline void signed_one(const uint8_t *from, uint8_t *to) {
    uint16_t half;
    memcpy(&half, from, 2);
    uint32_t word = __builtin_bswap32((uint32_t)(int32_t)(int16_t)__builtin_bswap16(half));
    memcpy(to, &word, 4);
}

static inline void unsigned_one(const uint8_t *from, uint8_t *to) {
    uint16_t half;
    memcpy(&half, from, 2);
    uint32_t word = __builtin_bswap32((uint32_t)__builtin_bswap16(half));
    memcpy(to, &word, 4);
}

LOOP extend(const uint8_t *restrict from, size_t step, uint8_t *restrict to, size_t n) {
    for (size_t j = 0; j < n; j++)
        signed_one(from + j * step, to + 4 * j);
}

LOOP extend_dense(const uint8_t *restrict from, uint8_t *restrict to, size_t n) {
    for (size_t j = 0; j < n; j++)
        signed_one(from + 2 * j, to + 4 * j);
}

LOOP widen_dense(const uint8_t *restrict from, uint8_t *restrict to, size_t n) {
    for (size_t j = 0; j < n; j++)
        unsigned_one(from + 2 * j, to + 4 * j);
}

LOOP bytes(const uint8_t *restrict from, size_t step, uint8_t *restrict to, size_t n) {
    for (size_t j = 0; j < n; j++)
        to[j] = from[j * step];
}

LOOP words(const uint8_t *restrict from, size_t step, uint8_t *restrict to, size_t n) {
    for (size_t j = 0; j < n; j++)
        memcpy(to + 4 * j, from + j * step, 4);
}

LOOP doubles(const uint8_t *restrict from, size_t step, uint8_t *restrict to, size_t n) {
    for (size_t j = 0; j < n; j++)
        memcpy(to + 8 * j, from + j * step, 8);
}

LOOP all(const uint8_t *restrict from, uint8_t *restrict to, size_t n) {
    memcpy(to, from, n);
}

static void dense_int16(void) { extend_dense(raw, out, 16384); }
static void dense_uint16(void) { widen_dense(raw, out, 16384); }
static void dense_int32(void) { all(raw, out, 65536); }
static void dense_byte(void) { all(raw, out, 65536); }
static void spaced_int32(void) { words(raw, 8, out, 8192); }
static void spaced_int16(void) { extend(raw, 4, out, 16384); }
static void spaced_float64(void) { doubles(raw, 16, out, 4096); }
static void spaced_byte(void) { bytes(raw, 2, out, 32768); }

static struct {
    const char *name;
    void (*run)(void);
    double least;
} loops[] = {
    {"dense Int16", dense_int16, 1e18},   {"dense UInt16", dense_uint16, 1e18},
    {"dense Int32", dense_int32, 1e18},   {"dense Byte", dense_byte, 1e18},
    {"spaced Int32", spaced_int32, 1e18}, {"spaced Int16", spaced_int16, 1e18},
    {"spaced Float64", spaced_float64, 1e18}, {"spaced Byte", spaced_byte, 1e18},
};

#define COUNT (sizeof loops / sizeof *loops)

int main(void) {
    raw = malloc(65536);
    out = malloc(65536);
    memset(raw, 77, 65536);
    memset(out, 0, 65536);
    for (int round = 0; round < 600; round++)
        for (size_t i = 0; i < COUNT; i++) {
            double start = now();
            for (int call = 0; call < 50; call++)
                loops[i].run();
            double took = (now() - start) / 50;
            if (took < loops[i].least)
                loops[i].least = took;
        }
    for (size_t i = 0; i < COUNT; i++)
        printf("%s: %.0f ns\n", loops[i].name, loops[i].least);
    return 0;
}
