// The port's side of tools/transfers: moves through meter_in and meter_out, and a plain memcpy of the same size, in nanoseconds.
#define _GNU_SOURCE
#include <stdint.h>
#include <stdio.h>
#include <stdlib.h>
#include <string.h>
#include <time.h>

// A slice is its address and its length.
uint8_t meter_in(const uint8_t *, size_t, const uint8_t *, size_t, const uint8_t *, size_t, uint32_t, size_t, uint8_t *, size_t);
uint32_t meter_out(uint8_t *, size_t, uint8_t *, size_t, uint8_t *, size_t, uint32_t, const uint8_t *, size_t, size_t);

enum { DYNAMIC = 0x400000, SRAM = 65536, PAGE = 4096, TD = 0x20000, DATA = 0x10020, REPEATS = 15 };
static const uint32_t BASE = 0x40000000;

static double now(void) {
    struct timespec t;
    clock_gettime(CLOCK_MONOTONIC, &t);
    return t.tv_sec * 1e9 + t.tv_nsec;
}

static void put(uint8_t *p, uint32_t v) {
    v = __builtin_bswap32(v);
    memcpy(p, &v, 4);
}

static void need(int holds, const char *what) {
    if (!holds) {
        fprintf(stderr, "bench: %s\n", what);
        exit(1);
    }
}

#define BEST(move, bytes, times, call)                                 \
    do {                                                               \
        double best = 1e18;                                            \
        for (int k = 0; k < REPEATS; k++) {                            \
            double start = now();                                      \
            for (int i = 0; i < (times); i++) {                        \
                call;                                                  \
                __asm__ volatile("" ::: "memory");                     \
            }                                                          \
            double each = (now() - start) / (times);                   \
            if (each < best) best = each;                              \
        }                                                              \
        printf("%s %zu %.1f\n", move, bytes, best);                    \
    } while (0)

int main(void) {
    uint8_t *d = aligned_alloc(4096, DYNAMIC), *s = aligned_alloc(4096, SRAM), *p = aligned_alloc(4096, PAGE);
    uint8_t *area = aligned_alloc(4096, SRAM);
    need(d && s && p && area, "no memory");
    for (size_t i = 0; i < DYNAMIC; i++) d[i] = i * 7 + i / 251;
    memset(s, 1, SRAM);
    memset(p, 2, PAGE);
    for (uint32_t i = 0; i < 9; i++) put(d + TD + 8 + 4 * i, BASE + (i == 0 ? DATA : (DATA & ~0xFFF) + 4096 * i));
    size_t sizes[] = {368, 32767};
    for (int k = 0; k < 2; k++) {
        size_t n = sizes[k];
        int times = k == 0 ? 200000 : 4000;
        // The pages lie one behind the other, so a block copy is what a move must equal.
        memset(area, 0, SRAM);
        need(meter_in(d, DYNAMIC, s, SRAM, p, PAGE, BASE + TD, n, area, SRAM) == 0 && memcmp(area, d + DATA, n) == 0 && area[n] == 0, "a move in differs");
        for (size_t i = 0; i < n; i++) area[i] = i * 13 + k;
        uint8_t next = d[DATA + n];
        need(meter_out(d, DYNAMIC, s, SRAM, p, PAGE, BASE + TD, area, SRAM, n) == 0 && memcmp(area, d + DATA, n) == 0 && d[DATA + n] == next, "a move out differs");
        need(meter_in(d, DYNAMIC, s, SRAM - 1, p, PAGE, BASE + TD, n, area, SRAM) == 1, "a wrong length is taken");
        need(meter_out(d, DYNAMIC, s, SRAM, p, PAGE, BASE + TD, area, n - 1, n) == 0x20000, "a short source is taken");
        BEST("in", n, times, meter_in(d, DYNAMIC, s, SRAM, p, PAGE, BASE + TD, n, area, SRAM));
        BEST("copyin", n, times, memcpy(area, d + DATA, n));
        BEST("out", n, times, meter_out(d, DYNAMIC, s, SRAM, p, PAGE, BASE + TD, area, SRAM, n));
        BEST("copyout", n, times, memcpy(d + DATA, area, n));
    }
    return 0;
}
