/* Measures the soundness test against a plain loop that ORs together the same 131,072 bytes. Prints the least and the median time of many repetitions. */
#include <stdbool.h>
#include <stddef.h>
#include <stdint.h>
#include <stdio.h>
#include <stdlib.h>
#include <string.h>

#include "../timing.h"

bool sound_words(const uint32_t *control, size_t control_len, const uint32_t *table, size_t table_len, const uint8_t *names, size_t names_len,
                 const uint8_t *committed, size_t committed_len, const uint8_t *staged, size_t staged_len, const uint8_t *image, size_t image_len,
                 const uint8_t *hash, size_t hash_len);
uint8_t or_all(const uint8_t *bytes, size_t n);

enum { REGIONS = 65536, REPEATS = 20001 };

static uint32_t control[40], table[64];
static uint8_t names[512], committed[REGIONS], staged[REGIONS], image[16384], hash[64];
static double times[REPEATS];
static volatile uint32_t sink;

static bool test(void) { return sound_words(control, 40, table, 64, names, 512, committed, REGIONS, staged, REGIONS, image, 16384, hash, 64); }

static uint32_t run_test(void) { return test(); }

static uint32_t run_or(void) { return or_all(committed, REGIONS) | or_all(staged, REGIONS); }

/* the least and the median time, in nanoseconds */
typedef struct {
    double least, median;
} Time;

static Time measure(const char *what, uint32_t (*run)(void)) {
    for (int i = 0; i < REPEATS; i++) {
        double start = now();
        sink = run();
        times[i] = now() - start;
    }
    qsort(times, REPEATS, sizeof times[0], by_value);
    printf("%-46s least %8.0f ns   median %8.0f ns\n", what, times[0], times[REPEATS / 2]);
    return (Time){times[0], times[REPEATS / 2]};
}

static void against(const char *what, Time time, Time plain) {
    printf("%s state against the plain loop: %.2f times (least), %.2f times (median)\n", what, time.least / plain.least, time.median / plain.median);
}

/* 16 used slots, all committed, each with a writing session and different names of 24 letters */
static void fill(void) {
    control[0] = control[1] = control[2] = 65535;
    for (int k = 0; k < 16; k++) {
        control[3 + k] = 4096;
        control[19 + k] = 4096;
        table[4 * k] = k;
        table[4 * k + 1] = k;
        table[4 * k + 2] = 3;
        memcpy(names + 32 * k, "/scan/abcdefghijklmnopqrstuvwx", 31);
        names[32 * k + 29] = 'A' + k;
    }
    memset(committed, 7, REGIONS);
    memset(staged, 9, REGIONS);
}

int main(void) {
    if (!test()) return puts("the fresh state is not sound"), 1;
    Time plain = measure("plain C loop, OR of 131,072 bytes", run_or);
    Time fresh = measure("soundness test, fresh state", run_test);
    against("fresh", fresh, plain);
    committed[REGIONS - 1] = 1;
    if (test()) return puts("a byte in an unused slot's region was accepted"), 1;
    committed[REGIONS - 1] = 0;
    fill();
    if (!test()) return puts("the full state is not sound"), 1;
    Time full = measure("soundness test, 16 slots and 16 rows used", run_test);
    against("full", full, plain);
    names[32 * 15 + 29] = 'A';
    if (test()) return puts("two equal names were accepted"), 1;
    return 0;
}
