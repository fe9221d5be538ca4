/* What looking up a row takes: the library's search, which visits used rows only, beside one through all 16 rows (linear.txt).
 * Prints, for each table, least and median of some rounds; the two take turns, so that a machine that becomes slower is so for both.
 * First both are asked the same of every mask, and must agree. */
#include <stdint.h>
#include <stdio.h>
#include <stdlib.h>

#include "../timing.h"
#include "kramsnep.h"

size_t row_by_all(uint32_t identifier, uint32_t rows, const uint32_t *table, size_t table_len);
size_t row_by_used(uint32_t identifier, uint32_t rows, const uint32_t *table, size_t table_len);

enum { FIRST = 1000, ABSENT = 5, ROUNDS = 41, LOOKUPS = 1 << 18 };

typedef size_t search(uint32_t, uint32_t, const uint32_t *, size_t);

static uint32_t table[KRAMSNEP_TABLE_WORDS];
static uint32_t asked[LOOKUPS];
static volatile size_t sink;

/* Nanoseconds of one of LOOKUPS lookups. */
static double time_of(search *by, uint32_t rows)
{
    size_t sum = 0;
    double begin = now();
    for (int i = 0; i < LOOKUPS; i++)
        sum += by(asked[i], rows, table, KRAMSNEP_TABLE_WORDS);
    double took = now() - begin;
    sink = sum;
    return took / LOOKUPS;
}

static void measure(const char *used, const char *which, uint32_t rows)
{
    double all[ROUNDS], some[ROUNDS];
    for (int i = 0; i < ROUNDS; i++) {
        all[i] = time_of(row_by_all, rows);
        some[i] = time_of(row_by_used, rows);
    }
    qsort(all, ROUNDS, sizeof *all, by_value);
    qsort(some, ROUNDS, sizeof *some, by_value);
    printf("%-24s %-16s all rows %5.2f (%5.2f) ns, used rows %5.2f (%5.2f) ns, %4.2f times (medians)\n", used, which, all[ROUNDS / 2], all[0],
           some[ROUNDS / 2], some[0], some[ROUNDS / 2] / all[ROUNDS / 2]);
}

static void ask(uint32_t identifier)
{
    for (int i = 0; i < LOOKUPS; i++)
        asked[i] = identifier;
}

/* Used rows in a random order, which is too long for a branch predictor to learn. */
static void ask_any(uint32_t rows)
{
    uint32_t state = 1;
    for (int i = 0; i < LOOKUPS;) {
        state = state * 1664525u + 1013904223u;
        uint32_t row = (state >> 16) % KRAMSNEP_ROWS;
        if ((rows >> row & 1u) != 0)
            asked[i++] = FIRST + row;
    }
}

static void agree(void)
{
    for (uint32_t rows = 0; rows < 1u << KRAMSNEP_ROWS; rows++)
        for (uint32_t identifier = FIRST; identifier <= FIRST + KRAMSNEP_ROWS; identifier++)
            if (row_by_all(identifier, rows, table, KRAMSNEP_TABLE_WORDS) != row_by_used(identifier, rows, table, KRAMSNEP_TABLE_WORDS)) {
                fprintf(stderr, "rows: identifier %u, mask %#x: the searches differ\n", identifier, rows);
                exit(1);
            }
}

int main(void)
{
    static const struct {
        const char *used;
        uint32_t rows;
        uint32_t first, last;
    } tables[] = {{"1 used, row 0", 0x0001, 0, 0}, {"1 used, row 15", 0x8000, 15, 15}, {"8 used, rows 0 to 7", 0x00FF, 0, 7}, {"8 used, every other", 0xAAAA, 1, 15},
                  {"16 used", 0xFFFF, 0, 15}};
    for (uint32_t row = 0; row < KRAMSNEP_ROWS; row++)
        table[row * KRAMSNEP_ROW_WORDS] = FIRST + row;
    agree();
    ask(FIRST);
    for (int i = 0; i < ROUNDS; i++) /* so that the processor is awake */
        (void)(time_of(row_by_all, 1) + time_of(row_by_used, 1));
    for (size_t i = 0; i < sizeof tables / sizeof *tables; i++) {
        ask(FIRST + tables[i].first);
        measure(tables[i].used, "found first", tables[i].rows);
        ask(FIRST + tables[i].last);
        measure(tables[i].used, "found last", tables[i].rows);
        ask(ABSENT);
        measure(tables[i].used, "not found", tables[i].rows);
        ask_any(tables[i].rows);
        measure(tables[i].used, "any of the used", tables[i].rows);
    }
}
