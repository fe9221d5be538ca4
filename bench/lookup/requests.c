/* What a whole request takes before and after a change of the library: kramsnep_respond of this tree beside before_respond, the same function of an older archive.
 * Prints, for each request, least and median of some rounds; the two take turns. Both are asked the same on the same state, which these requests leave as it is. */
#include <stdio.h>
#include <stdlib.h>
#include <string.h>

#include "../timing.h"
#include "kramsnep.h"

uint32_t before_respond(const uint8_t *request, size_t request_len, uint32_t clock,
                        uint32_t *control, size_t control_len, uint32_t *table, size_t table_len,
                        uint8_t *names, size_t names_len, uint8_t *committed, size_t committed_len,
                        uint8_t *staged, size_t staged_len, uint8_t *image, size_t image_len,
                        uint8_t *hash, size_t hash_len, uint8_t *answer, size_t answer_len);

enum { CLOCK = 7, ROUNDS = 401, REQUESTS = 64 };

static struct kramsnep_memory memory;
static uint8_t request[KRAMSNEP_MESSAGE_SIZE], answer[KRAMSNEP_ANSWER_SIZE];
static size_t length;
static volatile uint32_t sink;

static void fail(const char *what)
{
    fprintf(stderr, "requests: %s\n", what);
    exit(1);
}

static uint32_t after(void) { return kramsnep_respond_in(&memory, request, length, CLOCK, answer); }

static uint32_t before(void)
{
    struct kramsnep_memory *m = &memory;
    return before_respond(request, length, CLOCK, m->control, KRAMSNEP_CONTROL_WORDS, m->table, KRAMSNEP_TABLE_WORDS, m->names, KRAMSNEP_NAMES_SIZE,
                          m->committed, KRAMSNEP_COMMITTED_SIZE, m->staged, KRAMSNEP_STAGED_SIZE, m->image, KRAMSNEP_IMAGE_SIZE, m->hash, KRAMSNEP_HASH_SIZE,
                          answer, KRAMSNEP_ANSWER_SIZE);
}

/* Makes the request of these fields. */
static void make(uint8_t command, const void *fields, size_t count)
{
    static const uint8_t oem[] = {0xCF, 0xC2, 0x00};
    memcpy(request, oem, sizeof oem);
    request[KRAMSNEP_SUBCOMMAND_AT] = command;
    memcpy(request + KRAMSNEP_FIELDS_AT, fields, count);
    uint16_t crc = kramsnep_crc(request + KRAMSNEP_FIELDS_AT, count);
    request[KRAMSNEP_CRC_AT] = (uint8_t)crc;
    request[KRAMSNEP_CRC_AT + 1] = (uint8_t)(crc >> 8);
    length = KRAMSNEP_FIELDS_AT + count;
}

static void make_stat(unsigned scan)
{
    char name[KRAMSNEP_NAME_SIZE];
    make(KRAMSNEP_COMMAND_STAT, name, (size_t)snprintf(name, sizeof name, KRAMSNEP_NAME_BASE "moreau%u", scan) + 1);
}

static void make_session_stat(unsigned session)
{
    uint8_t fields[2] = {(uint8_t)session, (uint8_t)(session >> 8)};
    make(KRAMSNEP_COMMAND_SESSION_STAT, fields, sizeof fields);
}

/* A fresh memory with so many sessions, each on a scan of its own; their identifiers are 0, 1, 2 and so on. */
static void open_sessions(unsigned count)
{
    memset(&memory, 0, sizeof memory);
    for (unsigned i = 0; i < count; i++) {
        char fields[2 + KRAMSNEP_NAME_SIZE] = {KRAMSNEP_FLAGS_READ_WRITE, 0};
        int text = snprintf(fields + 2, KRAMSNEP_NAME_SIZE, KRAMSNEP_NAME_BASE "moreau%u", i);
        make(KRAMSNEP_COMMAND_OPEN, fields, 2 + (size_t)text + 1);
        if (KRAMSNEP_CODE(after()) != KRAMSNEP_SUCCESS || answer[KRAMSNEP_SESSION_AT] != i)
            fail("a session was not opened");
    }
}

static double time_of(uint32_t (*call)(void))
{
    uint32_t sum = 0;
    double begin = now();
    for (int i = 0; i < REQUESTS; i++)
        sum += call();
    double took = now() - begin;
    sink = sum;
    return took / REQUESTS;
}

static void measure(unsigned sessions, const char *command, const char *which, uint8_t code)
{
    double old[ROUNDS], new[ROUNDS];
    if (KRAMSNEP_CODE(before()) != code || before() != after())
        fail("the two answer differently");
    for (int i = 0; i < ROUNDS; i++) {
        old[i] = time_of(before);
        new[i] = time_of(after);
    }
    qsort(old, ROUNDS, sizeof *old, by_value);
    qsort(new, ROUNDS, sizeof *new, by_value);
    printf("%2u sessions, %-11s of %-9s before %6.0f (%6.0f) ns, after %6.0f (%6.0f) ns, %4.2f times (medians), %4.2f (least)\n", sessions, command, which,
           old[ROUNDS / 2], old[0], new[ROUNDS / 2], new[0], new[ROUNDS / 2] / old[ROUNDS / 2], new[0] / old[0]);
}

/* The command on the first session or its name, on the last, and on one that there is not. */
static void measure_each(unsigned sessions, const char *command, void (*make_for)(unsigned))
{
    make_for(0);
    measure(sessions, command, "the first", KRAMSNEP_SUCCESS);
    make_for(sessions - 1);
    measure(sessions, command, "the last", KRAMSNEP_SUCCESS);
    make_for(1000);
    measure(sessions, command, "none, CB", KRAMSNEP_NOT_FOUND);
}

int main(void)
{
    static const unsigned counts[] = {1, 8, 16};
    for (size_t i = 0; i < sizeof counts / sizeof *counts; i++) {
        open_sessions(counts[i]);
        measure_each(counts[i], "SessionStat", make_session_stat);
        measure_each(counts[i], "Stat", make_stat);
    }
}
