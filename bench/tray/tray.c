/* tray ROUNDS FILE [BOUND]: what a message takes in a tray (kramsnep_tray) beside the same messages by single calls (kramsnep_respond): 64 messages of each kind below, on a nearly
 * fresh state and on a full one; trays of fewer messages; and the records of FILE, 64 in a tray, from the fresh state on.
 * Prints medians (and least) of so many rounds. The two take turns, so that a machine that becomes slower is so for both; each begins a round with the same state, which is put
 * in place outside the timing. Both must give the same results, responses and state in every round; with BOUND it also fails where mixed traffic takes more than so many times as
 * long in a tray. */
#include <math.h>
#include <stdbool.h>
#include <stdio.h>
#include <stdlib.h>
#include <string.h>

#include "../timing.h"
#include "kramsnep.h"

enum {
    TRAY_MESSAGES = 64,
    RECORD_FRONT = 5, /* clock and length */
    STATE_RECORDS = 512, /* as many as bring a state on at once */
    FILE_ROUNDS = 5,
    CLOCK = 30,
    READ_STEPS = 16, /* Reads go over so many places, which the shortest open scan here has */
    NEARLY_FRESH_SCAN = 1000
};

static const char held[] = KRAMSNEP_NAME_BASE "held"; /* a name that both states have, without session */

static void fail(const char *what, const char *wrong)
{
    fprintf(stderr, "tray: %s: %s\n", what, wrong);
    exit(1);
}

/* ---- Records: those that are asked next */

static uint8_t records[STATE_RECORDS * (RECORD_FRONT + KRAMSNEP_MESSAGE_SIZE)];
static size_t records_size;

static void put(uint8_t *at, uint32_t number, size_t width)
{
    for (size_t i = 0; i < width; i++)
        at[i] = (uint8_t)(number >> (8 * i));
}

static void add_message(const uint8_t *message, size_t length)
{
    put(records + records_size, CLOCK, 4);
    records[records_size + 4] = (uint8_t)length;
    memcpy(records + records_size + RECORD_FRONT, message, length);
    records_size += RECORD_FRONT + length;
}

static void add_empty(void) { add_message(records, 0); }

/* A message with these fields; without fields there is no CRC. */
static void add(uint8_t subcommand, const uint8_t *fields, size_t count)
{
    uint8_t message[KRAMSNEP_MESSAGE_SIZE] = {KRAMSNEP_OEM_BYTES, subcommand};
    if (count > 0) {
        memcpy(message + KRAMSNEP_FIELDS_AT, fields, count);
        put(message + KRAMSNEP_CRC_AT, kramsnep_crc(fields, count), KRAMSNEP_CRC_SIZE);
    }
    add_message(message, count > 0 ? KRAMSNEP_FIELDS_AT + count : KRAMSNEP_HEADER_SIZE);
}

static void add_number(uint8_t subcommand, uint32_t number, size_t width)
{
    uint8_t fields[4];
    put(fields, number, width);
    add(subcommand, fields, width);
}

static void add_count(void) { add(KRAMSNEP_COMMAND_GET_COUNT, records, 0); }

static void add_enumerate(uint32_t index) { add_number(KRAMSNEP_COMMAND_ENUMERATE, index, KRAMSNEP_INDEX_WIDTH); }

static void add_session_stat(uint32_t session) { add_number(KRAMSNEP_COMMAND_SESSION_STAT, session, KRAMSNEP_SESSION_WIDTH); }

static void add_close(uint32_t session) { add_number(KRAMSNEP_COMMAND_CLOSE, session, KRAMSNEP_SESSION_WIDTH); }

/* The commit length, which is 0, stands behind the session. */
static void add_commit(uint32_t session) { add_number(KRAMSNEP_COMMAND_COMMIT, session, KRAMSNEP_SESSION_WIDTH + KRAMSNEP_COMMIT_LENGTH_WIDTH); }

static void add_name(uint8_t subcommand, const char *name) { add(subcommand, (const uint8_t *)name, strlen(name) + 1); }

static void add_open(uint32_t flags, const char *name)
{
    uint8_t fields[KRAMSNEP_FLAGS_WIDTH + KRAMSNEP_NAME_SIZE];
    put(fields, flags, KRAMSNEP_FLAGS_WIDTH);
    memcpy(fields + KRAMSNEP_FLAGS_WIDTH, name, strlen(name) + 1);
    add(KRAMSNEP_COMMAND_OPEN, fields, KRAMSNEP_FLAGS_WIDTH + strlen(name) + 1);
}

static void add_read(uint32_t session, uint32_t offset)
{
    uint8_t fields[KRAMSNEP_SESSION_WIDTH + KRAMSNEP_OFFSET_WIDTH + KRAMSNEP_READ_COUNT_WIDTH];
    put(fields, session, KRAMSNEP_SESSION_WIDTH);
    put(fields + KRAMSNEP_SESSION_WIDTH, offset, KRAMSNEP_OFFSET_WIDTH);
    put(fields + KRAMSNEP_SESSION_WIDTH + KRAMSNEP_OFFSET_WIDTH, KRAMSNEP_READ_MOST, KRAMSNEP_READ_COUNT_WIDTH);
    add(KRAMSNEP_COMMAND_READ, fields, sizeof fields);
}

/* Writes over so many bytes from offset 0 on, each but the last of the most bytes. */
static void add_writes(uint32_t session, uint32_t length)
{
    for (uint32_t offset = 0; offset < length; offset += KRAMSNEP_WRITE_MOST) {
        uint8_t fields[KRAMSNEP_SESSION_WIDTH + KRAMSNEP_OFFSET_WIDTH + KRAMSNEP_WRITE_MOST];
        uint32_t count = length - offset < KRAMSNEP_WRITE_MOST ? length - offset : KRAMSNEP_WRITE_MOST;
        put(fields, session, KRAMSNEP_SESSION_WIDTH);
        put(fields + KRAMSNEP_SESSION_WIDTH, offset, KRAMSNEP_OFFSET_WIDTH);
        for (uint32_t i = 0; i < count; i++)
            fields[KRAMSNEP_SESSION_WIDTH + KRAMSNEP_OFFSET_WIDTH + i] = (uint8_t)(offset + i * 7);
        add(KRAMSNEP_COMMAND_WRITE, fields, KRAMSNEP_SESSION_WIDTH + KRAMSNEP_OFFSET_WIDTH + count);
    }
}

/* ---- The two that are compared */

/* A state, what was answered on it, and how long that took. */
struct side {
    _Alignas(64) struct kramsnep_memory memory;
    uint32_t results[TRAY_MESSAGES];
    uint8_t responses[TRAY_MESSAGES * KRAMSNEP_MESSAGE_SIZE];
    uint32_t result;
    double took;
};

static struct side single, tray;

static uint32_t clock_of(const uint8_t *record) { return record[0] | (uint32_t)record[1] << 8 | (uint32_t)record[2] << 16 | (uint32_t)record[3] << 24; }

static size_t size_of(const uint8_t *record) { return RECORD_FRONT + (size_t)record[4]; }

/* Each response is written right behind the one before it, so that nothing need be copied. */
static void ask_by_single_calls(const uint8_t *from, size_t size)
{
    uint32_t done = 0, bytes = 0;
    double start = now();
    for (size_t at = 0; at < size; at += size_of(from + at)) {
        uint32_t result = kramsnep_respond_in(&single.memory, from + at + RECORD_FRONT, from[at + 4], clock_of(from + at), single.responses + bytes);
        single.results[done++] = result;
        bytes += (uint32_t)KRAMSNEP_LENGTH(result);
    }
    single.took = now() - start;
    single.result = KRAMSNEP_SUCCESS | done << 8 | bytes << 16;
}

static void ask_by_tray(const uint8_t *from, size_t size)
{
    struct kramsnep_memory *m = &tray.memory;
    double start = now();
    tray.result = kramsnep_tray(from, size, m->control, KRAMSNEP_CONTROL_WORDS, m->table, KRAMSNEP_TABLE_WORDS, m->names, KRAMSNEP_NAMES_SIZE,
                                m->committed, KRAMSNEP_COMMITTED_SIZE, m->staged, KRAMSNEP_STAGED_SIZE, m->image, KRAMSNEP_IMAGE_SIZE, m->hash, KRAMSNEP_HASH_SIZE,
                                tray.responses, sizeof tray.responses, tray.results, TRAY_MESSAGES);
    tray.took = now() - start;
}

/* A result of kramsnep_tray beside its completion code. */
static size_t done_of(uint32_t result) { return result >> 8 & 0xFF; }

static size_t bytes_of(uint32_t result) { return result >> 16; }

static void must_agree(const char *what)
{
    if (tray.result != single.result)
        fail(what, "the tray has another code, number of messages, or length of responses");
    if (memcmp(tray.results, single.results, done_of(single.result) * sizeof *single.results) != 0)
        fail(what, "the tray has other results");
    if (memcmp(tray.responses, single.responses, bytes_of(single.result)) != 0)
        fail(what, "the tray has other responses");
    if (memcmp(&tray.memory, &single.memory, sizeof single.memory) != 0)
        fail(what, "the tray leaves another state");
}

static size_t refused(void)
{
    size_t count = 0;
    for (size_t i = 0; i < done_of(single.result); i++)
        count += KRAMSNEP_CODE(single.results[i]) != KRAMSNEP_SUCCESS;
    return count;
}

/* ---- Rounds */

static size_t rounds;
static double *single_times, *tray_times; /* of a message, one for each round */

/* Prints a line, and gives the ratio of the medians. */
static double compare(const char *what, size_t messages, size_t refusals, size_t count)
{
    qsort(single_times, count, sizeof *single_times, by_value);
    qsort(tray_times, count, sizeof *tray_times, by_value);
    double ratio = tray_times[count / 2] / single_times[count / 2];
    printf("%-40s %7zu messages, %5zu refused: single calls %6.0f (%6.0f) ns, tray %6.0f (%6.0f) ns a message, %4.2f times (medians), %4.2f (least)\n", what, messages,
           refusals, single_times[count / 2], single_times[0], tray_times[count / 2], tray_times[0], ratio, tray_times[0] / single_times[0]);
    return ratio;
}

/* The records that were gathered, on this state. */
static double measure(const char *what, const struct kramsnep_memory *state)
{
    for (size_t i = 0; i < rounds; i++) {
        single.memory = *state;
        ask_by_single_calls(records, records_size);
        tray.memory = *state;
        ask_by_tray(records, records_size);
        must_agree(what);
        single_times[i] = single.took / (double)done_of(single.result);
        tray_times[i] = tray.took / (double)done_of(single.result);
    }
    return compare(what, done_of(single.result), refused(), rounds);
}

/* ---- States */

/* Answers the records that were gathered; all must be accepted. */
static void accept(struct kramsnep_memory *state)
{
    uint8_t answer[KRAMSNEP_ANSWER_SIZE];
    for (size_t at = 0; at < records_size; at += size_of(records + at))
        if (KRAMSNEP_CODE(kramsnep_respond_in(state, records + at + RECORD_FRONT, records[at + 4], CLOCK, answer)) != KRAMSNEP_SUCCESS)
            fail("a state", "a request for it is refused");
    records_size = 0;
}

/* The identifier that the next Open gives (the states here skip none). */
static uint32_t next_session(const struct kramsnep_memory *state) { return state->control[KRAMSNEP_CONTROL_NEXT]; }

static void store(struct kramsnep_memory *state, const char *name, uint32_t length, bool closes)
{
    uint32_t session = next_session(state);
    add_open(KRAMSNEP_FLAGS_READ_WRITE, name);
    add_writes(session, length);
    add_commit(session);
    if (closes)
        add_close(session);
    accept(state);
}

/* One held name without session, one session. */
static void make_nearly_fresh(struct kramsnep_memory *state)
{
    store(state, held, NEARLY_FRESH_SCAN, true);
    store(state, KRAMSNEP_NAME_BASE "open", NEARLY_FRESH_SCAN, false);
}

/* All slots used, each with a scan of the largest size; all of them but one with a session; a full image. */
static void make_full(struct kramsnep_memory *state)
{
    uint32_t image = next_session(state);
    add_open(KRAMSNEP_FLAGS_WRITE, KRAMSNEP_NAME_IMAGE);
    add_writes(image, KRAMSNEP_IMAGE_SIZE);
    add_close(image);
    accept(state);
    for (int number = 0; number < KRAMSNEP_SLOTS - 1; number++) {
        char name[KRAMSNEP_NAME_SIZE];
        snprintf(name, sizeof name, KRAMSNEP_NAME_BASE "numberedscan%d", number);
        store(state, name, KRAMSNEP_SLOT_SIZE, false);
    }
    store(state, held, KRAMSNEP_SLOT_SIZE, true);
}

/* The session opened last, of those that are open: both states end with it, but for sessions that were closed again. */
static uint32_t open_session(const struct kramsnep_memory *state)
{
    uint32_t session = next_session(state) - 1;
    while (KRAMSNEP_CODE(kramsnep_find_session_in(state, session)) != KRAMSNEP_SUCCESS)
        session--;
    return session;
}

/* ---- Kinds of traffic: 64 messages each */

/* Twice a whole session with the requests around it. The first deletes the name, so that the second opens a new one. */
static void add_mixed(const struct kramsnep_memory *state)
{
    enum { WRITES = 12, READS = 11 };
    for (uint32_t session = next_session(state); session < next_session(state) + 2; session++) {
        add_count();
        add_enumerate(1);
        add_name(KRAMSNEP_COMMAND_STAT, held);
        add_open(KRAMSNEP_FLAGS_READ_WRITE, held);
        add_writes(session, WRITES * KRAMSNEP_WRITE_MOST);
        add_session_stat(session);
        add_commit(session);
        add_session_stat(session);
        for (uint32_t i = 0; i < READS; i++)
            add_read(session, i * KRAMSNEP_READ_MOST);
        add_close(session);
        add_name(KRAMSNEP_COMMAND_DELETE, held);
    }
}

static void add_scan_upload(const struct kramsnep_memory *state)
{
    uint32_t session = next_session(state);
    add_open(KRAMSNEP_FLAGS_READ_WRITE, held);
    add_writes(session, (TRAY_MESSAGES - 3) * KRAMSNEP_WRITE_MOST);
    add_commit(session);
    add_close(session);
}

/* An image needs no Commit. */
static void add_image_upload(const struct kramsnep_memory *state)
{
    uint32_t session = next_session(state);
    add_open(KRAMSNEP_FLAGS_WRITE, KRAMSNEP_NAME_IMAGE);
    add_writes(session, (TRAY_MESSAGES - 2) * KRAMSNEP_WRITE_MOST);
    add_close(session);
}

static void add_reads(const struct kramsnep_memory *state)
{
    for (uint32_t i = 0; i < TRAY_MESSAGES; i++)
        add_read(open_session(state), i % READ_STEPS * KRAMSNEP_READ_MOST);
}

static void add_session_stats(const struct kramsnep_memory *state)
{
    for (int i = 0; i < TRAY_MESSAGES; i++)
        add_session_stat(open_session(state));
}

static void add_empties(const struct kramsnep_memory *state)
{
    (void)state;
    for (int i = 0; i < TRAY_MESSAGES; i++)
        add_empty();
}

static double measure_kind(const char *which, const struct kramsnep_memory *state, const char *kind, void (*add_kind)(const struct kramsnep_memory *))
{
    char what[80];
    snprintf(what, sizeof what, "%s, %s", which, kind);
    records_size = 0;
    add_kind(state);
    double ratio = measure(what, state);
    if (done_of(single.result) != TRAY_MESSAGES)
        fail(what, "not as many messages as a tray holds");
    return ratio;
}

/* How many messages make a tray worth while. */
static void measure_fewer(const char *which, const struct kramsnep_memory *state, size_t messages)
{
    char what[80];
    snprintf(what, sizeof what, "%s, SessionStat, tray of %zu", which, messages);
    records_size = 0;
    for (size_t i = 0; i < messages; i++)
        add_session_stat(open_session(state));
    measure(what, state);
}

/* All kinds, and trays of fewer messages. Gives the ratio of mixed traffic. */
static double measure_all(const char *which, const struct kramsnep_memory *state)
{
    double mixed = measure_kind(which, state, "mixed traffic", add_mixed);
    measure_kind(which, state, "upload of a scan", add_scan_upload);
    measure_kind(which, state, "upload of an image", add_image_upload);
    measure_kind(which, state, "Reads of 58 bytes", add_reads);
    measure_kind(which, state, "SessionStat", add_session_stats);
    measure_kind(which, state, "empty messages, C7", add_empties);
    measure_fewer(which, state, 1);
    measure_fewer(which, state, 2);
    measure_fewer(which, state, 4);
    measure_fewer(which, state, 16);
    return mixed;
}

/* ---- A file of records */

static uint8_t *read_file(const char *path, size_t *size)
{
    FILE *file = fopen(path, "rb");
    if (file == NULL)
        fail(path, "cannot be read");
    fseek(file, 0, SEEK_END);
    *size = (size_t)ftell(file);
    rewind(file);
    uint8_t *bytes = malloc(*size);
    if (bytes == NULL || fread(bytes, 1, *size, file) != *size)
        fail(path, "cannot be read");
    fclose(file);
    return bytes;
}

/* The file's records (whole ones, each with a message of at most 64 bytes), in trays of 64; the last may have fewer. Every tray is compared. Gives the ratio. */
static double measure_file(const char *path)
{
    size_t size, messages = 0, refusals = 0;
    uint8_t *bytes = read_file(path, &size);
    for (int i = 0; i < FILE_ROUNDS; i++) {
        memset(&single.memory, 0, sizeof single.memory);
        memset(&tray.memory, 0, sizeof tray.memory);
        double single_time = 0, tray_time = 0;
        messages = refusals = 0;
        for (size_t at = 0, end = 0; at < size; at = end) {
            for (int k = 0; k < TRAY_MESSAGES && end < size; k++)
                end += size_of(bytes + end);
            ask_by_single_calls(bytes + at, end - at);
            ask_by_tray(bytes + at, end - at);
            must_agree(path);
            single_time += single.took;
            tray_time += tray.took;
            messages += done_of(single.result);
            refusals += refused();
        }
        single_times[i] = single_time / (double)messages;
        tray_times[i] = tray_time / (double)messages;
    }
    free(bytes);
    return compare("a file of mixed traffic", messages, refusals, FILE_ROUNDS);
}

int main(int argc, char **argv)
{
    static struct kramsnep_memory nearly_fresh, full;
    rounds = argc == 3 || argc == 4 ? strtoul(argv[1], NULL, 10) : 0;
    if (rounds == 0) {
        fprintf(stderr, "usage: tray ROUNDS FILE [BOUND]\n");
        return 1;
    }
    size_t most = rounds > FILE_ROUNDS ? rounds : FILE_ROUNDS;
    single_times = malloc(most * sizeof *single_times);
    tray_times = malloc(most * sizeof *tray_times);
    if (single_times == NULL || tray_times == NULL)
        fail("times", "no memory");
    make_nearly_fresh(&nearly_fresh);
    make_full(&full);
    printf("medians (and least) of %zu rounds; of the file, of %d\n", rounds, FILE_ROUNDS);
    double of_nearly_fresh = measure_all("nearly fresh", &nearly_fresh), of_full = measure_all("full", &full), of_file = measure_file(argv[2]);
    double bound = argc == 4 ? strtod(argv[3], NULL) : HUGE_VAL;
    if (of_nearly_fresh > bound || of_full > bound || of_file > bound)
        fail("mixed traffic", "in a tray it takes longer than the bound says");
    return 0;
}
