/* Imports a scan of 4,096 bytes by trays, up to 64 messages in one call, and reads it back; then shows that a tray which was cut is refused and changes
 * nothing. Each call prints its completion code and how much of the tray it did; below stand the answers to its messages, but for Writes and Reads.
 * Every completion code is checked, those of the calls and those of the messages: one that is not expected ends the program with status 1.
 *
 * What must not be done unless the messages before it were accepted stands in a later tray: within one a refusal does not stop the rest. */
#include <stdio.h>
#include <stdlib.h>
#include <string.h>

#include "kramsnep.h"

static struct kramsnep_memory memory; /* zero: the fresh state */
static uint8_t message[KRAMSNEP_MESSAGE_SIZE] = {KRAMSNEP_OEM_BYTES};
static uint32_t seconds;

/* The tray: its records, how many bytes and messages they are, and which completion code each message should get. */
static uint8_t records[KRAMSNEP_TRAY_MESSAGES * (KRAMSNEP_RECORD_MESSAGE_AT + KRAMSNEP_MESSAGE_SIZE)];
static size_t size, count;
static uint8_t expected[KRAMSNEP_TRAY_MESSAGES];

/* What a call is lent for its answers; of responses the first bytes, so many as room says. */
static uint8_t responses[KRAMSNEP_TRAY_RESPONSES];
static size_t room = sizeof responses;
static uint32_t results[KRAMSNEP_TRAY_MESSAGES];

/* What the answers said: the session of the last Open, the size of the last Stat, and the data of all Reads. */
static uint16_t session;
static size_t scan_size, read_size;
static uint8_t back[KRAMSNEP_SLOT_SIZE];

static void must(int holds, const char *what)
{
    if (!holds) {
        fprintf(stderr, "%s: not as expected\n", what);
        exit(1);
    }
}

/* A number of n bytes, lowest first. */
static void put(uint8_t *to, uint32_t number, size_t n)
{
    for (size_t i = 0; i < n; i++)
        to[i] = (uint8_t)(number >> (8 * i));
}

static uint32_t get(const uint8_t *from, size_t n)
{
    uint32_t number = 0;
    for (size_t i = 0; i < n; i++)
        number |= (uint32_t)from[i] << (8 * i);
    return number;
}

/* Takes the answer to one message: its word of the results, which must have this completion code, and its response. A refusal has none. */
static void take(uint8_t subcommand, uint32_t result, uint8_t code, const uint8_t *response)
{
    static const char *const words[] = {"count", "enumerate", "open", "read", "write", "commit", "close", "delete", "stat"};
    size_t length = KRAMSNEP_LENGTH(result);
    if (subcommand != KRAMSNEP_COMMAND_WRITE && subcommand != KRAMSNEP_COMMAND_READ) {
        printf("  %s: %02X%s", words[subcommand], KRAMSNEP_CODE(result), length > 0 ? " " : "");
        for (size_t i = 0; i < length; i++)
            printf("%02X", response[i]);
        printf("\n");
    }
    must(KRAMSNEP_CODE(result) == code, words[subcommand]);
    if (code != KRAMSNEP_SUCCESS)
        return;
    if (subcommand == KRAMSNEP_COMMAND_OPEN)
        session = (uint16_t)get(response + KRAMSNEP_SESSION_AT, KRAMSNEP_SESSION_WIDTH);
    if (subcommand == KRAMSNEP_COMMAND_STAT)
        scan_size = get(response + KRAMSNEP_SIZE_AT, KRAMSNEP_SIZE_WIDTH);
    if (subcommand == KRAMSNEP_COMMAND_READ) {
        size_t part = length - KRAMSNEP_READ_DATA_AT;
        must(part <= sizeof back - read_size, "the length of what is read");
        memcpy(back + read_size, response + KRAMSNEP_READ_DATA_AT, part);
        read_size += part;
    }
}

/* Sends the tray, in as many calls as it takes; then it is empty. */
static void send_tray(void)
{
    const uint8_t *record = records;
    for (size_t first = 0, done; first < count; first += done) {
        uint32_t result = kramsnep_tray_in(&memory, record, (size_t)(records + size - record), responses, room, results);
        const uint8_t *response = responses;
        done = KRAMSNEP_TRAY_DONE(result);
        printf("tray: %02X, %zu of %zu messages, %zu bytes of responses\n", KRAMSNEP_CODE(result), done, count - first, KRAMSNEP_TRAY_BYTES(result));
        must(KRAMSNEP_CODE(result) == KRAMSNEP_SUCCESS, "tray");
        must(done > 0, "room for a response"); /* without it the next call would do no more than this one */
        for (size_t k = 0; k < done; k++) {
            take(record[KRAMSNEP_RECORD_MESSAGE_AT + KRAMSNEP_SUBCOMMAND_AT], results[k], expected[first + k], response);
            response += KRAMSNEP_LENGTH(results[k]);
            record += KRAMSNEP_RECORD_MESSAGE_AT + record[KRAMSNEP_RECORD_LENGTH_AT]; /* behind the last one done: where the next call begins */
        }
        must((size_t)(response - responses) == KRAMSNEP_TRAY_BYTES(result), "bytes of responses");
    }
    size = count = 0;
}

/* Puts the message, which has this length and its fields in place, behind the others of the tray; a full tray is sent first. */
static void add(uint8_t subcommand, size_t n, uint8_t code)
{
    if (count == KRAMSNEP_TRAY_MESSAGES)
        send_tray();
    uint8_t *record = records + size;
    message[KRAMSNEP_SUBCOMMAND_AT] = subcommand;
    put(message + KRAMSNEP_CRC_AT, kramsnep_crc(message + KRAMSNEP_FIELDS_AT, n - KRAMSNEP_FIELDS_AT), KRAMSNEP_CRC_SIZE);
    put(record + KRAMSNEP_RECORD_CLOCK_AT, seconds++, KRAMSNEP_RECORD_CLOCK_WIDTH);
    record[KRAMSNEP_RECORD_LENGTH_AT] = (uint8_t)n;
    memcpy(record + KRAMSNEP_RECORD_MESSAGE_AT, message, n);
    size += KRAMSNEP_RECORD_MESSAGE_AT + n;
    expected[count++] = code;
}

static void add_open(uint16_t flags, const char *name)
{
    put(message + KRAMSNEP_FLAGS_AT, flags, KRAMSNEP_FLAGS_WIDTH);
    memcpy(message + KRAMSNEP_OPEN_NAME_AT, name, strlen(name) + 1);
    add(KRAMSNEP_COMMAND_OPEN, KRAMSNEP_OPEN_NAME_AT + strlen(name) + 1, KRAMSNEP_SUCCESS);
}

/* Stat or Delete. */
static void add_named(uint8_t subcommand, const char *name, uint8_t code)
{
    memcpy(message + KRAMSNEP_NAME_AT, name, strlen(name) + 1);
    add(subcommand, KRAMSNEP_NAME_AT + strlen(name) + 1, code);
}

/* Commit or Close. */
static void add_on_session(uint8_t subcommand)
{
    put(message + KRAMSNEP_SESSION_AT, session, KRAMSNEP_SESSION_WIDTH);
    message[KRAMSNEP_COMMIT_LENGTH_AT] = 0; /* a Commit has this byte behind the session; a Close ends there */
    add(subcommand, subcommand == KRAMSNEP_COMMAND_COMMIT ? KRAMSNEP_COMMIT_REQUEST_LEAST : KRAMSNEP_CLOSE_REQUEST_SIZE, KRAMSNEP_SUCCESS);
}

static void add_writes(const uint8_t *bytes, size_t n)
{
    for (size_t at = 0, part; at < n; at += part) {
        part = n - at < KRAMSNEP_WRITE_MOST ? n - at : KRAMSNEP_WRITE_MOST;
        put(message + KRAMSNEP_SESSION_AT, session, KRAMSNEP_SESSION_WIDTH);
        put(message + KRAMSNEP_OFFSET_AT, (uint32_t)at, KRAMSNEP_OFFSET_WIDTH);
        memcpy(message + KRAMSNEP_WRITE_DATA_AT, bytes + at, part);
        add(KRAMSNEP_COMMAND_WRITE, KRAMSNEP_WRITE_DATA_AT + part, KRAMSNEP_SUCCESS);
    }
}

static void add_reads(size_t n)
{
    for (size_t at = 0; at < n; at += KRAMSNEP_READ_MOST) {
        put(message + KRAMSNEP_SESSION_AT, session, KRAMSNEP_SESSION_WIDTH);
        put(message + KRAMSNEP_OFFSET_AT, (uint32_t)at, KRAMSNEP_OFFSET_WIDTH);
        put(message + KRAMSNEP_READ_COUNT_AT, KRAMSNEP_READ_MOST, KRAMSNEP_READ_COUNT_WIDTH);
        add(KRAMSNEP_COMMAND_READ, KRAMSNEP_READ_REQUEST_SIZE, KRAMSNEP_SUCCESS);
    }
}

/* Sends the tray without its last byte. It is refused with the code alone, and all that was lent is as it was. */
static void send_cut_tray(void)
{
    static struct kramsnep_memory memory_before;
    static uint8_t responses_before[sizeof responses];
    static uint32_t results_before[KRAMSNEP_TRAY_MESSAGES];
    memory_before = memory;
    memcpy(responses_before, responses, sizeof responses);
    memcpy(results_before, results, sizeof results);
    uint32_t result = kramsnep_tray_in(&memory, records, size - 1, responses, sizeof responses, results);
    printf("tray that is cut: %02X, %u of %zu messages\n", KRAMSNEP_CODE(result), (unsigned)KRAMSNEP_TRAY_DONE(result), count);
    must(result == KRAMSNEP_WRONG_LENGTH, "tray that is cut");
    must(memcmp(&memory_before, &memory, sizeof memory) == 0 && memcmp(responses_before, responses, sizeof responses) == 0
             && memcmp(results_before, results, sizeof results) == 0, "what a refused tray leaves");
}

int main(void)
{
    static const char name[] = KRAMSNEP_NAME_BASE "moreau";
    static uint8_t scan[KRAMSNEP_SLOT_SIZE];
    for (size_t i = 0; i < sizeof scan; i++)
        scan[i] = (uint8_t)(i * i / 7);

    /* The name is not there yet, so the Stat is refused; the Open behind it is done all the same. Only its response says which session the Writes
     * must name. */
    add_named(KRAMSNEP_COMMAND_STAT, name, KRAMSNEP_NOT_FOUND);
    add_open(KRAMSNEP_FLAGS_READ_WRITE, name);
    send_tray();

    /* 79 Writes: two trays. With so little room for responses the first of them stops early, and takes a second call. */
    room = 3 * KRAMSNEP_ANSWER_SIZE;
    add_writes(scan, sizeof scan);
    send_tray();
    room = sizeof responses;

    /* All Writes were accepted: now, and in a tray of their own, Commit and Close. */
    add_on_session(KRAMSNEP_COMMAND_COMMIT);
    add_on_session(KRAMSNEP_COMMAND_CLOSE);
    send_tray();

    /* Read back: how long it is, then 71 Reads. A full tray of these has the longest responses that there are. */
    add_open(KRAMSNEP_FLAGS_READ, name);
    add_named(KRAMSNEP_COMMAND_STAT, name, KRAMSNEP_SUCCESS);
    send_tray();
    add_reads(scan_size);
    add_on_session(KRAMSNEP_COMMAND_CLOSE);
    send_tray();
    must(read_size == sizeof scan && memcmp(back, scan, read_size) == 0, "what came back");
    printf("%zu bytes came back, the same\n", read_size);

    /* The tray ends inside the Stat: the Delete in front of it is not done either. The whole tray is then taken. */
    add_named(KRAMSNEP_COMMAND_DELETE, name, KRAMSNEP_SUCCESS);
    add_named(KRAMSNEP_COMMAND_STAT, name, KRAMSNEP_NOT_FOUND);
    send_cut_tray();
    send_tray();
    return 0;
}
