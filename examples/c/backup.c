/* Keeps a store as a file: stores two scans, saves them part by part, loads the file into fresh memory, reads a scan back from there, and shows
 * that a file which was cut is refused and changes nothing. Every completion code is checked: one that is not expected ends the program with status 1.
 *
 * Here the file stands in memory; docs/HOOKING.md says how to bring it onto a disk. */
#include <stdio.h>
#include <stdlib.h>
#include <string.h>

#include "kramsnep.h"

static struct kramsnep_memory before, after, copy; /* zero: the fresh state */
static uint8_t message[KRAMSNEP_MESSAGE_SIZE] = {KRAMSNEP_OEM_BYTES}, answer[KRAMSNEP_ANSWER_SIZE];
static uint8_t file[KRAMSNEP_PARTS_MOST * KRAMSNEP_PART_SIZE];

static void must(int holds, const char *what)
{
    if (!holds) {
        fprintf(stderr, "%s: not as expected\n", what);
        exit(1);
    }
}

/* A number of the message, n bytes, lowest first. */
static void put(size_t at, uint32_t number, size_t n)
{
    for (size_t i = 0; i < n; i++)
        message[at + i] = (uint8_t)(number >> (8 * i));
}

/* Sends the message, which has this length and its fields in place; gives the length of the response. */
static size_t ask(struct kramsnep_memory *m, uint8_t subcommand, size_t n)
{
    message[KRAMSNEP_SUBCOMMAND_AT] = subcommand;
    put(KRAMSNEP_CRC_AT, kramsnep_crc(message + KRAMSNEP_FIELDS_AT, n - KRAMSNEP_FIELDS_AT), KRAMSNEP_CRC_SIZE);
    uint32_t result = kramsnep_respond_in(m, message, n, 0, answer);
    must(KRAMSNEP_CODE(result) == KRAMSNEP_SUCCESS, "request");
    return KRAMSNEP_LENGTH(result);
}

/* Opens a name, and puts the session where the next messages have it. */
static void open_scan(struct kramsnep_memory *m, uint16_t flags, const char *name)
{
    put(KRAMSNEP_FLAGS_AT, flags, KRAMSNEP_FLAGS_WIDTH);
    memcpy(message + KRAMSNEP_OPEN_NAME_AT, name, strlen(name) + 1);
    ask(m, KRAMSNEP_COMMAND_OPEN, KRAMSNEP_OPEN_NAME_AT + strlen(name) + 1);
    memcpy(message + KRAMSNEP_SESSION_AT, answer + KRAMSNEP_SESSION_AT, KRAMSNEP_SESSION_WIDTH);
}

/* A scan that one Write can hold. */
static void store_scan(struct kramsnep_memory *m, const char *name, const char *scan)
{
    open_scan(m, KRAMSNEP_FLAGS_READ_WRITE, name);
    put(KRAMSNEP_OFFSET_AT, 0, KRAMSNEP_OFFSET_WIDTH);
    memcpy(message + KRAMSNEP_WRITE_DATA_AT, scan, strlen(scan));
    ask(m, KRAMSNEP_COMMAND_WRITE, KRAMSNEP_WRITE_DATA_AT + strlen(scan));
    put(KRAMSNEP_COMMIT_LENGTH_AT, 0, KRAMSNEP_COMMIT_LENGTH_WIDTH);
    ask(m, KRAMSNEP_COMMAND_COMMIT, KRAMSNEP_COMMIT_REQUEST_LEAST);
    ask(m, KRAMSNEP_COMMAND_CLOSE, KRAMSNEP_CLOSE_REQUEST_SIZE);
    printf("stored %s: %s\n", name, scan);
}

/* A scan that one Read can hold. */
static void show_scan(struct kramsnep_memory *m, const char *name)
{
    open_scan(m, KRAMSNEP_FLAGS_READ, name);
    put(KRAMSNEP_OFFSET_AT, 0, KRAMSNEP_OFFSET_WIDTH);
    put(KRAMSNEP_READ_COUNT_AT, KRAMSNEP_READ_MOST, KRAMSNEP_READ_COUNT_WIDTH);
    size_t n = ask(m, KRAMSNEP_COMMAND_READ, KRAMSNEP_READ_REQUEST_SIZE) - KRAMSNEP_READ_DATA_AT;
    printf("read %s: %.*s\n", name, (int)n, (const char *)answer + KRAMSNEP_READ_DATA_AT);
    ask(m, KRAMSNEP_COMMAND_CLOSE, KRAMSNEP_CLOSE_REQUEST_SIZE);
}

/* All parts of a store, end to end; gives the length of the file. */
static size_t save(const struct kramsnep_memory *m)
{
    static uint8_t buffer[KRAMSNEP_PART_SIZE];
    size_t length = 0;
    uint32_t part = 0, result;
    while (KRAMSNEP_CODE(result = kramsnep_save_part_in(m, part, buffer)) == KRAMSNEP_SUCCESS) {
        printf("part %u: %zu bytes\n", (unsigned)part++, KRAMSNEP_LENGTH(result));
        memcpy(file + length, buffer, KRAMSNEP_LENGTH(result)); /* it fits: there are no more than KRAMSNEP_PARTS_MOST parts */
        length += KRAMSNEP_LENGTH(result);
    }
    printf("part %u: %02X\n", (unsigned)part, KRAMSNEP_CODE(result));
    must(KRAMSNEP_CODE(result) == KRAMSNEP_OUT_OF_RANGE, "save");
    return length;
}

static void load(struct kramsnep_memory *m, const char *what, size_t length, uint32_t expected)
{
    uint32_t code = kramsnep_load_in(m, file, length);
    printf("load %s: %02X\n", what, (unsigned)code);
    must(code == expected, what);
}

int main(void)
{
    store_scan(&before, KRAMSNEP_NAME_BASE "moreau", "left foot, 27.5 cm");
    store_scan(&before, KRAMSNEP_NAME_BASE "devries", "right foot, 31 cm");
    size_t length = save(&before);
    printf("the file has %zu bytes, and begins with", length);
    for (size_t i = 0; i < 16; i++)
        printf(" %02X", file[i]);
    printf("\n");

    copy = after;
    load(&after, "the file but for its last byte", length - 1, KRAMSNEP_PAST_END);
    must(memcmp(&copy, &after, sizeof after) == 0, "memory behind a refusal");
    load(&after, "the file", length, KRAMSNEP_SUCCESS);
    show_scan(&after, KRAMSNEP_NAME_BASE "devries");
    open_scan(&after, KRAMSNEP_FLAGS_READ, KRAMSNEP_NAME_BASE "moreau");
    load(&after, "the file, with a scan open", length, KRAMSNEP_SESSION_OPEN);
    return 0;
}
