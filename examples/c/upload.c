/* Uploads a scan through the C interface, looks up its session, reads it back, and runs one verify job. Each line: what was asked, the completion code, the response.
 * Every completion code is checked: one that is not expected ends the program with status 1, and nothing is read from the answer to a refusal.
 *
 * upload [NAME]: the scan's name, /scan/moreau without one. */
#include <stdio.h>
#include <stdlib.h>
#include <string.h>

#include "kramsnep.h"

static struct kramsnep_memory memory; /* zero: the fresh state */
static uint8_t message[KRAMSNEP_MESSAGE_SIZE] = {KRAMSNEP_OEM_BYTES}, answer[KRAMSNEP_ANSWER_SIZE];
static uint32_t seconds;

static void must(int holds, const char *what, const char *wrong)
{
    if (!holds) {
        fprintf(stderr, "%s: %s\n", what, wrong);
        exit(1);
    }
}

/* A number of the message or the answer, n bytes, lowest first. */
static void put(size_t at, uint32_t number, size_t n)
{
    for (size_t i = 0; i < n; i++)
        message[at + i] = (uint8_t)(number >> (8 * i));
}

static uint32_t get(size_t at, size_t n)
{
    uint32_t number = 0;
    for (size_t i = 0; i < n; i++)
        number |= (uint32_t)answer[at + i] << (8 * i);
    return number;
}

/* Sends the message, which has this length and its fields in place; gives the length of the response, which is 0 for a refusal. */
static size_t ask(const char *what, uint8_t subcommand, size_t n, uint8_t expected)
{
    message[KRAMSNEP_SUBCOMMAND_AT] = subcommand;
    put(KRAMSNEP_CRC_AT, kramsnep_crc(message + KRAMSNEP_FIELDS_AT, n - KRAMSNEP_FIELDS_AT), KRAMSNEP_CRC_SIZE);
    uint32_t result = kramsnep_respond_in(&memory, message, n, seconds++, answer);
    size_t length = KRAMSNEP_LENGTH(result);
    printf("%s: %02X%s", what, KRAMSNEP_CODE(result), length > 0 ? " " : "");
    for (size_t i = 0; i < length; i++)
        printf("%02X", answer[i]);
    printf("\n");
    must(KRAMSNEP_CODE(result) == expected, what, "not the completion code that was expected");
    if (length > KRAMSNEP_HEADER_SIZE)
        must(get(KRAMSNEP_CRC_AT, KRAMSNEP_CRC_SIZE) == kramsnep_crc(answer + KRAMSNEP_FIELDS_AT, length - KRAMSNEP_FIELDS_AT), what, "wrong CRC");
    return length;
}

/* The session, where the Open is accepted. */
static uint16_t open_blob(const char *what, uint16_t flags, const char *name, uint8_t expected)
{
    must(strlen(name) <= KRAMSNEP_NAME_MOST, name, "too long for a name");
    put(KRAMSNEP_FLAGS_AT, flags, KRAMSNEP_FLAGS_WIDTH);
    memcpy(message + KRAMSNEP_OPEN_NAME_AT, name, strlen(name) + 1);
    return ask(what, KRAMSNEP_COMMAND_OPEN, KRAMSNEP_OPEN_NAME_AT + strlen(name) + 1, expected) > 0 ? (uint16_t)get(KRAMSNEP_SESSION_AT, KRAMSNEP_SESSION_WIDTH) : 0;
}

static void on_session(const char *what, uint8_t subcommand, uint16_t session)
{
    put(KRAMSNEP_SESSION_AT, session, KRAMSNEP_SESSION_WIDTH);
    message[KRAMSNEP_COMMIT_LENGTH_AT] = 0; /* a Commit has this byte behind the session; Close and SessionStat end there */
    ask(what, subcommand, subcommand == KRAMSNEP_COMMAND_COMMIT ? KRAMSNEP_COMMIT_REQUEST_LEAST : KRAMSNEP_CLOSE_REQUEST_SIZE, KRAMSNEP_SUCCESS);
}

/* Which row of the session table the session has, and how many rows in use were visited to find it. */
static void find(const char *what, uint16_t session, uint8_t expected)
{
    uint32_t result = kramsnep_find_session_in(&memory, session), row = KRAMSNEP_SESSION_ROW(result);
    printf("%s: %02X, row %u, visited %u\n", what, KRAMSNEP_CODE(result), (unsigned)row, (unsigned)KRAMSNEP_ROWS_VISITED(result));
    must(KRAMSNEP_CODE(result) == expected, what, "not the completion code that was expected");
    if (expected == KRAMSNEP_SUCCESS)
        must(memory.table[row * KRAMSNEP_ROW_WORDS + KRAMSNEP_ROW_IDENTIFIER] == session, what, "another session's row");
}

static void write_all(uint16_t session, const char *bytes, size_t n)
{
    for (size_t at = 0, part; at < n; at += part) {
        part = n - at < KRAMSNEP_WRITE_MOST ? n - at : KRAMSNEP_WRITE_MOST;
        put(KRAMSNEP_SESSION_AT, session, KRAMSNEP_SESSION_WIDTH);
        put(KRAMSNEP_OFFSET_AT, (uint32_t)at, KRAMSNEP_OFFSET_WIDTH);
        memcpy(message + KRAMSNEP_WRITE_DATA_AT, bytes + at, part);
        ask("write", KRAMSNEP_COMMAND_WRITE, KRAMSNEP_WRITE_DATA_AT + part, KRAMSNEP_SUCCESS);
    }
}

/* Reads until a response is not full. */
static size_t read_all(uint16_t session, char bytes[KRAMSNEP_SLOT_SIZE])
{
    size_t at = 0, part = KRAMSNEP_READ_MOST;
    while (part == KRAMSNEP_READ_MOST) {
        put(KRAMSNEP_SESSION_AT, session, KRAMSNEP_SESSION_WIDTH);
        put(KRAMSNEP_OFFSET_AT, (uint32_t)at, KRAMSNEP_OFFSET_WIDTH);
        put(KRAMSNEP_READ_COUNT_AT, KRAMSNEP_READ_MOST, KRAMSNEP_READ_COUNT_WIDTH);
        part = ask("read", KRAMSNEP_COMMAND_READ, KRAMSNEP_READ_REQUEST_SIZE, KRAMSNEP_SUCCESS) - KRAMSNEP_READ_DATA_AT;
        must(part <= KRAMSNEP_SLOT_SIZE - at, "read", "more than a scan can have");
        memcpy(bytes + at, answer + KRAMSNEP_READ_DATA_AT, part);
        at += part;
    }
    return at;
}

static void job_outcome(const char *what, uint32_t verdict, uint32_t expected)
{
    uint32_t code = kramsnep_job_outcome_in(&memory, verdict);
    printf("%s: %02X\n", what, (unsigned)code);
    must(code == expected, what, "not the completion code that was expected");
}

int main(int count, char **words)
{
    static const char scan[] = "The quick brown fox jumps over the lazy dog; this line is sent in two parts and must come back whole";
    static char back[KRAMSNEP_SLOT_SIZE];
    const char *name = count > 1 ? words[1] : KRAMSNEP_NAME_BASE "moreau";

    (void)open_blob("open to read, before it is there", KRAMSNEP_FLAGS_READ, name, KRAMSNEP_NOT_FOUND);
    uint16_t session = open_blob("open to write", KRAMSNEP_FLAGS_READ_WRITE, name, KRAMSNEP_SUCCESS);
    find("find the session", session, KRAMSNEP_SUCCESS);
    write_all(session, scan, strlen(scan));
    on_session("commit", KRAMSNEP_COMMAND_COMMIT, session);
    on_session("close", KRAMSNEP_COMMAND_CLOSE, session);
    find("find the closed session", session, KRAMSNEP_NOT_FOUND);

    session = open_blob("open to read", KRAMSNEP_FLAGS_READ, name, KRAMSNEP_SUCCESS);
    size_t n = read_all(session, back);
    on_session("close", KRAMSNEP_COMMAND_CLOSE, session);
    must(n == strlen(scan) && memcmp(back, scan, n) == 0, name, "not what was written");
    printf("%zu bytes came back, the same: %.*s\n", n, (int)n, back);

    session = open_blob("open the image", KRAMSNEP_FLAGS_WRITE, KRAMSNEP_NAME_IMAGE, KRAMSNEP_SUCCESS);
    write_all(session, "firmware", 8);
    on_session("close", KRAMSNEP_COMMAND_CLOSE, session);
    session = open_blob("open verify", KRAMSNEP_FLAGS_WRITE, KRAMSNEP_NAME_VERIFY, KRAMSNEP_SUCCESS);
    job_outcome("job outcome without a job", KRAMSNEP_VERDICT_GOOD, KRAMSNEP_NOT_SUPPORTED);
    on_session("commit", KRAMSNEP_COMMAND_COMMIT, session);
    must(kramsnep_running_job_in(&memory) == KRAMSNEP_BLOB_VERIFY, "commit", "no verify job runs"); /* here the image is verified */
    job_outcome("job outcome that is no verdict", 2, KRAMSNEP_INVALID);
    job_outcome("job outcome", KRAMSNEP_VERDICT_GOOD, KRAMSNEP_SUCCESS);
    must(kramsnep_running_job_in(&memory) == KRAMSNEP_NO_JOB, "job outcome", "the job still runs");
    on_session("session stat", KRAMSNEP_COMMAND_SESSION_STAT, session);
    must((get(KRAMSNEP_STATE_AT, KRAMSNEP_STATE_WIDTH) & KRAMSNEP_STATE_COMMITTED) != 0, "session stat", "the job did not succeed");
    on_session("close", KRAMSNEP_COMMAND_CLOSE, session);
    must(memory.control[KRAMSNEP_CONTROL_PHASE] == KRAMSNEP_PHASE_VERIFIED, "close", "the image is not verified");

    memory.control[KRAMSNEP_CONTROL_PHASE] = KRAMSNEP_PHASE_VERIFIED + 1;
    job_outcome("damaged control block, and no verdict", 2, KRAMSNEP_NOT_SOUND);
    return 0;
}
