/* kramsnep.h: the C interface of the verified blob library for IPMI management controllers.
 * SPDX-License-Identifier: Apache-2.0
 *
 * The library answers the requests of the IPMI blob protocol, one in a call or up to 64: a store of 16 named blobs, and a firmware update by image,
 * hash, verify, update and cleanup. The store can be saved as a file and loaded from one, and a flash configuration (JSON) can be read. It is proved:
 * for every input the result, and every word and byte of the memory lent to it, are those of its rules. This page says how to call it from C, and has
 * every number that a client of the protocol needs; docs/PROTOCOL.md has the rules.
 *
 * In this order: version; messages (frame, CRC, subcommands and their fields, flags, states, names, completion codes, times, what a client does);
 * the memory to lend and what stands in it; the seven functions, with the form of a store file, the fields of a configuration and the records of a
 * tray; the memory as one struct. The seven functions are proved; the inline functions of this page are plain C, tested and not proved. It needs C99
 * or later, or C++11 or later, and a machine that the archive was made for (x86-64).
 *
 * Memory. The caller owns all memory and lends it for the time of a call. The library allocates nothing, has no global state and keeps no
 * pointer. Lend the same memory at each call, and write nothing into it in between: it is the whole state. (The answer buffer, the buffer for a part
 * of a store file, such a file, a configuration and its fields, a tray with its responses and results are no part of it.)
 * Zero all of it once, at start (memset, or static storage): all zeros is the fresh state, with no blob, no session and no update under way.
 * Nothing in it is a pointer, so it may be copied or saved as a whole; with memory that was saved the clock must go on from where it was. To keep
 * the store alone, in a form that other programs read too, see kramsnep_save_part.
 *
 * - No pointer may be null, not even one to a length of 0.
 * - Each length is the true number of elements behind its pointer: 32-bit words for control, table and the results of a tray, size_t for the
 *   fields of a configuration, bytes for all else.
 * - control, table and such results are aligned as uint32_t, such fields as size_t; the others may stand anywhere.
 * - No two of the buffers may overlap; the request, the tray, the file to load, or the text to read may not stand in any of the others.
 * - Words are uint32_t of the machine. Numbers in messages are little-endian.
 *
 * The library tests at each call that the lent lengths are exact and that the state is sound; if not, the result is KRAMSNEP_NOT_SOUND and
 * nothing is changed. So wrong lengths and damaged memory are refused, but null or dangling pointers and false lengths are not caught.
 * (kramsnep_find_session is lent the session table alone, and tests its length and the mask that goes with it; kramsnep_read_config is lent no
 * state, and tests the length of the fields. What is read, and the responses of a tray, may have any length.)
 *
 * Threads. Calls on different memory may run at the same time. Calls on the same memory must not: hold a lock, or call from one task.
 * A call does not block and always ends. It needs little stack: less than 4 KB on x86-64, over every subcommand, every part of a store file, and
 * configurations of every depth. Only kramsnep_load needs more, less than 35 KB, whatever the file (measured, not proved).
 */
#ifndef KRAMSNEP_H
#define KRAMSNEP_H

#include <stddef.h>
#include <stdint.h>

#ifdef __cplusplus
extern "C" {
#endif

/* ---- Version: semantic. Before 1.0.0 a minor version may change what is here; docs/CHANGELOG.md says what. */
#define KRAMSNEP_VERSION_MAJOR 0
#define KRAMSNEP_VERSION_MINOR 6
#define KRAMSNEP_VERSION_PATCH 0
#define KRAMSNEP_VERSION "0.6.0"

/* ---- Messages
 *
 * The frame is the same for requests and responses. Numbers are little-endian, and fields follow each other without gaps:
 *   0-2   OEM number 49871: CF C2 00
 *   3     subcommand; a response has that of its request
 *   4-5   CRC of the fields
 *   6-    fields
 * A message without fields ends behind the subcommand and has no CRC, but the response to a Read has one even when no data follow.
 * What IPMI puts in front of it is no part of it: network function and command byte (those of the Phosphor blob commands are given here), and the
 * completion code of a response. */
#define KRAMSNEP_IPMI_NETFN 0x2E /* a response has 0x2F */
#define KRAMSNEP_IPMI_COMMAND 0x80
#define KRAMSNEP_MESSAGE_SIZE 64 /* a request is at most this long; so is a response */
#define KRAMSNEP_OEM_NUMBER 49871
#define KRAMSNEP_OEM_BYTES 0xCF, 0xC2, 0x00 /* for an initializer: uint8_t message[] = {KRAMSNEP_OEM_BYTES, KRAMSNEP_COMMAND_GET_COUNT} */
#define KRAMSNEP_OEM_SIZE 3
#define KRAMSNEP_SUBCOMMAND_AT 3
#define KRAMSNEP_HEADER_SIZE 4
#define KRAMSNEP_CRC_AT 4
#define KRAMSNEP_CRC_SIZE 2
#define KRAMSNEP_FIELDS_AT 6

/* The CRC: a register of 16 bits starts at KRAMSNEP_CRC_START. Each byte is exclusive-ored into its upper half; then, eight times, the register
 * is shifted left by one, and the polynomial is exclusive-ored in if the bit that left was 1. The register at the end is the CRC.
 * The nine characters 123456789 give 0xE5CC, no bytes 0x1D0F. */
#define KRAMSNEP_CRC_START 0x1D0F
#define KRAMSNEP_CRC_POLYNOMIAL 0x1021

/* The CRC of n bytes; bytes may be null where n is 0. */
static inline uint16_t kramsnep_crc(const uint8_t *bytes, size_t n)
{
    uint32_t crc = KRAMSNEP_CRC_START;
    for (size_t i = 0; i < n; i++) {
        crc ^= (uint32_t)bytes[i] << 8;
        for (int bit = 0; bit < 8; bit++)
            crc = ((crc & 0x8000u) != 0 ? (crc << 1) ^ KRAMSNEP_CRC_POLYNOMIAL : crc << 1) & 0xFFFFu;
    }
    return (uint16_t)crc;
}

/* The subcommands. For each: how long the request is in all, its fields, and those of the response; with a field its bytes, where they are
 * fixed, and its offset in the message. A name ends with a NUL, which is the message's last byte; data end with the message.
 *
 *   subcommand       request      fields of the request                        fields of the response
 *   0  Count         4            none                                         count (4) at 6
 *   1  Enumerate     10           index (4) at 6                               name at 6
 *   2  Open          9 or more    flags (2) at 6, name at 8                    session (2) at 6
 *   3  Read          16           session (2) at 6, offset (4) at 8,           data at 6
 *                                 count (4) at 12
 *   4  Write         12 or more   session (2) at 6, offset (4) at 8,           none
 *                                 data at 12
 *   5  Commit        9 or more    session (2) at 6, commit length (1) at 8     none
 *   6  Close         8            session (2) at 6                             none
 *   7  Delete        7 or more    name at 6                                    none
 *   8  Stat          7 or more    name at 6                                    state (2) at 6, size (4) at 8, metadata length (1) at 12
 *   9  SessionStat   8            session (2) at 6                             state (2) at 6, size (4) at 8, metadata length (1) at 12
 *   10 WriteMeta     12 or more   session (2) at 6                             none
 *
 * The commit length must be 0, so that an accepted Commit has 9 bytes; the metadata length is 0. A WriteMeta is always refused. */
#define KRAMSNEP_COMMAND_GET_COUNT 0
#define KRAMSNEP_COMMAND_ENUMERATE 1
#define KRAMSNEP_COMMAND_OPEN 2
#define KRAMSNEP_COMMAND_READ 3
#define KRAMSNEP_COMMAND_WRITE 4
#define KRAMSNEP_COMMAND_COMMIT 5
#define KRAMSNEP_COMMAND_CLOSE 6
#define KRAMSNEP_COMMAND_DELETE 7
#define KRAMSNEP_COMMAND_STAT 8
#define KRAMSNEP_COMMAND_SESSION_STAT 9
#define KRAMSNEP_COMMAND_WRITE_META 10
#define KRAMSNEP_COMMAND_LAST 10

/* The lengths of that table: of the whole request, or the least that it can have. */
#define KRAMSNEP_GET_COUNT_REQUEST_SIZE 4
#define KRAMSNEP_ENUMERATE_REQUEST_SIZE 10
#define KRAMSNEP_OPEN_REQUEST_LEAST 9
#define KRAMSNEP_READ_REQUEST_SIZE 16
#define KRAMSNEP_WRITE_REQUEST_LEAST 12
#define KRAMSNEP_COMMIT_REQUEST_LEAST 9
#define KRAMSNEP_CLOSE_REQUEST_SIZE 8
#define KRAMSNEP_DELETE_REQUEST_LEAST 7
#define KRAMSNEP_STAT_REQUEST_LEAST 7
#define KRAMSNEP_SESSION_STAT_REQUEST_SIZE 8
#define KRAMSNEP_WRITE_META_REQUEST_LEAST 12

/* The bytes of its fields. */
#define KRAMSNEP_INDEX_WIDTH 4
#define KRAMSNEP_FLAGS_WIDTH 2
#define KRAMSNEP_SESSION_WIDTH 2
#define KRAMSNEP_OFFSET_WIDTH 4
#define KRAMSNEP_READ_COUNT_WIDTH 4
#define KRAMSNEP_COMMIT_LENGTH_WIDTH 1
#define KRAMSNEP_COUNT_WIDTH 4
#define KRAMSNEP_STATE_WIDTH 2
#define KRAMSNEP_SIZE_WIDTH 4
#define KRAMSNEP_METADATA_LENGTH_WIDTH 1

/* Its offsets. In requests: */
#define KRAMSNEP_INDEX_AT 6
#define KRAMSNEP_FLAGS_AT 6
#define KRAMSNEP_OPEN_NAME_AT 8
#define KRAMSNEP_NAME_AT 6          /* Delete, Stat; and in the response to an Enumerate */
#define KRAMSNEP_SESSION_AT 6       /* Read, Write, Commit, Close, SessionStat, WriteMeta; and in the response to an Open */
#define KRAMSNEP_OFFSET_AT 8        /* Read, Write */
#define KRAMSNEP_READ_COUNT_AT 12
#define KRAMSNEP_WRITE_DATA_AT 12
#define KRAMSNEP_COMMIT_LENGTH_AT 8
/* In responses: */
#define KRAMSNEP_COUNT_AT 6
#define KRAMSNEP_READ_DATA_AT 6
#define KRAMSNEP_STATE_AT 6         /* Stat, SessionStat; so are the next two */
#define KRAMSNEP_SIZE_AT 8
#define KRAMSNEP_METADATA_LENGTH_AT 12

/* The most bytes of data in a Write, and in the response to a Read. */
#define KRAMSNEP_WRITE_MOST 52
#define KRAMSNEP_READ_MOST 58

/* Open flags. A store name is opened with READ or READ_WRITE, a flash name with WRITE. */
#define KRAMSNEP_FLAGS_READ 0x0001
#define KRAMSNEP_FLAGS_WRITE 0x0002
#define KRAMSNEP_FLAGS_READ_WRITE 0x0003

/* The bits of a blob's state, as Stat and SessionStat send it. */
#define KRAMSNEP_STATE_OPEN_READ 0x0001    /* its session has READ */
#define KRAMSNEP_STATE_OPEN_WRITE 0x0002   /* its session has WRITE */
#define KRAMSNEP_STATE_COMMITTING 0x0004   /* its job runs */
#define KRAMSNEP_STATE_COMMITTED 0x0008    /* its job or its cleanup succeeded; of a store blob: committed, and nothing written since */
#define KRAMSNEP_STATE_COMMIT_ERROR 0x0010 /* its job failed */

/* Names: 1 to KRAMSNEP_NAME_MOST bytes, none of them NUL, then the NUL. Small and capital letters differ. There are
 * - store names: the base, and behind it 1 to KRAMSNEP_STORE_NAME_MOST ASCII letters or digits;
 * - the five flash names;
 * - the base alone, which is listed and has a Stat, but is not opened, written or deleted. */
#define KRAMSNEP_NAME_MOST 31
#define KRAMSNEP_STORE_NAME_MOST 25
#define KRAMSNEP_NAME_BASE "/scan/"
#define KRAMSNEP_NAME_IMAGE "/flash/image"
#define KRAMSNEP_NAME_HASH "/flash/hash"
#define KRAMSNEP_NAME_VERIFY "/flash/verify"
#define KRAMSNEP_NAME_UPDATE "/flash/update"
#define KRAMSNEP_NAME_CLEANUP "/flash/cleanup"

/* Completion codes. A refusal (any code but KRAMSNEP_SUCCESS) leaves all lent memory as it was, with one exception: an Open that is refused keeps
 * what its sweep did. */
#define KRAMSNEP_SUCCESS 0x00         /* done; the response stands at the front of the answer buffer */
#define KRAMSNEP_BUSY 0xC0            /* the blob or the flash has a session, or a job runs */
#define KRAMSNEP_UNKNOWN_COMMAND 0xC1 /* the subcommand is above 10 */
#define KRAMSNEP_NO_ROOM 0xC4         /* all 16 sessions, or all 16 blobs, are in use */
#define KRAMSNEP_WRONG_LENGTH 0xC7    /* message below 4 or above 64 bytes, body's length wrong for its subcommand, or a tray ends inside a record */
#define KRAMSNEP_TOO_LONG 0xC8        /* a Write would end above the capacity, or a tray goes on behind its 64th record */
#define KRAMSNEP_OUT_OF_RANGE 0xC9    /* Enumerate's index is not below the count, Write's offset is above the length, or there is no such part */
#define KRAMSNEP_NOT_FOUND 0xCB       /* no such blob or session */
#define KRAMSNEP_INVALID 0xCC         /* OEM number, CRC, form of a name, flags, commit length, or the verdict on a job, are wrong */
#define KRAMSNEP_NOT_SUPPORTED 0xD5   /* this blob or session has no such command, or no job runs whose outcome could be taken */
#define KRAMSNEP_NOT_SOUND 0xFF       /* a lent length is wrong, or the state is damaged */

/* The codes by which kramsnep_load refuses a store file; no request is answered with one of them. */
#define KRAMSNEP_SESSION_OPEN 0xE0  /* a store blob has a session; the file was not looked at */
#define KRAMSNEP_OTHER_TYPE 0xE1    /* a field has a wire type other than 0, 1, 2 and 5 */
#define KRAMSNEP_ZERO_FIELD 0xE2    /* a field has the number 0 */
#define KRAMSNEP_WRONG_TYPE 0xE3    /* base, blob, name or data has another wire type than 2 */
#define KRAMSNEP_BAD_NUMBER 0xE4    /* a number is cut off, or has more than ten bytes or 64 bits */
#define KRAMSNEP_PAST_END 0xE5      /* a value goes past the end of the file, or of its blob */
#define KRAMSNEP_WRONG_BASE 0xE6    /* there is no base, or it is not KRAMSNEP_NAME_BASE */
#define KRAMSNEP_BAD_NAME 0xE7      /* a blob has no name, or one that is no store name */
#define KRAMSNEP_REPEATED_NAME 0xE8 /* two blobs have the same name */
#define KRAMSNEP_LONG_DATA 0xE9     /* a blob has more than KRAMSNEP_SLOT_SIZE bytes of data */
#define KRAMSNEP_MANY_BLOBS 0xEA    /* there are more than KRAMSNEP_SLOTS blobs */

/* The codes by which kramsnep_read_config refuses a flash configuration. F2 to F6 are told only where a value may begin. */
#define KRAMSNEP_BAD_TEXT 0xF1     /* the text cannot go on so, or it ends too early */
#define KRAMSNEP_NUMBER_THERE 0xF2 /* a value begins with a digit or a minus sign */
#define KRAMSNEP_TRUE_THERE 0xF3   /* a value begins with true */
#define KRAMSNEP_FALSE_THERE 0xF4  /* a value begins with false */
#define KRAMSNEP_NULL_THERE 0xF5   /* a value begins with null */
#define KRAMSNEP_TOO_DEEP 0xF6     /* a ninth level of brackets */
#define KRAMSNEP_OFF_PROFILE 0xF7  /* the text has none of these faults, and is no flash configuration */

/* Times, in seconds of the caller's clock. An Open sweeps if the last sweep was KRAMSNEP_SWEEP_EVERY seconds ago or more: it closes the sessions
 * that were not used for more than KRAMSNEP_SESSION_LIFE seconds and have no running job. */
#define KRAMSNEP_SWEEP_EVERY 60
#define KRAMSNEP_SESSION_LIFE 600

/* What a client does. Use only sessions that your own Opens were given: whoever knows an identifier can use it.
 *
 * To store a scan: Open its name with READ_WRITE; Write it, from offset 0 on, in parts of at most KRAMSNEP_WRITE_MOST bytes; Commit; Close. Without the
 *   Commit, Close drops what was written. A Write does not shorten what the name held: for a shorter scan Delete the name first.
 * To read one: Open with READ; Read from offset 0 on, until a response has fewer bytes than were asked for (the most are KRAMSNEP_READ_MOST); Close.
 * To replace firmware, every name opened with WRITE, and one at a time:
 *   1. Open the image (which empties it), Write it, Close. The same with the hash.
 *   2. Open verify, Commit: the job starts. SessionStat until COMMITTING is no longer set. COMMITTED: Close, and the image is verified.
 *      COMMIT_ERROR: Commit again, or Close and upload again.
 *   3. The same with update, which can be opened only then: Close, and image and hash are empty again.
 *   To give up before that: Open cleanup, Commit, Close. */

/* ---- Memory
 *
 * The lengths to lend: words for the first two, bytes for the others. */
#define KRAMSNEP_CONTROL_WORDS 40
#define KRAMSNEP_TABLE_WORDS 64
#define KRAMSNEP_NAMES_SIZE 512
#define KRAMSNEP_COMMITTED_SIZE 65536
#define KRAMSNEP_STAGED_SIZE 65536
#define KRAMSNEP_IMAGE_SIZE 16384
#define KRAMSNEP_HASH_SIZE 64
#define KRAMSNEP_ANSWER_SIZE 64

/* The control block, 40 words:
 *   0       mask of session rows in use, bit r for row r
 *   1       mask of store slots in use, bit k for slot k
 *   2       mask of slots that are committed
 *   3-18    committed length of each slot
 *   19-34   staged length of each slot
 *   35      phase of the flash: 0 Idle, 1 Uploading, 2 Verified
 *   36, 37  length of the image, of the hash
 *   38      next session identifier
 *   39      clock of the last sweep */
#define KRAMSNEP_CONTROL_ROWS 0
#define KRAMSNEP_CONTROL_SLOTS 1
#define KRAMSNEP_CONTROL_COMMITTED 2
#define KRAMSNEP_CONTROL_COMMITTED_LENGTHS 3
#define KRAMSNEP_CONTROL_STAGED_LENGTHS 19
#define KRAMSNEP_CONTROL_PHASE 35
#define KRAMSNEP_CONTROL_IMAGE_LENGTH 36
#define KRAMSNEP_CONTROL_HASH_LENGTH 37
#define KRAMSNEP_CONTROL_NEXT 38
#define KRAMSNEP_CONTROL_LAST_SWEEP 39

#define KRAMSNEP_PHASE_IDLE 0
#define KRAMSNEP_PHASE_UPLOADING 1
#define KRAMSNEP_PHASE_VERIFIED 2

/* The session table, 16 rows of four words:
 *   0  identifier
 *   1  blob: 0 to 15 are store slots, 16 to 20 the flash names below
 *   2  open flags in bits 0-15, job status in bits 16-17, clean (nothing written since the last commit) in bit 18
 *   3  stamp: the clock of the session's last use
 * An unused row is zero. A slot k has bytes 32k to 32k + 31 of the names (padded by zeros), and bytes 4096k to 4096k + 4095 of committed and of
 * staged; only as many as its two lengths say are its contents. */
#define KRAMSNEP_ROWS 16
#define KRAMSNEP_ROW_WORDS 4
#define KRAMSNEP_ROW_IDENTIFIER 0
#define KRAMSNEP_ROW_BLOB 1
#define KRAMSNEP_ROW_FLAGS 2
#define KRAMSNEP_ROW_STAMP 3
#define KRAMSNEP_SLOTS 16
#define KRAMSNEP_NAME_SIZE 32
#define KRAMSNEP_SLOT_SIZE 4096

#define KRAMSNEP_BLOB_IMAGE 16
#define KRAMSNEP_BLOB_HASH 17
#define KRAMSNEP_BLOB_VERIFY 18
#define KRAMSNEP_BLOB_UPDATE 19
#define KRAMSNEP_BLOB_CLEANUP 20

/* The job status in a row's word KRAMSNEP_ROW_FLAGS. */
#define KRAMSNEP_JOB_STATUS(word) (((word) >> 16) & 3u)
#define KRAMSNEP_JOB_UNTRIED 0
#define KRAMSNEP_JOB_RUNNING 1
#define KRAMSNEP_JOB_SUCCEEDED 2
#define KRAMSNEP_JOB_FAILED 3

/* ---- The seven functions */

/* The two halves of a result of kramsnep_respond or kramsnep_save_part, or of a word that kramsnep_tray leaves for a message: completion code, and
 * length of what was written (0 for a refusal). The first of them takes a result of any of the functions. */
#define KRAMSNEP_CODE(result) ((uint8_t)((result) & 0xFFu))
#define KRAMSNEP_LENGTH(result) ((size_t)((result) >> 8))

/* Answers one request.
 *
 * request, request_len: the message as it came, from the OEM number on (network function and command byte are not part of it). Any length may be
 *   passed, 0 too; above 64 it is refused.
 * clock: seconds, from any start. It stamps sessions, and an Open sweeps by it (see Times). Take one that nobody sets: it may run backward, but then
 *   no session gets stale until it has passed its old reading.
 * answer: on success the response stands in its first KRAMSNEP_LENGTH(result) bytes, and the bytes behind keep their values; a refusal changes none.
 *
 * The result is the completion code in the lowest byte and the length of the response above it. */
uint32_t kramsnep_respond(const uint8_t *request, size_t request_len, uint32_t clock,
                          uint32_t *control, size_t control_len, uint32_t *table, size_t table_len,
                          uint8_t *names, size_t names_len, uint8_t *committed, size_t committed_len,
                          uint8_t *staged, size_t staged_len, uint8_t *image, size_t image_len,
                          uint8_t *hash, size_t hash_len, uint8_t *answer, size_t answer_len);

/* The verdict on a job. */
#define KRAMSNEP_VERDICT_FAILED 0
#define KRAMSNEP_VERDICT_GOOD 1

/* Takes the outcome of the running job: verdict is KRAMSNEP_VERDICT_GOOD or KRAMSNEP_VERDICT_FAILED.
 *
 * A Commit on verify or update starts a job: the row of that session then has the status KRAMSNEP_JOB_RUNNING. The caller sees it after a request
 * (kramsnep_running_job), does the work (verify the image against the hash; install the image), and reports by this call. At most one job runs
 * at a time. Only the session's row changes.
 *
 * The result is the completion code: KRAMSNEP_SUCCESS, or a refusal, which changes nothing. They are tested in this order:
 *   KRAMSNEP_NOT_SOUND      a lent length is wrong, or the state is damaged
 *   KRAMSNEP_INVALID        the verdict is neither of the two
 *   KRAMSNEP_NOT_SUPPORTED  no job runs */
uint32_t kramsnep_job_outcome(uint32_t verdict, const uint32_t *control, size_t control_len, uint32_t *table, size_t table_len,
                              const uint8_t *names, size_t names_len, const uint8_t *committed, size_t committed_len,
                              const uint8_t *staged, size_t staged_len, const uint8_t *image, size_t image_len,
                              const uint8_t *hash, size_t hash_len);

/* Which job runs: KRAMSNEP_BLOB_VERIFY, KRAMSNEP_BLOB_UPDATE, or KRAMSNEP_NO_JOB if none does. It reads the mask of rows in use in the control block and, of
 * each row in use, blob and job status; nothing else, and nothing of the other rows. It changes nothing, and does not test the state: of damaged
 * memory too it gives one of the three. */
#define KRAMSNEP_NO_JOB (-1)
static inline int kramsnep_running_job(const uint32_t *control, const uint32_t *table)
{
    for (int row = 0; row < KRAMSNEP_ROWS; row++) {
        const uint32_t *words = table + row * KRAMSNEP_ROW_WORDS;
        if (((control[KRAMSNEP_CONTROL_ROWS] >> row) & 1u) == 0 || KRAMSNEP_JOB_STATUS(words[KRAMSNEP_ROW_FLAGS]) != KRAMSNEP_JOB_RUNNING)
            continue;
        if (words[KRAMSNEP_ROW_BLOB] == KRAMSNEP_BLOB_VERIFY || words[KRAMSNEP_ROW_BLOB] == KRAMSNEP_BLOB_UPDATE)
            return (int)words[KRAMSNEP_ROW_BLOB];
    }
    return KRAMSNEP_NO_JOB;
}

/* A store file has the committed blobs, and nothing of sessions and flash. It is the message BinaryBlobStore, in the wire encoding of Protocol
 * Buffers: other programs can read what is saved, and can write what is loaded. Its fields, all of wire type 2 (a length, then so many bytes): */
#define KRAMSNEP_FILE_BASE 1      /* of the store: the base, KRAMSNEP_NAME_BASE */
#define KRAMSNEP_FILE_BLOB 2      /* of the store: a blob, again with fields; one for each */
#define KRAMSNEP_FILE_BLOB_NAME 1 /* of a blob: its name, without the NUL */
#define KRAMSNEP_FILE_BLOB_DATA 2 /* of a blob: its contents */

/* It is saved in parts, so that a buffer for one blob will do. */
#define KRAMSNEP_PART_SIZE 4200 /* the length to lend; every part fits */
#define KRAMSNEP_PARTS_MOST 17  /* the base, and 16 blobs */

/* Saves one part of the store.
 *
 * part: 0 is the base; from 1 on there is one for each committed blob, in the order of the slots. The parts laid end to end are the file, which has
 *   less than 67,000 bytes. Ask for 0, 1, 2 and so on until KRAMSNEP_OUT_OF_RANGE, and let nothing change the store in between: else the parts
 *   need not belong together.
 * buffer: on success the part stands in its first KRAMSNEP_LENGTH(result) bytes, and the bytes behind keep their values; a refusal changes none.
 *
 * Sessions may be open, and a job may run: saved is what was committed last, without what was written since. All but the buffer is only read.
 * Write the parts into a new file, and rename it over the old one once all of them are there, as the program blobrun does: then one of the two is
 * always there, and whole.
 *
 * The result is the completion code in the lowest byte and the length of the part above it. Refusals are tested in this order:
 *   KRAMSNEP_NOT_SOUND     a lent length is wrong, that of the buffer too, or the state is damaged
 *   KRAMSNEP_OUT_OF_RANGE  there is no such part: the last one was before it */
uint32_t kramsnep_save_part(uint32_t part, const uint32_t *control, size_t control_len, const uint32_t *table, size_t table_len,
                            const uint8_t *names, size_t names_len, const uint8_t *committed, size_t committed_len,
                            const uint8_t *staged, size_t staged_len, const uint8_t *image, size_t image_len,
                            const uint8_t *hash, size_t hash_len, uint8_t *buffer, size_t buffer_len);

/* Loads a store file: its blobs take the place of the whole store.
 *
 * file, file_len: the bytes of the whole file. Any length may be passed, 0 too. Fields may stand in any order; unknown ones, among them the settings
 *   that the message can have, are skipped; of a base, a name or data given twice the last counts; a blob without data is empty. Keys and lengths
 *   may have up to ten bytes, some more than the parsers of Protocol Buffers take.
 *
 * On success the blobs are committed, in slots from 0 on in the order of the file, and the other slots are unused. The flash, its sessions and a
 * running job stay as they are. Sessions on store blobs must be closed: so load at start, before the first request.
 *
 * The result is the completion code: KRAMSNEP_SUCCESS, or a refusal, which changes nothing. They are tested in this order:
 *   KRAMSNEP_NOT_SOUND      a lent length is wrong, or the state is damaged
 *   KRAMSNEP_SESSION_OPEN   a store blob has a session
 *   KRAMSNEP_OTHER_TYPE, KRAMSNEP_ZERO_FIELD, KRAMSNEP_WRONG_TYPE, KRAMSNEP_BAD_NUMBER, KRAMSNEP_PAST_END
 *                           the first of these faults from the front of the file on, the inside of a blob before what follows the blob; of one
 *                           field a key that is no number, then the three faults of the key in this order, then those of the value
 *   KRAMSNEP_WRONG_BASE     each of these five over the whole file, before the next
 *   KRAMSNEP_BAD_NAME
 *   KRAMSNEP_REPEATED_NAME
 *   KRAMSNEP_LONG_DATA
 *   KRAMSNEP_MANY_BLOBS
 *
 * Bound the length of a file that may come from others. In general the time grows with the length; but of names chosen so that the library's hash is
 * the same for all, it grows with its square (on one machine about 0.2 s for 128 KiB, and 12 s for 1 MiB). */
uint32_t kramsnep_load(const uint8_t *file, size_t file_len, uint32_t *control, size_t control_len, const uint32_t *table, size_t table_len,
                       uint8_t *names, size_t names_len, uint8_t *committed, size_t committed_len,
                       uint8_t *staged, size_t staged_len, const uint8_t *image, size_t image_len,
                       const uint8_t *hash, size_t hash_len);

/* A result of kramsnep_find_session beside its completion code: the row, and the number of rows visited. */
#define KRAMSNEP_SESSION_ROW(result) (((result) >> 8) & 0xFFu)
#define KRAMSNEP_ROWS_VISITED(result) ((result) >> 16)

/* Finds the row of the session table that has an identifier: what a session is on, and when it was last used, stands there. Nothing is changed.
 *
 * identifier: compared as a whole word with the first word of a row. Those that Opens give out are below 65,536.
 * rows: the mask of rows in use, word KRAMSNEP_CONTROL_ROWS of the control block.
 * table: the session table. The state is not tested: any words are searched.
 *
 * Only rows in use are visited, the lowest first, and the search ends at the first that has the identifier: the row that a request with this
 * identifier acts on. The number visited counts the one found too; where none is found, all rows in use were visited.
 *
 * The result is the completion code in the lowest byte, the row in the byte above it, and the number of rows visited above both:
 *   KRAMSNEP_SUCCESS    found
 *   KRAMSNEP_NOT_FOUND  no row in use has the identifier; the row is told as 0
 *   KRAMSNEP_NOT_SOUND  the table's length is wrong, or the mask has a bit past the last row; nothing was visited, and the result is this code alone */
uint32_t kramsnep_find_session(uint32_t identifier, uint32_t rows, const uint32_t *table, size_t table_len);

/* The numbers that show a flash configuration. Entry e (from 0) has KRAMSNEP_ENTRY_FIELDS of them, from place e * KRAMSNEP_ENTRY_FIELDS on; there, at
 * the places below, is the start of a string in the text, and behind it its length, both in bytes and without the quotes. */
#define KRAMSNEP_CONFIG_ENTRIES 8
#define KRAMSNEP_ENTRY_FIELDS 18
#define KRAMSNEP_CONFIG_FIELDS 144 /* of all entries */
#define KRAMSNEP_FIELD_BLOB 0
#define KRAMSNEP_FIELD_HANDLER_TYPE 2
#define KRAMSNEP_FIELD_HANDLER_PATH 4
#define KRAMSNEP_FIELD_PREPARATION_TYPE 6
#define KRAMSNEP_FIELD_PREPARATION_UNIT 8
#define KRAMSNEP_FIELD_VERIFICATION_TYPE 10
#define KRAMSNEP_FIELD_VERIFICATION_UNIT 12
#define KRAMSNEP_FIELD_UPDATE_TYPE 14
#define KRAMSNEP_FIELD_UPDATE_UNIT 16

/* A result of kramsnep_read_config beside its completion code: the number of entries if that is KRAMSNEP_SUCCESS, 0 if it is KRAMSNEP_NOT_SOUND, else
 * the place of the fault. */
#define KRAMSNEP_CONFIG_NUMBER(result) ((uint64_t)(result) >> 8)

/* Reads a flash configuration: the JSON file by which a maker says what is done with each flash image. No state is needed, and none is changed.
 *
 * text: the file, of any bytes and any length. It is not changed, and need not end with a zero.
 * fields: KRAMSNEP_CONFIG_FIELDS places, in which the strings of the entries are shown as above; the places of entries that there are not become 0.
 *   The unit of a reboot is told as 0, 0. A refusal leaves all of them.
 *
 * Of JSON it takes lists, objects and strings, at most 8 levels of brackets deep; a string has printable ASCII alone, and neither a quote nor a
 * backslash inside. A configuration is, of such texts, a list of at most KRAMSNEP_CONFIG_ENTRIES entries, each an object with blob (a string),
 * handler (an object with type, which is file, and path, a string) and actions (an object with preparation, verification and update, each an object
 * with type systemd and unit, a string, or with type reboot alone). Keys stand in any order, each once, and no others are taken.
 *
 * The result is the completion code in the lowest byte, and above it the number of entries or the place of the fault, counted in bytes from 0:
 *   KRAMSNEP_SUCCESS      taken
 *   KRAMSNEP_NOT_SOUND    fields has another length, whatever the text; the result is this code alone
 *   KRAMSNEP_BAD_TEXT to KRAMSNEP_TOO_DEEP
 *                         it is not what is taken of JSON; the place is the first byte with which no such text goes on, or the length if it is cut
 *   KRAMSNEP_OFF_PROFILE  it is no such list; the place is the first of: a key that is unknown, or there before, or a unit in an action whose first
 *                         type is reboot; the closing brace of an object that lacks a key; a value that is wrong; a ninth entry
 *
 * The time grows with the length of the text, in proportion. */
uint64_t kramsnep_read_config(const uint8_t *text, size_t text_len, size_t *fields, size_t fields_len);

/* A tray is a list of up to KRAMSNEP_TRAY_MESSAGES messages, each with a clock: records that follow each other without gaps, in the form that the
 * program blobrun reads too. A record:
 *   0-3   clock, as kramsnep_respond takes it
 *   4     length of the message
 *   5-    message, so many bytes; the next record starts behind it */
#define KRAMSNEP_TRAY_MESSAGES 64    /* the most in a tray; and the words of results, the length to lend */
#define KRAMSNEP_TRAY_RESPONSES 4096 /* with so many bytes of responses no tray stops early: KRAMSNEP_ANSWER_SIZE for each message */
#define KRAMSNEP_RECORD_CLOCK_AT 0
#define KRAMSNEP_RECORD_CLOCK_WIDTH 4
#define KRAMSNEP_RECORD_LENGTH_AT 4
#define KRAMSNEP_RECORD_MESSAGE_AT 5

/* A result of kramsnep_tray beside its completion code: the number of messages done, and the bytes of all their responses. A refusal has 0 in both. */
#define KRAMSNEP_TRAY_DONE(result) (((result) >> 8) & 0xFFu)
#define KRAMSNEP_TRAY_BYTES(result) ((size_t)((result) >> 16))

/* Answers the messages of a tray, in their order: each as kramsnep_respond does with the record's clock, on the state that the one before it left.
 *
 * records, records_len: the whole tray. Any length may be passed, 0 too: an empty tray is a success with no message done.
 * responses: it takes the place of the answer buffer, and may have any length, 0 too. The responses stand in its first KRAMSNEP_TRAY_BYTES(result)
 *   bytes, end to end in the order of their messages; the bytes behind keep their values.
 * results: KRAMSNEP_TRAY_MESSAGES words. Word k is, for each message k (from 0) that was done, what kramsnep_respond gives for it; the other words
 *   keep their values. The response to message k has KRAMSNEP_LENGTH(results[k]) bytes, and starts behind those to the messages before it.
 *
 * A message that is refused has its code in results, and does not stop the rest. (One of 65 to 255 bytes is refused with KRAMSNEP_WRONG_LENGTH.) So
 * a success of this call does not say that every message was accepted: look at each of the words.
 *
 * Where fewer than KRAMSNEP_ANSWER_SIZE bytes of responses are free before a message, the call stops there, whatever that message is. This is a
 * success too, with fewer messages done than the tray has: their results and responses, and the state, are those of so many single calls. To go on,
 * take out what was answered, and call again with the records that were not done, the rest of the tray; a record has KRAMSNEP_RECORD_MESSAGE_AT bytes
 * and those that its length byte says. With fewer than KRAMSNEP_ANSWER_SIZE bytes of responses no message is ever done, however often it is called.
 *
 * The result is the completion code in the lowest byte, the number of messages done in the byte above it, and the bytes of responses above both.
 * A refusal of the tray is its code alone: no message was done, and nothing was changed. To that end the whole tray is looked at before its first
 * message is answered, also behind the place where the call would stop. Refusals are tested in this order:
 *   KRAMSNEP_NOT_SOUND     a lent length is wrong, that of results too, or the state is damaged; also where the tray is empty
 *   KRAMSNEP_WRONG_LENGTH  one of the first KRAMSNEP_TRAY_MESSAGES records is cut: the tray ends inside it
 *   KRAMSNEP_TOO_LONG      the tray goes on behind KRAMSNEP_TRAY_MESSAGES whole records
 *
 * Messages of every kind and of several sessions may stand in a tray. But all of them are written down before the first is answered. Which session
 * an Open is given is known from its response alone: use it from the next call on. What is to be done only if others are accepted, as a Commit
 * behind Writes, belongs in a later tray. And a job that a Commit starts runs on at least until the call is over.
 *
 * That requests of different open sessions do not see each other is proved of single messages, however they are merged, on sessions that are open
 * when the first of them comes. Of whole trays, which may have Opens too, no such thing is said: two trays sent in the other order may be answered
 * otherwise. */
uint32_t kramsnep_tray(const uint8_t *records, size_t records_len,
                       uint32_t *control, size_t control_len, uint32_t *table, size_t table_len,
                       uint8_t *names, size_t names_len, uint8_t *committed, size_t committed_len,
                       uint8_t *staged, size_t staged_len, uint8_t *image, size_t image_len,
                       uint8_t *hash, size_t hash_len, uint8_t *responses, size_t responses_len,
                       uint32_t *results, size_t results_len);

/* ---- All of it in one place, for callers who keep it so */

struct kramsnep_memory {
    uint32_t control[KRAMSNEP_CONTROL_WORDS];
    uint32_t table[KRAMSNEP_TABLE_WORDS];
    uint8_t names[KRAMSNEP_NAMES_SIZE];
    uint8_t committed[KRAMSNEP_COMMITTED_SIZE];
    uint8_t staged[KRAMSNEP_STAGED_SIZE];
    uint8_t image[KRAMSNEP_IMAGE_SIZE];
    uint8_t hash[KRAMSNEP_HASH_SIZE];
};

/* kramsnep_respond on memory of that type, and an answer buffer of KRAMSNEP_ANSWER_SIZE bytes. */
static inline uint32_t kramsnep_respond_in(struct kramsnep_memory *m, const uint8_t *request, size_t request_len, uint32_t clock, uint8_t *answer)
{
    return kramsnep_respond(request, request_len, clock, m->control, KRAMSNEP_CONTROL_WORDS, m->table, KRAMSNEP_TABLE_WORDS,
                            m->names, KRAMSNEP_NAMES_SIZE, m->committed, KRAMSNEP_COMMITTED_SIZE, m->staged, KRAMSNEP_STAGED_SIZE,
                            m->image, KRAMSNEP_IMAGE_SIZE, m->hash, KRAMSNEP_HASH_SIZE, answer, KRAMSNEP_ANSWER_SIZE);
}

/* kramsnep_running_job on memory of that type. */
static inline int kramsnep_running_job_in(const struct kramsnep_memory *m)
{
    return kramsnep_running_job(m->control, m->table);
}

/* kramsnep_job_outcome on memory of that type. */
static inline uint32_t kramsnep_job_outcome_in(struct kramsnep_memory *m, uint32_t verdict)
{
    return kramsnep_job_outcome(verdict, m->control, KRAMSNEP_CONTROL_WORDS, m->table, KRAMSNEP_TABLE_WORDS, m->names, KRAMSNEP_NAMES_SIZE,
                                m->committed, KRAMSNEP_COMMITTED_SIZE, m->staged, KRAMSNEP_STAGED_SIZE, m->image, KRAMSNEP_IMAGE_SIZE,
                                m->hash, KRAMSNEP_HASH_SIZE);
}

/* kramsnep_save_part on memory of that type, and a buffer of KRAMSNEP_PART_SIZE bytes. */
static inline uint32_t kramsnep_save_part_in(const struct kramsnep_memory *m, uint32_t part, uint8_t *buffer)
{
    return kramsnep_save_part(part, m->control, KRAMSNEP_CONTROL_WORDS, m->table, KRAMSNEP_TABLE_WORDS, m->names, KRAMSNEP_NAMES_SIZE,
                              m->committed, KRAMSNEP_COMMITTED_SIZE, m->staged, KRAMSNEP_STAGED_SIZE, m->image, KRAMSNEP_IMAGE_SIZE,
                              m->hash, KRAMSNEP_HASH_SIZE, buffer, KRAMSNEP_PART_SIZE);
}

/* kramsnep_load on memory of that type. */
static inline uint32_t kramsnep_load_in(struct kramsnep_memory *m, const uint8_t *file, size_t file_len)
{
    return kramsnep_load(file, file_len, m->control, KRAMSNEP_CONTROL_WORDS, m->table, KRAMSNEP_TABLE_WORDS, m->names, KRAMSNEP_NAMES_SIZE,
                         m->committed, KRAMSNEP_COMMITTED_SIZE, m->staged, KRAMSNEP_STAGED_SIZE, m->image, KRAMSNEP_IMAGE_SIZE,
                         m->hash, KRAMSNEP_HASH_SIZE);
}

/* kramsnep_find_session on memory of that type. */
static inline uint32_t kramsnep_find_session_in(const struct kramsnep_memory *m, uint32_t identifier)
{
    return kramsnep_find_session(identifier, m->control[KRAMSNEP_CONTROL_ROWS], m->table, KRAMSNEP_TABLE_WORDS);
}

/* kramsnep_tray on memory of that type, and results of KRAMSNEP_TRAY_MESSAGES words. */
static inline uint32_t kramsnep_tray_in(struct kramsnep_memory *m, const uint8_t *records, size_t records_len,
                                        uint8_t *responses, size_t responses_len, uint32_t *results)
{
    return kramsnep_tray(records, records_len, m->control, KRAMSNEP_CONTROL_WORDS, m->table, KRAMSNEP_TABLE_WORDS,
                         m->names, KRAMSNEP_NAMES_SIZE, m->committed, KRAMSNEP_COMMITTED_SIZE, m->staged, KRAMSNEP_STAGED_SIZE,
                         m->image, KRAMSNEP_IMAGE_SIZE, m->hash, KRAMSNEP_HASH_SIZE, responses, responses_len,
                         results, KRAMSNEP_TRAY_MESSAGES);
}

#ifdef __cplusplus
}
#endif

#endif
