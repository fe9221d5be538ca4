/* lines FILE: prints what blobrun prints for a file of records, by one call of kramsnep_respond for each: the state is tested before every request. Files are read and lines written
 * in parts of as many bytes as blobrun has room for. */
#include <stdio.h>
#include <string.h>

#include "kramsnep.h"

enum { RECORD_FRONT = 5, INPUT_SIZE = 65536, TEXT_SIZE = 65536, LINE_MOST = 3 + 2 * KRAMSNEP_MESSAGE_SIZE + 1 };

static struct kramsnep_memory memory;
static uint8_t input[INPUT_SIZE], answer[KRAMSNEP_ANSWER_SIZE];
static char text[TEXT_SIZE];
static size_t filled, written;

static void write_byte(uint8_t byte)
{
    static const char digits[] = "0123456789ABCDEF";
    text[written++] = digits[byte >> 4];
    text[written++] = digits[byte & 15];
}

static void write_out(void)
{
    fwrite(text, 1, written, stdout);
    written = 0;
}

static void answer_record(const uint8_t *record)
{
    uint32_t clock = record[0] | (uint32_t)record[1] << 8 | (uint32_t)record[2] << 16 | (uint32_t)record[3] << 24;
    uint32_t result = kramsnep_respond_in(&memory, record + RECORD_FRONT, record[4], clock, answer);
    if (TEXT_SIZE - written < LINE_MOST)
        write_out();
    write_byte(KRAMSNEP_CODE(result));
    if (KRAMSNEP_LENGTH(result) > 0)
        text[written++] = ' ';
    for (size_t i = 0; i < KRAMSNEP_LENGTH(result); i++)
        write_byte(answer[i]);
    text[written++] = '\n';
}

/* Answers the whole records that wait, and puts what is left of another to the front. */
static void answer_records(void)
{
    size_t at = 0;
    while (filled - at >= RECORD_FRONT && filled - at >= RECORD_FRONT + (size_t)input[at + 4]) {
        answer_record(input + at);
        at += RECORD_FRONT + (size_t)input[at + 4];
    }
    memmove(input, input + at, filled - at);
    filled -= at;
}

int main(int argc, char **argv)
{
    FILE *file = argc == 2 ? fopen(argv[1], "rb") : NULL;
    if (file == NULL) {
        fprintf(stderr, "usage: lines FILE\n");
        return 1;
    }
    size_t got;
    while ((got = fread(input + filled, 1, INPUT_SIZE - filled, file)) > 0) {
        filled += got;
        answer_records();
    }
    write_out();
    if (filled > 0)
        puts("CUT");
    return ferror(file) || ferror(stdout);
}
