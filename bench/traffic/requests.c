/* requests FILE: answers the records of a request file from a fresh state, and prints what a request takes beside the soundness test on the same states: the file is run once
 * as it is, and once with an empty message before each request. An empty message is refused right after the soundness test, so it stands for the test. */
#include <stdbool.h>
#include <stdio.h>
#include <stdlib.h>
#include <string.h>

#include "../timing.h"
#include "kramsnep.h"

static struct kramsnep_memory memory;
static uint8_t answer[KRAMSNEP_ANSWER_SIZE];

struct run {
    double nanoseconds;
    size_t count, refused;
};

static struct run run(const uint8_t *bytes, size_t size, bool with_empty)
{
    struct run r = {0, 0, 0};
    memset(&memory, 0, sizeof memory);
    double start = now();
    for (size_t at = 0; at + 5 <= size; at += 5u + bytes[at + 4], r.count++) {
        uint32_t clock = bytes[at] | (uint32_t)bytes[at + 1] << 8 | (uint32_t)bytes[at + 2] << 16 | (uint32_t)bytes[at + 3] << 24;
        if (with_empty)
            (void)kramsnep_respond_in(&memory, bytes, 0, clock, answer);
        r.refused += KRAMSNEP_CODE(kramsnep_respond_in(&memory, bytes + at + 5, bytes[at + 4], clock, answer)) != KRAMSNEP_SUCCESS;
    }
    r.nanoseconds = now() - start;
    return r;
}

int main(int argc, char **argv)
{
    FILE *file = argc == 2 ? fopen(argv[1], "rb") : NULL;
    if (file == NULL) {
        fprintf(stderr, "usage: requests FILE\n");
        return 1;
    }
    fseek(file, 0, SEEK_END);
    size_t size = (size_t)ftell(file);
    rewind(file);
    uint8_t *bytes = malloc(size);
    if (bytes == NULL || fread(bytes, 1, size, file) != size)
        return 1;
    struct run alone = run(bytes, size, false), both = run(bytes, size, true);
    for (int round = 1; round < 5; round++) { /* the least of five rounds of each */
        struct run a = run(bytes, size, false), b = run(bytes, size, true);
        alone = a.nanoseconds < alone.nanoseconds ? a : alone;
        both = b.nanoseconds < both.nanoseconds ? b : both;
    }
    double count = (double)alone.count, test = (both.nanoseconds - alone.nanoseconds) / count, request = alone.nanoseconds / count;
    printf("%zu requests, %zu of them refused\n", alone.count, alone.refused);
    printf("a request: %.0f ns; the soundness test: %.0f ns; ratio %.2f\n", request, test, request / test);
    return 0;
}
