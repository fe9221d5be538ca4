/* store full FILE TIMES: what saving and loading a full store takes, beside a plain copy of as many bytes and beside the soundness test alone.
 *     The store is written to FILE, and what saving and loading took to TIMES, for others to compare with.
 * store hostile: what it takes to refuse files of very many blobs, and how that grows with the size.
 * Prints the least and the median of some repetitions. What is compared is measured in turn, so that a machine that becomes slower is so for all. */
#include <stdbool.h>
#include <stdio.h>
#include <stdlib.h>
#include <string.h>

#include "../timing.h"
#include "kramsnep.h"

enum { NO_SUCH_PART = 1000, FILE_MOST = 1 << 20, REPEATS = 2001 };

static const char letters[] = "abcdefghijklmnopqrstuvwxyzABCDEFGHIJKLMNOPQRSTUVWXYZ0123456789";
enum { LETTERS = sizeof letters - 1, TRIPLES = LETTERS * LETTERS * LETTERS };

static struct kramsnep_memory memory;
static uint8_t buffer[KRAMSNEP_PART_SIZE], copy[FILE_MOST];
static volatile uint32_t sink;

/* Store files, as many as are compared, and the one that is worked on. */
static struct file {
    size_t length;
    uint8_t bytes[FILE_MOST];
} files[3], *file = files;

static void fail(const char *what)
{
    fprintf(stderr, "store: %s\n", what);
    exit(1);
}

static uint32_t save_part(uint32_t part) { return kramsnep_save_part_in(&memory, part, buffer); }

static uint32_t load(void) { return kramsnep_load_in(&memory, file->bytes, file->length); }

/* All parts; what is done with them is the caller's. */
static uint32_t save(void)
{
    uint32_t part = 0;
    while (KRAMSNEP_CODE(save_part(part)) == KRAMSNEP_SUCCESS)
        part++;
    return part;
}

static uint32_t test_soundness(void) { return save_part(NO_SUCH_PART); }

static uint32_t copy_file(void)
{
    memcpy(copy, file->bytes, file->length);
    return copy[sink % file->length];
}

/* ---- Time */

struct time {
    double least, median;
};

/* What is measured: a call, and the file that it works on. */
struct job {
    char what[80];
    uint32_t (*run)(void);
    struct file *file;
    uint32_t result;
    struct time time;
    double times[REPEATS];
};

static void measure(struct job *jobs, size_t count, size_t repeats)
{
    for (size_t i = 0; i < repeats; i++)
        for (struct job *job = jobs; job < jobs + count; job++) {
            file = job->file;
            double start = now();
            sink = job->run();
            job->times[i] = now() - start;
            job->result = sink;
        }
    for (struct job *job = jobs; job < jobs + count; job++) {
        qsort(job->times, repeats, sizeof job->times[0], by_value);
        job->time = (struct time){job->times[0], job->times[repeats / 2]};
        printf("%-60s least %11.0f ns   median %11.0f ns\n", job->what, job->time.least, job->time.median);
    }
}

static void against(const char *what, struct time time, struct time other)
{
    printf("%-60s %.2f times (least), %.2f times (median)\n", what, time.least / other.least, time.median / other.median);
}

/* ---- A full store */

/* Sixteen scans of 4,096 bytes, each with a name of the largest length, are saved; from here on the file is the store. */
static void fill(void)
{
    uint32_t slots = (1u << KRAMSNEP_SLOTS) - 1;
    memory.control[KRAMSNEP_CONTROL_SLOTS] = memory.control[KRAMSNEP_CONTROL_COMMITTED] = slots;
    for (size_t k = 0; k < KRAMSNEP_SLOTS; k++) {
        memory.control[KRAMSNEP_CONTROL_COMMITTED_LENGTHS + k] = KRAMSNEP_SLOT_SIZE;
        memcpy(memory.names + KRAMSNEP_NAME_SIZE * k, "/scan/abcdefghijklmnopqrstuvwxy", KRAMSNEP_NAME_MOST);
        memory.names[KRAMSNEP_NAME_SIZE * k + KRAMSNEP_NAME_MOST - 1] = (uint8_t)letters[k];
    }
    for (size_t i = 0; i < KRAMSNEP_COMMITTED_SIZE; i++)
        memory.committed[i] = (uint8_t)(i * 2654435761u >> 24);
    uint32_t result;
    for (uint32_t part = 0; KRAMSNEP_CODE(result = save_part(part)) == KRAMSNEP_SUCCESS; part++) {
        memcpy(file->bytes + file->length, buffer, KRAMSNEP_LENGTH(result));
        file->length += KRAMSNEP_LENGTH(result);
    }
    if (result != KRAMSNEP_OUT_OF_RANGE || save() != 1 + KRAMSNEP_SLOTS)
        fail("the full store is not saved");
}

/* What was saved is read back as the same store. */
static void fill_again(void)
{
    static struct kramsnep_memory before;
    before = memory;
    memset(&memory, 0, sizeof memory);
    if (load() != KRAMSNEP_SUCCESS || memcmp(&before, &memory, sizeof memory) != 0)
        fail("the full store is not read back");
}

static void keep(const char *path, const char *times_path, struct time saving, struct time loading)
{
    FILE *store = fopen(path, "wb"), *both = fopen(times_path, "w");
    if (store == NULL || both == NULL || fwrite(file->bytes, 1, file->length, store) != file->length)
        fail("the full store cannot be written");
    fprintf(both, "%.0f %.0f %.0f %.0f\n", saving.least, saving.median, loading.least, loading.median);
    fclose(store);
    fclose(both);
}

static void full_store(const char *path, const char *times_path)
{
    static struct job jobs[] = {{.what = "plain copy of as many bytes (memcpy)", .run = copy_file, .file = files},
                                {.what = "soundness test alone", .run = test_soundness, .file = files},
                                {.what = "saving: all parts, and the call that says C9", .run = save, .file = files},
                                {.what = "loading", .run = load, .file = files}};
    fill();
    fill_again();
    printf("a full store, 16 scans of 4,096 bytes: %zu bytes\n", file->length);
    measure(jobs, 4, REPEATS);
    struct time plain = jobs[0].time, test = jobs[1].time, saving = jobs[2].time, loading = jobs[3].time;
    against("saving beside the plain copy", saving, plain);
    against("saving beside the soundness test", saving, test);
    against("loading beside the plain copy", loading, plain);
    against("loading beside the soundness test", loading, test);
    keep(path, times_path, saving, loading);
}

/* ---- Hostile files: many blobs without data */

static void begin(void)
{
    static const char base[] = "\x0A\x06/scan/";
    file->length = sizeof base - 1;
    memcpy(file->bytes, base, file->length);
}

static void add(const uint8_t *name, size_t length)
{
    const uint8_t front[] = {0x12, (uint8_t)(length + 8), 0x0A, (uint8_t)(length + 6), '/', 's', 'c', 'a', 'n', '/'};
    memcpy(file->bytes + file->length, front, sizeof front);
    memcpy(file->bytes + file->length + sizeof front, name, length);
    file->length += sizeof front + length;
}

/* Three letters or digits, different for each number below TRIPLES. */
static void triple(size_t number, uint8_t *out)
{
    out[0] = (uint8_t)letters[number / (LETTERS * LETTERS)];
    out[1] = (uint8_t)letters[number / LETTERS % LETTERS];
    out[2] = (uint8_t)letters[number % LETTERS];
}

/* So many bytes of blobs with different names of three letters or digits; the last may have the name of the first. */
static void tiny_blobs(size_t size, bool first_again)
{
    begin();
    for (size_t i = 0; file->length + 13 <= size; i++) {
        uint8_t name[3];
        triple(first_again && file->length + 2 * 13 > size ? 0 : i, name);
        add(name, sizeof name);
    }
}

static void different_names(size_t size) { tiny_blobs(size, false); }

static void first_name_again(size_t size) { tiny_blobs(size, true); }

/* The library's hash, as crates/name_filter has it: were it another, the names below would not collide, and take no longer than others. */
static const uint32_t hash_factor = 16777619;

static uint32_t hash_on(uint32_t hash, const uint8_t *bytes, size_t n)
{
    for (size_t i = 0; i < n; i++)
        hash = hash * hash_factor + bytes[i];
    return hash;
}

enum { SYLLABLE = 6, SYLLABLES_LEAST = 10, SYLLABLES_MOST = 16, SYLLABLES_OF_A_NAME = 4 };

struct half {
    uint32_t hash;
    uint8_t bytes[3];
};

static struct half fronts[TRIPLES];
static uint8_t syllables[SYLLABLES_MOST][SYLLABLE];
static size_t syllable_count;

static int by_hash(const void *a, const void *b)
{
    uint32_t x = ((const struct half *)a)->hash, y = ((const struct half *)b)->hash;
    return (x > y) - (x < y);
}

/* Some of the syllables, of six letters or digits, that bring a hash from 0 to this number: for each back half, a front half that fits. */
static void find_syllables(uint32_t wanted)
{
    const uint32_t shift = hash_factor * hash_factor * hash_factor;
    for (size_t i = 0; i < TRIPLES; i++) {
        triple(i, fronts[i].bytes);
        fronts[i].hash = hash_on(0, fronts[i].bytes, 3) * shift;
    }
    qsort(fronts, TRIPLES, sizeof fronts[0], by_hash);
    syllable_count = 0;
    for (size_t i = 0; i < TRIPLES && syllable_count < SYLLABLES_MOST; i++) {
        uint8_t back[3];
        triple(i, back);
        struct half key = {wanted - hash_on(0, back, 3), {0, 0, 0}};
        const struct half *found = bsearch(&key, fronts, TRIPLES, sizeof fronts[0], by_hash);
        if (found == NULL)
            continue;
        memcpy(syllables[syllable_count], found->bytes, 3);
        memcpy(syllables[syllable_count++] + 3, back, 3);
    }
}

/* Names of four syllables. A syllable in the place of another leaves the hash as it is, so all names have the same. */
static void names_of_one_hash(size_t size)
{
    for (uint32_t wanted = 0; syllable_count < SYLLABLES_LEAST; wanted++)
        find_syllables(wanted);
    begin();
    for (size_t i = 0; file->length + 34 <= size; i++) {
        uint8_t name[SYLLABLES_OF_A_NAME * SYLLABLE];
        size_t rest = i;
        for (size_t k = 0; k < SYLLABLES_OF_A_NAME; k++, rest /= syllable_count)
            memcpy(name + SYLLABLE * k, syllables[rest % syllable_count], SYLLABLE);
        if (rest != 0)
            fail("there are too few colliding names");
        add(name, sizeof name);
    }
}

/* Files of a quarter of a size, of half of it, and of all of it, and how the time grows. */
static void refused(const char *what, void (*make)(size_t size), size_t largest, uint32_t code, size_t repeats)
{
    static struct job jobs[3];
    for (size_t i = 0; i < 3; i++) {
        size_t size = largest >> (2 - i);
        file = jobs[i].file = files + i;
        jobs[i].run = load;
        snprintf(jobs[i].what, sizeof jobs[i].what, "%s, %zu KiB", what, size / 1024);
        make(size);
    }
    measure(jobs, 3, repeats);
    for (size_t i = 0; i < 3; i++) {
        if (jobs[i].result != code)
            fail("another code than expected");
        if (i > 0)
            against(i == 1 ? "  the second beside the first" : "  the third beside the second", jobs[i].time, jobs[i - 1].time);
    }
}

static void hostile_files(void)
{
    refused("tiny blobs, all names different (EA)", different_names, FILE_MOST, KRAMSNEP_MANY_BLOBS, 21);
    refused("tiny blobs, the first name again at the end (E8)", first_name_again, FILE_MOST, KRAMSNEP_REPEATED_NAME, 21);
    refused("names of one hash, all different (EA)", names_of_one_hash, FILE_MOST / 8, KRAMSNEP_MANY_BLOBS, 3);
}

int main(int argc, char **argv)
{
    if (argc == 4 && strcmp(argv[1], "full") == 0)
        return full_store(argv[2], argv[3]), 0;
    if (argc == 2 && strcmp(argv[1], "hostile") == 0)
        return hostile_files(), 0;
    fprintf(stderr, "usage: store full FILE TIMES, or store hostile\n");
    return 1;
}
