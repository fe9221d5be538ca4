/* Times calls of a reader of flash configurations, the library's or another with the same arguments. config.py loads this, with the library, as a shared object. */
#include "../timing.h"
#include "kramsnep.h"

typedef uint64_t reader(const uint8_t *text, size_t text_len, size_t *fields, size_t fields_len);

reader *const library_reader = kramsnep_read_config;

/* Nanoseconds of processor time for one of so many calls; all must have the same result, which goes to `result`, or the time is negative. */
double time_of(reader *read, const uint8_t *text, size_t text_len, size_t calls, uint64_t *result)
{
    size_t fields[KRAMSNEP_CONFIG_FIELDS], same = 1;
    double begin = processor_time();
    *result = read(text, text_len, fields, KRAMSNEP_CONFIG_FIELDS);
    for (size_t i = 1; i < calls; i++)
        same += read(text, text_len, fields, KRAMSNEP_CONFIG_FIELDS) == *result;
    double took = processor_time() - begin;
    return same == calls ? took / (double)calls : -1;
}
