/* Reads a flash configuration through the C interface, and prints each string of its entries; then shows three texts that are refused, each with the
 * completion code, the place of the fault, and what stands there. Every completion code is checked: one that is not expected ends the program with
 * status 1.
 *
 * Here the texts stand in the program; docs/HOOKING.md says what to do with a file. */
#include <stdio.h>
#include <stdlib.h>
#include <string.h>

#include "kramsnep.h"

static size_t fields[KRAMSNEP_CONFIG_FIELDS], copy[KRAMSNEP_CONFIG_FIELDS];

static const struct {
    size_t at;
    const char *what;
} strings[] = {
    {KRAMSNEP_FIELD_BLOB, "blob"},
    {KRAMSNEP_FIELD_HANDLER_TYPE, "handler's type"},
    {KRAMSNEP_FIELD_HANDLER_PATH, "handler's path"},
    {KRAMSNEP_FIELD_PREPARATION_TYPE, "preparation's type"},
    {KRAMSNEP_FIELD_PREPARATION_UNIT, "preparation's unit"},
    {KRAMSNEP_FIELD_VERIFICATION_TYPE, "verification's type"},
    {KRAMSNEP_FIELD_VERIFICATION_UNIT, "verification's unit"},
    {KRAMSNEP_FIELD_UPDATE_TYPE, "update's type"},
    {KRAMSNEP_FIELD_UPDATE_UNIT, "update's unit"},
};

static void must(int holds, const char *what)
{
    if (!holds) {
        fprintf(stderr, "%s: not as expected\n", what);
        exit(1);
    }
}

/* Reads the first bytes of a text, so many of them; gives the number beside the completion code. */
static size_t read_config(const char *what, const char *text, size_t length, uint8_t expected)
{
    uint64_t result = kramsnep_read_config((const uint8_t *)text, length, fields, KRAMSNEP_CONFIG_FIELDS);
    printf("%s: %02X", what, KRAMSNEP_CODE(result));
    must(KRAMSNEP_CODE(result) == expected, what);
    return (size_t)KRAMSNEP_CONFIG_NUMBER(result);
}

/* The strings of an entry. None of them can begin at place 0, in front of the list's bracket: that start says that there is no string, as for the unit
 * of a reboot. */
static void show_entry(const char *text, const size_t *entry)
{
    for (size_t i = 0; i < sizeof strings / sizeof strings[0]; i++) {
        size_t start = entry[strings[i].at], length = entry[strings[i].at + 1];
        if (start == 0)
            printf("  %s: none\n", strings[i].what);
        else
            printf("  %s: \"%.*s\"\n", strings[i].what, (int)length, text + start);
    }
}

/* A text that is refused; the fields stay as they are. */
static void refuse(const char *what, const char *text, size_t length, uint8_t expected)
{
    memcpy(copy, fields, sizeof fields);
    size_t place = read_config(what, text, length, expected);
    if (place == length)
        printf(" at its end\n");
    else
        printf(" at byte %zu: %.*s\n", place, (int)(length - place), text + place);
    must(memcmp(copy, fields, sizeof fields) == 0, what);
}

int main(void)
{
    static const char text[] =
        "[{\"blob\": \"" KRAMSNEP_NAME_IMAGE "\",\n"
        "  \"handler\": {\"type\": \"file\", \"path\": \"/run/flash/image\"},\n"
        "  \"actions\": {\"preparation\": {\"type\": \"systemd\", \"unit\": \"prepare-image.service\"},\n"
        "              \"verification\": {\"type\": \"systemd\", \"unit\": \"verify-image.service\"},\n"
        "              \"update\": {\"type\": \"reboot\"}}},\n"
        " {\"actions\": {\"update\": {\"unit\": \"install-scanner.service\", \"type\": \"systemd\"},\n"
        "              \"verification\": {\"unit\": \"verify-scanner.service\", \"type\": \"systemd\"},\n"
        "              \"preparation\": {\"unit\": \"\", \"type\": \"systemd\"}},\n"
        "  \"handler\": {\"path\": \"/run/flash/scanner\", \"type\": \"file\"},\n"
        "  \"blob\": \"/flash/scanner\"}]\n";
    static const char number[] = "[{\"blob\": 7}]", key[] = "[{\"size\": \"7\"}]";

    size_t count = read_config("a configuration", text, strlen(text), KRAMSNEP_SUCCESS);
    printf(", %zu entries\n", count);
    for (size_t e = 0; e < count; e++) {
        printf("entry %zu\n", e);
        show_entry(text, fields + e * KRAMSNEP_ENTRY_FIELDS);
    }
    for (size_t i = count * KRAMSNEP_ENTRY_FIELDS; i < KRAMSNEP_CONFIG_FIELDS; i++)
        must(fields[i] == 0, "fields of entries that there are not");

    refuse("a number", number, strlen(number), KRAMSNEP_NUMBER_THERE);
    refuse("an unknown key", key, strlen(key), KRAMSNEP_OFF_PROFILE);
    refuse("the configuration, cut inside its last string", text, strlen(text) - 5, KRAMSNEP_BAD_TEXT);
    must(kramsnep_read_config((const uint8_t *)text, strlen(text), fields, KRAMSNEP_CONFIG_FIELDS - 1) == KRAMSNEP_NOT_SOUND, "one field too few");
    return 0;
}
