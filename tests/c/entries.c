/* The other exported entries from C: char.def over the rows of document 01's table of examples, and the longest well-formed prefix, with guard bytes. */
#include <stdio.h>
#include <string.h>

#include "twinebeetle.h"

enum { FILL = 0xA5, GUARD = 64, SLICES = 6 };

static const size_t sizes[SLICES] = {TWINEBEETLE_NAMES, TWINEBEETLE_CATEGORIES, TWINEBEETLE_DEFINITIONS, TWINEBEETLE_RANGES, TWINEBEETLE_REFERENCES, TWINEBEETLE_COUNTS};
static uint8_t rooms[SLICES][GUARD + TWINEBEETLE_NAMES + GUARD];
static int wrong;

static int all_are(uint8_t value, const uint8_t *from, size_t n)
{
    for (size_t i = 0; i < n; i++)
        if (from[i] != value)
            return 0;
    return 1;
}

static int guarded(void)
{
    for (int i = 0; i < SLICES; i++)
        if (!all_are(FILL, rooms[i], GUARD) || !all_are(FILL, rooms[i] + GUARD + sizes[i], GUARD))
            return 0;
    return 1;
}

static int rooms_are(uint8_t value)
{
    for (int i = 0; i < SLICES; i++)
        if (!all_are(value, rooms[i] + GUARD, sizes[i]))
            return 0;
    return 1;
}

static uint64_t read_text(const char *text, size_t length, size_t counts)
{
    memset(rooms, FILL, sizeof rooms);
    return twinebeetle_read_char_def((const uint8_t *)text, length, rooms[0] + GUARD, sizes[0], rooms[1] + GUARD, sizes[1], rooms[2] + GUARD, sizes[2],
                                     rooms[3] + GUARD, sizes[3], rooms[4] + GUARD, sizes[4], rooms[5] + GUARD, counts);
}

static void check(int holds, const char *what)
{
    if (!holds) {
        wrong++;
        printf("wrong: %s\n", what);
    }
}

static void refused(const char *text, unsigned number, uint64_t place)
{
    check(read_text(text, strlen(text), sizes[5]) == number + 256 * place && guarded() && rooms_are(number < 4 ? FILL : 0), text);
}

/* Accepted, with these bytes at the front of the tables and these five counts. */
static void accepted(const char *text, const char *names, const char *first_range, const uint8_t counts[5])
{
    check(read_text(text, strlen(text), sizes[5]) == 0 && guarded(), text);
    check(memcmp(rooms[0] + GUARD, names, strlen(names)) == 0 && all_are(0, rooms[0] + GUARD + strlen(names), sizes[0] - strlen(names)), text);
    check(memcmp(rooms[3] + GUARD, first_range, 8) == 0, text);
    for (int i = 0; i < 5; i++)
        check(TWINEBEETLE_U16(rooms[5] + GUARD + 2 * i) == counts[i], text);
}

int main(void)
{
    accepted("", "", "\0\0\0\0\0\0\0\0", (const uint8_t[]){0, 0, 0, 0, 0});
    accepted("0x41 A", "A", "\x41\0\x41\0\0\0\1\0", (const uint8_t[]){1, 0, 1, 1, 1});
    accepted("0x0x41..43 A", "A", "\x41\0\x43\0\0\0\1\0", (const uint8_t[]){1, 0, 1, 1, 1});
    accepted("0xD800..0xDFFF A", "A", "\xFD\xFF\xFD\xFF\0\0\1\0", (const uint8_t[]){1, 0, 1, 1, 1});
    accepted("0x43..0x41 A", "A", "\x43\0\x41\0\0\0\1\0", (const uint8_t[]){1, 0, 1, 1, 1});
    accepted("A 1 0 2", "A", "\0\0\0\0\0\0\0\0", (const uint8_t[]){1, 1, 0, 0, 1});
    accepted("0x41 B A\n0x41 A C", "BAC", "\x41\0\x41\0\0\0\2\0", (const uint8_t[]){3, 0, 2, 4, 3});
    refused("0xFEFF A", 6, 1);
    refused("0x41....0x43 A", 4, 1);
    refused("0x41...0x43 A", 5, 1);
    refused("A 1 0", 7, 1);
    refused("A 4294967296 0 0", 8, 1);
    refused("0x10000 A", 5, 1);
    refused("A 1 0 2\n\nB 1 0", 7, 3);
    refused("A 1 0 \xFF", 3, 6);
    check(read_text("A", 1, sizes[5] - 1) == 1 && guarded() && rooms_are(FILL), "counts one byte short");
    check(twinebeetle_valid_prefix((const uint8_t *)"\xE3\x81\x82\xED\xA0\x80", 6) == 3, "a surrogate");
    check(twinebeetle_valid_prefix((const uint8_t *)"abc", 3) == 3, "ASCII");
    check(twinebeetle_valid_prefix((const uint8_t *)"", 0) == 0, "nothing");
    printf("entries: %d wrong\n", wrong);
    return wrong != 0;
}
