#include "five_tables.h"

#include <stddef.h>

#include "lent.h"

enum { ROOMS = 6 };

static const size_t sizes[ROOMS] = {TWINEBEETLE_NAMES,  TWINEBEETLE_CATEGORIES, TWINEBEETLE_DEFINITIONS,
                                    TWINEBEETLE_RANGES, TWINEBEETLE_REFERENCES, TWINEBEETLE_COUNTS};
static const char *const words[ROOMS] = {"names", "categories", "definitions", "ranges", "references", "counts"};
static struct tables expected;

void try_reader(reader read, second_reader second, const uint8_t *input, size_t size)
{
    if (size < CONTROL_BYTES || size - CONTROL_BYTES > MOST_LENT)
        return;
    struct control c = read_control(input, ROOMS);
    const uint8_t *data = input + CONTROL_BYTES;
    struct lent text = lend_bytes(ROOMS, &c, data, size - CONTROL_BYTES), r[ROOMS];
    for (unsigned i = 0; i < ROOMS; i++)
        r[i] = lend_room(i, &c, i, sizes[i]);
    uint64_t answer = read(text.at, text.length, r[0].at, r[0].length, r[1].at, r[1].length, r[2].at, r[2].length, r[3].at, r[3].length, r[4].at,
                           r[4].length, r[5].at, r[5].length);
    uint64_t should = second(data, text.length, &expected);
    if (c.short_room >= 0)
        should = 1;
    rule(answer == should, "the answer is the second reading's");
    must_be_kept(&text, data, "what is read is kept");
    const uint8_t *tables[ROOMS] = {expected.names, expected.categories, expected.definitions, expected.ranges, expected.references, expected.counts};
    for (unsigned i = 0; i < ROOMS; i++)
        must_be_left(&r[i], answer, tables[i], sizes[i], words[i]);
}
