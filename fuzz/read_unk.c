/* libFuzzer's entry for twinebeetle_read_unk. An input is the control, the length of a char.def in two bytes, how many bytes of the tables are damaged in
 * one, four bytes for each of those, the char.def and the unk.def. */
#include <string.h>

#include "lent.h"
#include "second_char_def.h"
#include "second_unk.h"

enum { ROOMS = 6, TEXT_AT = ROOMS, HANDED_AT = ROOMS + 1, MOST_DAMAGE = 7, DAMAGE_BYTES = 4, HEAD = CONTROL_BYTES + 3 };

static const size_t sizes[ROOMS] = {TWINEBEETLE_UNK_ENTRIES, TWINEBEETLE_UNK_OFFSETS,    TWINEBEETLE_UNK_DETAILS,
                                    TWINEBEETLE_UNK_PLACES,  TWINEBEETLE_UNK_REFERENCES, TWINEBEETLE_UNK_COUNTS};
static const char *const words[ROOMS] = {"entries", "offsets", "details", "places", "unk references", "unk counts"};

/* The tables that are handed in, with bytes behind their sizes, and their lengths; the counts are the last. */
static uint8_t copies[HANDED + 1][TWINEBEETLE_NAMES + PAST];
static size_t lengths[HANDED + 1];
static struct tables read_before;
static struct unk_tables expected;

static void hand_in(const struct control *c)
{
    static const size_t full[HANDED + 1] = {TWINEBEETLE_NAMES,  TWINEBEETLE_CATEGORIES, TWINEBEETLE_DEFINITIONS,
                                            TWINEBEETLE_RANGES, TWINEBEETLE_REFERENCES, TWINEBEETLE_COUNTS};
    static const unsigned widths[HANDED] = {1, 4, 6, 8, 2}, counted_by[HANDED] = {4, 0, 1, 2, 3};
    const uint8_t *from[HANDED + 1] = {read_before.names,  read_before.categories, read_before.definitions,
                                       read_before.ranges, read_before.references, read_before.counts};
    for (unsigned i = 0; i <= HANDED; i++) {
        memset(copies[i], c->fill, sizeof copies[i]);
        memcpy(copies[i], from[i], full[i]);
        lengths[i] = full[i] + (c->past >> (i + 2) & 1 ? PAST : 0);
        if (c->tight && i < HANDED)
            lengths[i] = widths[i] * (size_t)TWINEBEETLE_U16(read_before.counts + 2 * counted_by[i]);
    }
}

/* A byte of a table or of the counts gets another value, or a table another length. */
static void damage(const uint8_t d[DAMAGE_BYTES])
{
    unsigned which = d[0] % (HANDED + 1);
    size_t at = d[1] | (size_t)d[2] << 8;
    if (d[0] >= 0xC0)
        lengths[which] = at % (lengths[which] + 1);
    else if (lengths[which])
        copies[which][at % lengths[which]] = d[3];
}

/* The slices of a call: the text, what is handed in with the counts behind the tables, the rooms. */
static struct lent text, t[HANDED + 1], r[ROOMS];

static uint64_t call(void)
{
    return twinebeetle_read_unk(text.at, text.length, t[0].at, t[0].length, t[1].at, t[1].length, t[2].at, t[2].length, t[3].at, t[3].length, t[4].at,
                                t[4].length, t[5].at, t[5].length, r[0].at, r[0].length, r[1].at, r[1].length, r[2].at, r[2].length, r[3].at,
                                r[3].length, r[4].at, r[4].length, r[5].at, r[5].length);
}

static void lend_all(const struct control *c, const uint8_t *data, size_t length)
{
    text = lend_bytes(TEXT_AT, c, data, length);
    for (unsigned i = 0; i <= HANDED; i++)
        t[i] = lend_bytes(HANDED_AT + i, c, copies[i], lengths[i]);
    for (unsigned i = 0; i < ROOMS; i++)
        r[i] = lend_room(i, c, i, sizes[i]);
}

/* What is read, over the copies of what is handed in. */
static void try_unk(const struct control *c, const uint8_t *data, size_t length)
{
    struct handed h = {{copies[0], copies[1], copies[2], copies[3], copies[4]},
                       {lengths[0], lengths[1], lengths[2], lengths[3], lengths[4]},
                       copies[HANDED],
                       lengths[HANDED]};
    lend_all(c, data, length);
    uint64_t answer = call(), should = second_unk(&h, data, length, &expected);
    rule(answer == (c->short_room >= 0 ? 1 : should), "the answer is the second reading's");
    must_be_kept(&text, data, "what is read is kept");
    for (unsigned i = 0; i <= HANDED; i++)
        must_be_kept(&t[i], copies[i], "what is handed in is kept");
    const uint8_t *tables[ROOMS] = {expected.entries, expected.offsets, expected.details, expected.places, expected.references, expected.counts};
    for (unsigned i = 0; i < ROOMS; i++)
        must_be_left(&r[i], answer, tables[i], sizes[i], words[i]);
}

int LLVMFuzzerTestOneInput(const uint8_t *input, size_t size);

int LLVMFuzzerTestOneInput(const uint8_t *input, size_t size)
{
    if (size < HEAD)
        return 0;
    struct control c = read_control(input, ROOMS);
    size_t before = input[CONTROL_BYTES] | (size_t)input[CONTROL_BYTES + 1] << 8, damages = input[CONTROL_BYTES + 2] % (MOST_DAMAGE + 1);
    if (size - HEAD < DAMAGE_BYTES * damages)
        return 0;
    const uint8_t *data = input + HEAD + DAMAGE_BYTES * damages;
    size_t length = size - HEAD - DAMAGE_BYTES * damages;
    if (length > MOST_LENT)
        return 0;
    before = before > length ? length : before;
    second_char_def(data, before, &read_before);
    hand_in(&c);
    for (size_t i = 0; i < damages; i++)
        damage(input + HEAD + DAMAGE_BYTES * i);
    try_unk(&c, data + before, length - before);
    return 0;
}
