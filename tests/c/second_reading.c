#include "second_reading.h"

#include <string.h>

enum { VERSION = 18, ENDS = 19, RULE = 20, LEFT_OVER = 21 };

struct bits {
    const uint8_t *pack;
    uint64_t length; /* in bits */
    uint64_t at;     /* where the next field starts */
    uint64_t answer; /* of the first broken field, or 0 */
};

static void refuse(struct bits *b, unsigned number, uint64_t place)
{
    if (b->answer == 0)
        b->answer = number + 256 * place;
}

static unsigned bit(const struct bits *b, uint64_t at)
{
    return b->pack[at / 8] >> (7 - at % 8) & 1;
}

/* The field of this width at the cursor; 19 where the pack ends inside it. The place where it starts goes to *start. */
static uint64_t take(struct bits *b, unsigned width, uint64_t *start)
{
    uint64_t value = 0;
    *start = b->at;
    if (b->answer != 0)
        return 0;
    if (b->length - b->at < width) {
        refuse(b, ENDS, b->at);
        return 0;
    }
    for (unsigned i = 0; i < width; i++)
        value = 2 * value + bit(b, b->at + i);
    b->at += width;
    return value;
}

static uint64_t up_to(struct bits *b, unsigned width, uint64_t most)
{
    uint64_t start, value = take(b, width, &start);
    if (value > most)
        refuse(b, RULE, start);
    return b->answer ? 0 : value;
}

static void put16(uint8_t *to, uint64_t value)
{
    to[0] = (uint8_t)(value & 255);
    to[1] = (uint8_t)(value >> 8);
}

static int between(uint8_t byte, unsigned low, unsigned high)
{
    return low <= byte && byte <= high;
}

/* RFC 3629, section 4: how many octets the character here has, 0 where there is none. */
static size_t character(const uint8_t *s, size_t n)
{
    if (n >= 1 && s[0] <= 0x7F)
        return 1;
    if (n >= 2 && between(s[0], 0xC2, 0xDF) && between(s[1], 0x80, 0xBF))
        return 2;
    if (n >= 3 && between(s[2], 0x80, 0xBF)) {
        if (s[0] == 0xE0 && between(s[1], 0xA0, 0xBF))
            return 3;
        if ((between(s[0], 0xE1, 0xEC) || between(s[0], 0xEE, 0xEF)) && between(s[1], 0x80, 0xBF))
            return 3;
        if (s[0] == 0xED && between(s[1], 0x80, 0x9F))
            return 3;
    }
    if (n >= 4 && between(s[2], 0x80, 0xBF) && between(s[3], 0x80, 0xBF)) {
        if (s[0] == 0xF0 && between(s[1], 0x90, 0xBF))
            return 4;
        if (between(s[0], 0xF1, 0xF3) && between(s[1], 0x80, 0xBF))
            return 4;
        if (s[0] == 0xF4 && between(s[1], 0x80, 0x8F))
            return 4;
    }
    return 0;
}

static int well_formed(const uint8_t *s, size_t n)
{
    while (n > 0) {
        size_t octets = character(s, n);
        if (octets == 0)
            return 0;
        s += octets;
        n -= octets;
    }
    return 1;
}

static int known_name(const struct tables *t, unsigned many, const uint8_t *name, size_t length)
{
    for (unsigned i = 0; i < many; i++) {
        const uint8_t *slot = t->categories + 4 * i;
        if (TWINEBEETLE_U16(slot + 2) == length && memcmp(t->names + TWINEBEETLE_U16(slot), name, length) == 0)
            return 1;
    }
    return 0;
}

static void names(struct bits *b, struct tables *t, unsigned many, uint64_t *used)
{
    for (unsigned i = 0; i < many && b->answer == 0; i++) {
        uint64_t start, length = take(b, 15, &start);
        if (b->answer == 0 && (length == 0 || *used + length > TWINEBEETLE_NAMES))
            refuse(b, RULE, start);
        if (b->answer == 0 && b->length - b->at < 8 * length)
            refuse(b, ENDS, b->at);
        if (b->answer != 0)
            return;
        start = b->at;
        for (uint64_t k = 0; k < length; k++) {
            uint64_t ignored;
            t->names[*used + k] = (uint8_t)take(b, 8, &ignored);
        }
        const uint8_t *name = t->names + *used;
        if (!well_formed(name, length) || known_name(t, i, name, length))
            refuse(b, RULE, start);
        put16(t->categories + 4 * i, *used);
        put16(t->categories + 4 * i + 2, length);
        *used += length;
    }
}

static void definitions(struct bits *b, struct tables *t, unsigned many)
{
    for (unsigned i = 0; i < many && b->answer == 0; i++) {
        uint64_t ignored, invoke = take(b, 1, &ignored), group = take(b, 1, &ignored), length = take(b, 32, &ignored);
        uint8_t *entry = t->definitions + 6 * i;
        put16(entry, length & 0xFFFF);
        put16(entry + 2, length >> 16);
        entry[4] = (uint8_t)invoke;
        entry[5] = (uint8_t)group;
    }
}

static uint64_t bound(struct bits *b)
{
    uint64_t start, value = take(b, 16, &start);
    if (b->answer == 0 && ((0xD800 <= value && value <= 0xDFFF) || value == 0xFEFF || value == 0xFFFE))
        refuse(b, RULE, start);
    return value;
}

static uint64_t all_ranges(struct bits *b, struct tables *t, unsigned many, unsigned known, uint64_t total)
{
    uint64_t used = 0;
    for (unsigned i = 0; i < many && b->answer == 0; i++) {
        uint64_t lower = bound(b), upper = bound(b), start, count = take(b, 14, &start);
        if (b->answer == 0 && used + count > total)
            refuse(b, RULE, start);
        if (b->answer != 0)
            return used;
        uint8_t *entry = t->ranges + 8 * i;
        put16(entry, lower);
        put16(entry + 2, upper);
        put16(entry + 4, used);
        put16(entry + 6, count);
        for (uint64_t k = 0; k < count && b->answer == 0; k++) {
            uint64_t number = take(b, 9, &start);
            if (b->answer == 0 && number >= known)
                refuse(b, RULE, start);
            put16(t->references + 2 * (used + k), number);
        }
        used += count;
    }
    return used;
}

static void padding(struct bits *b)
{
    int clean = b->length - b->at < 8;
    for (uint64_t at = b->at; clean && at < b->length; at++)
        clean = bit(b, at) == 0;
    if (!clean)
        refuse(b, LEFT_OVER, b->at);
}

uint64_t second_reading(const uint8_t *pack, size_t length, struct tables *into)
{
    struct bits b = {pack, 8 * (uint64_t)length, 0, 0};
    uint64_t start, used = 0;
    memset(into, 0, sizeof *into);
    uint64_t version = take(&b, 8, &start);
    if (b.answer == 0 && version != 1)
        refuse(&b, VERSION, start);
    unsigned categories = (unsigned)up_to(&b, 10, 512), lines = (unsigned)up_to(&b, 10, 512), ranges = (unsigned)up_to(&b, 12, 2048);
    uint64_t total = up_to(&b, 14, 8192);
    names(&b, into, categories, &used);
    definitions(&b, into, lines);
    uint64_t references = all_ranges(&b, into, ranges, categories, total);
    if (b.answer == 0 && references != total)
        refuse(&b, RULE, b.at);
    if (b.answer == 0)
        padding(&b);
    if (b.answer != 0) {
        memset(into, 0, sizeof *into);
        return b.answer;
    }
    uint64_t counts[5] = {categories, lines, ranges, total, used};
    for (unsigned i = 0; i < 5; i++)
        put16(into->counts + 2 * i, counts[i]);
    return 0;
}
