#include "second_char_def.h"

#include <string.h>

#include "second_text.h"

enum { TEXT = 65536, CATEGORIES = 512, NAME_BYTES = 16384, LINES = 512, RANGES = 2048, REFERENCES = 8192 };

/* ---- a text as characters, each with the byte where it starts */

static const uint8_t *bytes;
static uint32_t codes[TEXT + 1];
static size_t starts[TEXT + 1];

static size_t decode(const uint8_t *text, size_t length)
{
    size_t n = 0, at = 0;
    bytes = text;
    for (; at < length; n++) {
        starts[n] = at;
        at += second_character(text + at, length - at, &codes[n]);
    }
    starts[n] = at;
    return n;
}

struct part {
    size_t from, to;
};

static int is_white(uint32_t c)
{
    return (0x09 <= c && c <= 0x0D) || c == 0x20 || c == 0x85 || c == 0xA0 || c == 0x1680 || (0x2000 <= c && c <= 0x200A) || c == 0x2028 || c == 0x2029 ||
           c == 0x202F || c == 0x205F || c == 0x3000;
}

static int is_gap(uint32_t c)
{
    return c == '\t' || c == '\f' || c == '\r' || c == ' ';
}

static int begins_0x(struct part p)
{
    return p.to - p.from >= 2 && codes[p.from] == '0' && codes[p.from + 1] == 'x';
}

static struct part fields[TEXT];

static size_t split(struct part p, int (*between)(uint32_t))
{
    size_t n = 0;
    for (size_t i = p.from; i < p.to; i++) {
        if (between(codes[i]))
            continue;
        if (i == p.from || between(codes[i - 1]))
            fields[n++].from = i;
        fields[n - 1].to = i + 1;
    }
    return n;
}

/* ---- the reading so far */

static struct tables *into;
static unsigned categories, definitions, ranges, references, name_bytes;

static void put16(uint8_t *to, uint32_t value)
{
    to[0] = value & 255;
    to[1] = value >> 8 & 255;
}

/* A name's number, which goes to *number; or 12 or 13. */
static unsigned intern(struct part p, unsigned *number)
{
    const uint8_t *name = bytes + starts[p.from];
    size_t size = starts[p.to] - starts[p.from];
    for (*number = 0; *number < categories; ++*number) {
        const uint8_t *slot = into->categories + 4 * *number;
        if (TWINEBEETLE_U16(slot + 2) == size && memcmp(into->names + TWINEBEETLE_U16(slot), name, size) == 0)
            return 0;
    }
    if (categories == CATEGORIES)
        return 12;
    if (name_bytes + size > NAME_BYTES)
        return 13;
    memcpy(into->names + name_bytes, name, size);
    put16(into->categories + 4 * categories, name_bytes);
    put16(into->categories + 4 * categories + 2, (uint32_t)size);
    name_bytes += (unsigned)size;
    categories++;
    return 0;
}

static unsigned bound(struct part p, uint32_t *code)
{
    int64_t value;
    while (begins_0x(p))
        p.from += 2;
    if (!second_numeral(codes + p.from, p.to - p.from, 16, 0xFFFF, 0, &value))
        return 5;
    if (value == 0xFEFF || value == 0xFFFE)
        return 6;
    *code = value >= 0xD800 && value <= 0xDFFF ? 0xFFFD : (uint32_t)value;
    return 0;
}

/* "The first is split at each `..` found from the left": 4, 5 or 6. */
static unsigned bounds(struct part field, uint32_t *lower, uint32_t *upper)
{
    struct part first = field, last = field;
    unsigned parts = 1;
    for (size_t i = field.from; i + 1 < field.to; i++)
        if (codes[i] == '.' && codes[i + 1] == '.') {
            if (parts++ == 1)
                first.to = i;
            last.from = i + 2;
            i++;
        }
    if (parts > 2)
        return 4;
    unsigned bad = bound(first, lower);
    return bad ? bad : bound(last, upper);
}

static unsigned range_line(struct part body)
{
    uint32_t lower, upper;
    size_t many = split(body, is_white) - 1;
    unsigned bad = bounds(fields[0], &lower, &upper);
    if (bad)
        return bad;
    if (ranges == RANGES)
        return 9;
    if (references + many > REFERENCES)
        return 10;
    uint8_t *entry = into->ranges + 8 * ranges++;
    put16(entry, lower), put16(entry + 2, upper), put16(entry + 4, references), put16(entry + 6, (uint32_t)many);
    for (size_t k = 1; k <= many; k++) {
        unsigned number;
        if ((bad = intern(fields[k], &number)) != 0)
            return bad;
        put16(into->references + 2 * references++, number);
    }
    return 0;
}

static unsigned category_line(struct part body)
{
    int64_t values[4];
    unsigned number, bad;
    if (split(body, is_gap) != 4)
        return 7;
    for (unsigned i = 1; i < 4; i++)
        if (!second_numeral(codes + fields[i].from, fields[i].to - fields[i].from, 10, 0xFFFFFFFF, 0, &values[i]))
            return 8;
    if (definitions == LINES)
        return 11;
    if ((bad = intern(fields[0], &number)) != 0)
        return bad;
    uint8_t *entry = into->definitions + 6 * definitions++;
    put16(entry, (uint32_t)values[3] & 0xFFFF), put16(entry + 2, (uint32_t)(values[3] >> 16));
    entry[4] = values[1] == 1;
    entry[5] = values[2] == 1;
    return 0;
}

static unsigned one_line(struct part line)
{
    struct part body = {line.from, line.from};
    while (body.to < line.to && codes[body.to] != '#')
        body.to++;
    while (body.from < body.to && is_white(codes[body.from]))
        body.from++;
    while (body.from < body.to && is_white(codes[body.to - 1]))
        body.to--;
    if (body.from == body.to)
        return 0;
    return begins_0x(body) ? range_line(body) : category_line(body);
}

static uint64_t all_lines(size_t n)
{
    struct part line = {0, 0};
    for (uint64_t place = 1; line.from <= n; place++, line.from = line.to + 1) {
        for (line.to = line.from; line.to < n && codes[line.to] != '\n';)
            line.to++;
        unsigned bad = one_line(line);
        if (bad)
            return bad + 256 * place;
    }
    return 0;
}

uint64_t second_char_def(const uint8_t *text, size_t length, struct tables *tables)
{
    memset(tables, 0, sizeof *tables);
    if (length > TEXT)
        return 2;
    size_t prefix = second_prefix(text, length);
    if (prefix < length)
        return 3 + 256 * (uint64_t)prefix;
    into = tables;
    categories = definitions = ranges = references = name_bytes = 0;
    uint64_t answer = all_lines(decode(text, length));
    if (answer) {
        memset(tables, 0, sizeof *tables);
        return answer;
    }
    put16(tables->counts, categories), put16(tables->counts + 2, definitions), put16(tables->counts + 4, ranges);
    put16(tables->counts + 6, references), put16(tables->counts + 8, name_bytes);
    return 0;
}
