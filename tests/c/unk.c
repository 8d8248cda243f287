/* Replays oracle/lists/unk.txt through twinebeetle_read_unk: the Rust's answers to texts, refusals by document 01, rooms one byte short, and tables
 * that are handed in damaged. oracle/README.md has the list's items. Every slice stands between guard bytes, and all memory is looked at afterwards.
 *
 *     unk oracle/lists/unk.txt */
#include <stdio.h>
#include <stdlib.h>
#include <string.h>

#include "twinebeetle.h"

enum { FILL = 0xA5, GUARD = 64, PAST = 16, MOST_TEXT = 70000, MOST_LINE = 1 << 20, HANDED = 6, ROOMS = 6, TABLES = 5, COUNTS = 5 };

/* ---- slices: the text, what is handed in, what is lent */

struct slice {
    uint8_t *at;
    size_t size, length; /* as the reader asks for it, and as it is lent */
};

static uint8_t memory[1 << 20];
static struct slice text, handed[HANDED], rooms[ROOMS];
static uint8_t before[HANDED][TWINEBEETLE_NAMES + PAST], read_text[MOST_TEXT], base[MOST_TEXT];
static size_t text_length, base_length;
static int wrong;
static unsigned long tried, skipped, by_number[32];

static uint8_t *lay(struct slice *s, uint8_t *from, size_t size, size_t past)
{
    s->at = from + GUARD;
    s->size = size;
    s->length = size + past;
    return s->at + s->length + GUARD;
}

static void lay_out(void)
{
    static const size_t handed_sizes[HANDED] = {TWINEBEETLE_NAMES,  TWINEBEETLE_CATEGORIES, TWINEBEETLE_DEFINITIONS,
                                                TWINEBEETLE_RANGES, TWINEBEETLE_REFERENCES, TWINEBEETLE_COUNTS};
    static const size_t room_sizes[ROOMS] = {TWINEBEETLE_UNK_ENTRIES, TWINEBEETLE_UNK_OFFSETS,    TWINEBEETLE_UNK_DETAILS,
                                             TWINEBEETLE_UNK_PLACES,  TWINEBEETLE_UNK_REFERENCES, TWINEBEETLE_UNK_COUNTS};
    memset(memory, FILL, sizeof memory);
    uint8_t *at = lay(&text, memory, text_length, 0);
    for (int i = 0; i < HANDED; i++)
        at = lay(&handed[i], at, handed_sizes[i], i < TABLES ? PAST : 0);
    for (int i = 0; i < ROOMS; i++)
        at = lay(&rooms[i], at, room_sizes[i], PAST);
    memcpy(text.at, read_text, text_length);
    for (int i = 0; i < HANDED; i++)
        memcpy(handed[i].at, before[i], handed[i].length);
}

static uint64_t call(void)
{
    const struct slice *h = handed, *r = rooms;
    return twinebeetle_read_unk(text.at, text.length, h[0].at, h[0].length, h[1].at, h[1].length, h[2].at, h[2].length, h[3].at, h[3].length, h[4].at,
                                h[4].length, h[5].at, h[5].length, r[0].at, r[0].length, r[1].at, r[1].length, r[2].at, r[2].length, r[3].at, r[3].length,
                                r[4].at, r[4].length, r[5].at, r[5].length);
}

/* ---- what is expected */

static int all_are(uint8_t value, const uint8_t *from, size_t n)
{
    for (size_t i = 0; i < n; i++)
        if (from[i] != value)
            return 0;
    return 1;
}

/* FNV-1a of 32 bits over the five tables up to their sizes. */
static uint32_t sum(void)
{
    uint32_t s = 2166136261u;
    for (int i = 0; i < TABLES; i++)
        for (size_t k = 0; k < rooms[i].size; k++)
            s = (s ^ rooms[i].at[k]) * 16777619u;
    return s;
}

static int rooms_are(uint8_t value)
{
    for (int i = 0; i < ROOMS; i++)
        if (!all_are(value, rooms[i].at, rooms[i].size))
            return 0;
    return 1;
}

/* All but the first bytes of the rooms is as it was: guard bytes, what lies past the sizes, the text and what is handed in. */
static int rest_is_kept(const uint8_t *copy)
{
    const uint8_t *from = memory;
    for (int i = 0; i < ROOMS; i++) {
        if (memcmp(from, copy + (from - memory), (size_t)(rooms[i].at - from)) != 0)
            return 0;
        from = rooms[i].at + rooms[i].size;
    }
    return memcmp(from, copy + (from - memory), (size_t)(memory + sizeof memory - from)) == 0;
}

static int clears(unsigned number)
{
    return 23 <= number && number <= 25;
}

/* ---- a line of the list */

static char line[MOST_LINE], *rest;
static unsigned long at_line;

static char *word(void)
{
    char *w = strtok_r(NULL, " \n", &rest);
    if (!w) {
        printf("unk.txt:%lu: a word is missing\n", at_line);
        exit(2);
    }
    return w;
}

static unsigned long number(void)
{
    return strtoul(word(), NULL, 10);
}

static uint8_t *put_hex(uint8_t *to, const char *hex)
{
    for (; hex[0] != '-' && hex[0] && hex[1]; hex += 2) {
        char two[3] = {hex[0], hex[1], 0};
        *to++ = (uint8_t)strtoul(two, NULL, 16);
    }
    return to;
}

static void append(const uint8_t *bytes, size_t n)
{
    if (text_length + n > MOST_TEXT) {
        printf("unk.txt:%lu: too long a text\n", at_line);
        exit(2);
    }
    memcpy(read_text + text_length, bytes, n);
    text_length += n;
}

static size_t put_word(uint8_t *to)
{
    return (size_t)(put_hex(to, word()) - to);
}

/* An item that puts bytes behind the text: 0 where the kind is another. */
static int text_item(char kind)
{
    static uint8_t bytes[MOST_TEXT], tail[MOST_TEXT];
    if (kind == 't') {
        append(bytes, put_word(bytes));
    } else if (kind == 'x') {
        unsigned long count = number();
        size_t n = put_word(bytes);
        while (count-- > 0)
            append(bytes, n);
    } else if (kind == 'n') {
        unsigned long first = number(), last = number();
        size_t head = put_word(bytes), n = put_word(tail);
        for (char digits[24]; first <= last; first++) {
            append(bytes, head), append((uint8_t *)digits, (size_t)snprintf(digits, sizeof digits, "%05lu", first)), append(tail, n);
        }
    } else if (kind == 'e') {
        size_t at = number(), gone = number(), n = put_word(bytes);
        append(base, at), append(bytes, n), append(base + at + gone, base_length - at - gone);
    } else {
        return 0;
    }
    return 1;
}

/* What changes what is handed in or lent. The text is whole here, since these items come behind it or, `o`, are kept for later. */
struct change {
    char kind;
    unsigned long which, at, low;
    char *hex;
};

static struct change changes[64];
static int many;

static int change_item(char kind)
{
    struct change *c = &changes[many];
    *c = (struct change){kind, 0, 0, 0, NULL};
    if (!strchr("omks", kind) || many == 64)
        return 0;
    c->which = number();
    if (kind != 'o')
        c->at = number();
    if (kind == 'm')
        c->hex = word();
    if (kind == 'k')
        c->low = number();
    many++;
    return 1;
}

/* 0 where a count is handed in that two bytes cannot say. */
static int apply_changes(void)
{
    for (struct change *c = changes; c < changes + many; c++) {
        if (c->kind == 'o')
            rooms[c->which].length = --rooms[c->which].size;
        else if (c->kind == 'm')
            put_hex(handed[c->which].at + c->at, c->hex);
        else if (c->kind == 's')
            handed[c->which].length = c->at;
        else if (c->at != 0 || c->low > 65535)
            return 0;
        else
            handed[5].at[2 * c->which] = c->low & 255, handed[5].at[2 * c->which + 1] = (uint8_t)(c->low >> 8);
    }
    return 1;
}

static void differs(const char *what, uint64_t answer)
{
    if (wrong++ < 9)
        printf("unk.txt:%lu: %s differs: %u at %llu\n", at_line, what, TWINEBEETLE_NUMBER(answer), (unsigned long long)TWINEBEETLE_PLACE(answer));
}

/* Reads, and holds the answer to `refusal`, or to the counts and the sum where that is 0. */
static void read_and_hold(uint64_t refusal, unsigned long entries, unsigned long bytes, unsigned long expected_sum)
{
    static uint8_t copy[sizeof memory];
    memcpy(copy, memory, sizeof memory);
    uint64_t answer = call();
    const uint8_t *counts = rooms[5].at;
    tried++;
    by_number[TWINEBEETLE_NUMBER(answer) % 32]++;
    if (answer != refusal)
        differs("the answer", answer);
    else if (!rest_is_kept(copy))
        differs("memory that is not the room's", answer);
    else if (refusal && !rooms_are(clears(TWINEBEETLE_NUMBER(answer)) ? 0 : FILL))
        differs("the room", answer);
    else if (!refusal && (TWINEBEETLE_U16(counts) != entries || TWINEBEETLE_U32(counts + 2) != bytes || sum() != expected_sum))
        differs("what was read", answer);
}

/* The tables that are handed in from here on: the text's reading, in rooms that were zero. */
static void read_char_def(void)
{
    memset(before, 0, sizeof before);
    uint64_t answer = twinebeetle_read_char_def(read_text, text_length, before[0], TWINEBEETLE_NAMES, before[1], TWINEBEETLE_CATEGORIES, before[2],
                                                TWINEBEETLE_DEFINITIONS, before[3], TWINEBEETLE_RANGES, before[4], TWINEBEETLE_REFERENCES, before[5],
                                                TWINEBEETLE_COUNTS);
    if (answer)
        differs("the char.def", answer);
}

static void one_line(void)
{
    char *kind = strtok_r(line, " \n", &rest);
    text_length = 0;
    many = 0;
    while (kind && (text_item(*kind) || change_item(*kind)))
        kind = word();
    if (kind && *kind == 'b') {
        memcpy(base, read_text, base_length = text_length);
    } else if (kind && *kind == 'c') {
        read_char_def();
    } else if (kind) {
        lay_out();
        int can = apply_changes();
        unsigned long first = number(), second = number();
        if (!can)
            skipped++;
        else if (*kind == 'r')
            read_and_hold(first + 256 * second, 0, 0, 0);
        else
            read_and_hold(0, first, second, strtoul(word(), NULL, 16));
    }
}

/* ---- what the list does not have: the counts' own room */

static void short_counts(void)
{
    at_line = 0;
    memcpy(read_text, "A,1,2,3,x", text_length = 9);
    for (size_t lent = 0; lent < TWINEBEETLE_UNK_COUNTS; lent++) {
        lay_out();
        rooms[5].length = rooms[5].size = lent;
        read_and_hold(1, 0, 0, 0);
    }
    for (size_t lent = 0; lent < TWINEBEETLE_COUNTS; lent++) {
        lay_out();
        handed[5].length = lent;
        read_and_hold(26, 0, 0, 0);
        lay_out();
        handed[5].length = lent;
        rooms[0].length = --rooms[0].size;
        read_and_hold(1, 0, 0, 0);
    }
}

int main(int argc, char **argv)
{
    FILE *list = argc == 2 ? fopen(argv[1], "r") : NULL;
    if (!list) {
        printf("use: unk oracle/lists/unk.txt\n");
        return 2;
    }
    for (at_line = 1; fgets(line, sizeof line, list); at_line++)
        one_line();
    fclose(list);
    short_counts();
    printf("unk: %lu tried, %lu accepted; refused", tried, by_number[0]);
    for (int n = 1; n < 32; n++)
        if (by_number[n])
            printf(" by %d: %lu", n, by_number[n]);
    printf("; %lu with counts over 16 bits left out; %d differ\n", skipped, wrong);
    return wrong != 0 || tried < 3000 || by_number[0] < 1000;
}
