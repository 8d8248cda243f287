/* Runs twinebeetle_read_pack beside a second reading in C: over packs that are whole, over each cut of small ones and each byte of them set to each
 * value, over random damage of large ones and over noise. Every lent slice stands between guard bytes, and all memory is looked at afterwards. */
#include <stdio.h>
#include <stdlib.h>
#include <string.h>

#include "second_reading.h"
#include "twinebeetle.h"

enum { FILL = 0xA5, GUARD = 64, PAST = 16, SLICES = 6, MOST = 45000 };

static const size_t sizes[SLICES] = {TWINEBEETLE_NAMES, TWINEBEETLE_CATEGORIES, TWINEBEETLE_DEFINITIONS, TWINEBEETLE_RANGES, TWINEBEETLE_REFERENCES, TWINEBEETLE_COUNTS};

static uint8_t rooms[SLICES][GUARD + TWINEBEETLE_NAMES + PAST + GUARD];
static uint8_t lent_pack[GUARD + MOST + GUARD];
static struct tables expected;
static unsigned long tried, differ, by_number[32];

/* ---- numbers that look random: the same at each run */

static uint64_t state = 20261115;

static uint64_t any(uint64_t below)
{
    uint64_t z = state += 0x9E3779B97F4A7C15;
    z = (z ^ z >> 30) * 0xBF58476D1CE4E5B9;
    z = (z ^ z >> 27) * 0x94D049BB133111EB;
    return (z ^ z >> 31) % below;
}

/* ---- one pack through both */

static int all_fill(const uint8_t *from, size_t n)
{
    for (size_t i = 0; i < n; i++)
        if (from[i] != FILL)
            return 0;
    return 1;
}

static uint64_t call(size_t length, const size_t *lengths)
{
    memset(rooms, FILL, sizeof rooms);
    return twinebeetle_read_pack(lent_pack + GUARD, length, rooms[0] + GUARD, lengths[0], rooms[1] + GUARD, lengths[1], rooms[2] + GUARD, lengths[2],
                                 rooms[3] + GUARD, lengths[3], rooms[4] + GUARD, lengths[4], rooms[5] + GUARD, lengths[5]);
}

/* The rooms hold what the second reading has up to the sizes, and what they held before and behind. */
static int memory_agrees(void)
{
    const uint8_t *tables[SLICES] = {expected.names, expected.categories, expected.definitions, expected.ranges, expected.references, expected.counts};
    for (int i = 0; i < SLICES; i++) {
        const uint8_t *room = rooms[i] + GUARD;
        if (!all_fill(rooms[i], GUARD) || memcmp(room, tables[i], sizes[i]) != 0 || !all_fill(room + sizes[i], PAST + GUARD))
            return 0;
    }
    return 1;
}

static void try(const uint8_t *pack, size_t length)
{
    size_t lengths[SLICES];
    for (int i = 0; i < SLICES; i++)
        lengths[i] = sizes[i] + (any(2) ? PAST : 0);
    memset(lent_pack, FILL, sizeof lent_pack);
    memcpy(lent_pack + GUARD, pack, length);
    uint64_t answer = call(length, lengths), second = second_reading(pack, length, &expected);
    int kept = memcmp(lent_pack + GUARD, pack, length) == 0 && all_fill(lent_pack, GUARD) && all_fill(lent_pack + GUARD + length, GUARD);
    tried++;
    by_number[TWINEBEETLE_NUMBER(answer) % 32]++;
    if (answer != second || !kept || !memory_agrees()) {
        if (differ++ < 5)
            printf("differ: %zu bytes, %u at %llu, second reading %u at %llu\n", length, TWINEBEETLE_NUMBER(answer), (unsigned long long)TWINEBEETLE_PLACE(answer),
                   TWINEBEETLE_NUMBER(second), (unsigned long long)TWINEBEETLE_PLACE(second));
    }
}

/* A room one byte short, or empty: 1 with place 0, and nothing is written. */
static void try_short(const uint8_t *pack, size_t length)
{
    memcpy(lent_pack + GUARD, pack, length);
    for (int i = 0; i < SLICES; i++)
        for (int empty = 0; empty < 2; empty++) {
            size_t lengths[SLICES];
            memcpy(lengths, sizes, sizeof sizes);
            lengths[i] = empty ? 0 : sizes[i] - 1;
            uint64_t answer = call(length, lengths);
            tried++;
            by_number[TWINEBEETLE_NUMBER(answer) % 32]++;
            if (answer != 1 || !all_fill(rooms[0], sizeof rooms)) {
                differ++;
                printf("differ: room %d short: %llu\n", i, (unsigned long long)answer);
            }
        }
}

/* ---- packs, written field by field */

static uint8_t pack[MOST];
static uint64_t written; /* in bits */

static void put(unsigned width, uint64_t value)
{
    for (unsigned i = width; i-- > 0; written++)
        if (value >> i & 1)
            pack[written / 8] |= (uint8_t)(0x80 >> written % 8);
}

static uint64_t a_bound(void)
{
    uint64_t c = any(4) ? any(0xD800) : 0xE000 + any(0x1EFF);
    return c;
}

/* A name of this many bytes, three at least: its number in base 26, letters, then characters of three octets. */
static void put_name(unsigned number, unsigned length)
{
    put(15, length);
    for (unsigned k = 0, n = number; k < 3; k++, n /= 26)
        put(8, 'A' + n % 26);
    for (unsigned k = 3; k < length; k += (length - k) % 3 ? 1 : 3)
        if ((length - k) % 3)
            put(8, 'x');
        else
            put(24, 0xE38182);
}

static size_t write_pack(unsigned categories, unsigned name, unsigned lines, unsigned ranges, unsigned references)
{
    memset(pack, 0, sizeof pack);
    written = 0;
    put(8, 1), put(10, categories), put(10, lines), put(12, ranges), put(14, references);
    for (unsigned i = 0; i < categories; i++)
        put_name(i, name);
    for (unsigned i = 0; i < lines; i++)
        put(1, any(2)), put(1, any(2)), put(32, any(3) ? any(9) : any(0x100000000));
    for (unsigned i = 0, left = references; i < ranges; i++) {
        unsigned count = i + 1 == ranges ? left : (unsigned)any(left / (ranges - i) * 2 + 1);
        count = count > left ? left : count;
        left -= count;
        put(16, a_bound()), put(16, a_bound()), put(14, count);
        for (unsigned k = 0; k < count; k++)
            put(9, any(categories));
    }
    return (size_t)((written + 7) / 8);
}

/* ---- damage */

static void every_cut_and_byte(size_t length)
{
    uint8_t copy[512];
    memcpy(copy, pack, length);
    for (size_t n = 0; n <= length; n++)
        try(copy, n);
    for (size_t i = 0; i < length; i++) {
        uint8_t kept = copy[i];
        for (unsigned v = 0; v < 256; v++) {
            copy[i] = (uint8_t)v;
            try(copy, length);
        }
        copy[i] = kept;
    }
    for (unsigned v = 0; v < 256; v++) {
        copy[length] = (uint8_t)v;
        try(copy, length + 1);
    }
}

static void random_damage(size_t length, unsigned times)
{
    static uint8_t copy[MOST];
    for (unsigned k = 0; k < times; k++) {
        memcpy(copy, pack, length);
        size_t n = length;
        for (uint64_t hits = 1 + any(3); hits > 0; hits--)
            copy[any(length)] ^= (uint8_t)(1 << any(8));
        if (any(4) == 0)
            n = any(length);
        if (any(8) == 0)
            copy[any(7)] = (uint8_t)any(256);
        try(copy, n);
    }
}

static void noise(unsigned times)
{
    uint8_t bytes[64];
    for (unsigned k = 0; k < times; k++) {
        size_t n = any(sizeof bytes);
        for (size_t i = 0; i < n; i++)
            bytes[i] = (uint8_t)any(256);
        if (n > 6 && any(2))
            bytes[0] = 1, bytes[1] = 0, bytes[2] = (uint8_t)any(64), bytes[3] = 0, bytes[4] = (uint8_t)any(64);
        try(bytes, n);
    }
}

int main(void)
{
    size_t length = write_pack(0, 0, 0, 0, 0);
    try(pack, length), every_cut_and_byte(length);
    length = write_pack(3, 9, 2, 3, 4);
    try(pack, length), try_short(pack, length), every_cut_and_byte(length);
    length = write_pack(512, 32, 512, 2048, 8192);
    if (length != 40519)
        return printf("the largest pack has %zu bytes\n", length), 1;
    try(pack, length), try_short(pack, length), random_damage(length, 3000);
    length = write_pack(512, 32, 0, 1, 8192);
    try(pack, length), random_damage(length, 1000);
    for (unsigned k = 0; k < 200; k++) {
        unsigned categories = 1 + (unsigned)any(40), ranges = 1 + (unsigned)any(60);
        length = write_pack(categories, 3 + (unsigned)any(30), (unsigned)any(40), ranges, (unsigned)any(200));
        try(pack, length), random_damage(length, 60);
    }
    noise(20000);
    printf("packs: %lu tried, %lu accepted; refused", tried, by_number[0]);
    for (int n = 1; n < 32; n++)
        if (by_number[n])
            printf(" by %d: %lu", n, by_number[n]);
    printf("; %lu differ\n", differ);
    return differ != 0 || tried < 40000 || by_number[0] < 1000;
}
