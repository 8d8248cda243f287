#include "lent.h"

#include <stdio.h>
#include <stdlib.h>
#include <string.h>
#include <sys/mman.h>

enum { PAGE = 4096, ROOM = 20 * PAGE };

static uint8_t *rooms[SLICES];

void rule(int holds, const char *words)
{
    if (!holds) {
        fprintf(stderr, "broken rule: %s\n", words);
        abort();
    }
}

static uint8_t *room_of(unsigned which)
{
    if (!rooms[which]) {
        uint8_t *pages = mmap(NULL, ROOM + 2 * PAGE, PROT_NONE, MAP_PRIVATE | MAP_ANONYMOUS, -1, 0);
        rule(pages != MAP_FAILED && mprotect(pages + PAGE, ROOM, PROT_READ | PROT_WRITE) == 0, "no memory for a slice");
        rooms[which] = pages + PAGE;
    }
    return rooms[which];
}

struct control read_control(const uint8_t bytes[CONTROL_BYTES], unsigned many)
{
    struct control c = {bytes[0] | 1, bytes[1] | (unsigned)bytes[2] << 8, bytes[3], -1, bytes[4] & 1, bytes[4] >> 1 & 1};
    if (bytes[5] >= 0xE0)
        c.short_room = (bytes[5] - 0xE0) % (int)many;
    return c;
}

static struct lent lend(unsigned which, const struct control *c, size_t length)
{
    struct lent l = {room_of(which), length, c->in_front >> which & 1, c->fill};
    rule(length <= MOST_LENT, "the harness lends too much");
    if (!l.in_front)
        l.at += ROOM - length;
    memset(l.in_front ? l.at : l.at - GUARD, l.fill, length + GUARD);
    return l;
}

struct lent lend_bytes(unsigned which, const struct control *c, const uint8_t *bytes, size_t length)
{
    struct lent l = lend(which, c, length);
    if (length)
        memcpy(l.at, bytes, length);
    return l;
}

struct lent lend_room(unsigned which, const struct control *c, unsigned room, size_t size)
{
    if (c->short_room == (int)room)
        return lend(which, c, c->empty ? 0 : size - 1);
    return lend(which, c, size + (c->past >> room & 1 ? PAST : 0));
}

static int all_are(uint8_t value, const uint8_t *from, size_t n)
{
    return n == 0 || (from[0] == value && memcmp(from, from + 1, n - 1) == 0);
}

static int guarded(const struct lent *l)
{
    return all_are(l->fill, l->in_front ? l->at + l->length : l->at - GUARD, GUARD);
}

void must_be_kept(const struct lent *l, const uint8_t *bytes, const char *words)
{
    rule(guarded(l) && (l->length == 0 || memcmp(l->at, bytes, l->length) == 0), words);
}

int clears(unsigned number)
{
    return (4 <= number && number <= 13) || (18 <= number && number <= 21) || (23 <= number && number <= 25);
}

void must_be_left(const struct lent *l, uint64_t answer, const uint8_t *expected, size_t size, const char *words)
{
    unsigned number = answer & 255;
    rule(guarded(l), words);
    if (number != 0 && !clears(number)) {
        rule(all_are(l->fill, l->at, l->length), words);
        return;
    }
    rule(l->length >= size && all_are(l->fill, l->at + size, l->length - size), words);
    rule(number == 0 ? memcmp(l->at, expected, size) == 0 : all_are(0, l->at, size), words);
}
