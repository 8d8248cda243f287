/* Lent slices for the fuzzers. Each has pages of its own between two pages that may not be touched. It lies against one of the two, so that a read or
 * a write past that end is a fault at once; at its other end stand guard bytes, which are looked at after the call. */
#ifndef LENT_H
#define LENT_H

#include <stddef.h>
#include <stdint.h>

enum { SLICES = 14, GUARD = 64, PAST = 16, MOST_LENT = 71000 };

struct lent {
    uint8_t *at;
    size_t length;
    int in_front;  /* against the page in front of it */
    uint8_t fill;  /* what it and its guard bytes were filled with */
};

/* What the first bytes of an input say of the rooms; the others are what is read. */
struct control {
    uint8_t fill;
    unsigned in_front; /* a bit for each slice */
    unsigned past;     /* a bit for each room: 16 bytes are lent behind its size */
    int short_room;    /* the room that is short, or -1 */
    int empty;         /* it is empty, not one byte short */
    int tight;         /* tables that are handed in end where their counts do */
};

enum { CONTROL_BYTES = 6 };

struct control read_control(const uint8_t bytes[CONTROL_BYTES], unsigned rooms);

/* Slice number `which` with these bytes, which must not change. */
struct lent lend_bytes(unsigned which, const struct control *c, const uint8_t *bytes, size_t length);

/* Room for `size` bytes, longer, shorter or empty where `c` says so of room number `room`. */
struct lent lend_room(unsigned which, const struct control *c, unsigned room, size_t size);

/* Aborts with these words unless the rule holds. */
void rule(int holds, const char *words);

/* The bytes of the slice and its guard bytes are as they were. */
void must_be_kept(const struct lent *l, const uint8_t *bytes, const char *words);

/* A reader's room after its answer: the first `size` bytes are those expected where it was accepted, zero where a line or a field was refused, and
 * what they were otherwise; past the size nothing is touched. */
void must_be_left(const struct lent *l, uint64_t answer, const uint8_t *expected, size_t size, const char *words);

/* "4 to 13, 18 to 21 and 23 to 25 leave the output room zero" */
int clears(unsigned number);

#endif
