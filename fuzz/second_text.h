/* UTF-8 read a second time, by RFC 3629, section 3: the bits of a character are put together, and then held to the shortest form and to the scalar
 * values. (tests/c/second_reading.c goes by section 4's rules.) */
#ifndef SECOND_TEXT_H
#define SECOND_TEXT_H

#include <stddef.h>
#include <stdint.h>

/* How many octets the character at the front has, 0 where there is none; its number in *code. */
size_t second_character(const uint8_t *s, size_t n, uint32_t *code);

/* The length of the longest well-formed prefix. */
size_t second_prefix(const uint8_t *s, size_t n);

/* What an optional sign, if there may be one, and digits of this base say, at most `most` (`most` + 1 behind a minus): 1, or 0 where they say nothing.
 * The text is one of characters' numbers. */
int second_numeral(const uint32_t *codes, size_t n, unsigned base, uint64_t most, int may_be_less, int64_t *value);

#endif
