/* A second reading of packs, written from document 01 for the test alone: bit by bit, with no thought for speed, sharing no code with crates/pack.
 * It reads a field wholly before it judges it (19 before 20), names a field by the bit where it starts, takes a name's bytes for one field, and puts a
 * wrong reference total behind the last range, before the padding. */
#ifndef SECOND_READING_H
#define SECOND_READING_H

#include <stddef.h>
#include <stdint.h>

#include "twinebeetle.h"

struct tables {
    uint8_t names[TWINEBEETLE_NAMES];
    uint8_t categories[TWINEBEETLE_CATEGORIES];
    uint8_t definitions[TWINEBEETLE_DEFINITIONS];
    uint8_t ranges[TWINEBEETLE_RANGES];
    uint8_t references[TWINEBEETLE_REFERENCES];
    uint8_t counts[TWINEBEETLE_COUNTS];
};

/* 0 and the tables, or number + 256 * place and tables of zero. */
uint64_t second_reading(const uint8_t *pack, size_t length, struct tables *into);

#endif
