/* A second reading of unk.def over tables that are handed in, written from document 01 for the fuzzer alone, sharing no code with crates/. */
#ifndef SECOND_UNK_H
#define SECOND_UNK_H

#include "twinebeetle.h"

enum { HANDED = 5 };

/* The tables of a reading and their counts, as they are handed in: names, categories, definitions, ranges, references. */
struct handed {
    const uint8_t *tables[HANDED];
    size_t lengths[HANDED];
    const uint8_t *counts;
    size_t counts_length;
};

struct unk_tables {
    uint8_t entries[TWINEBEETLE_UNK_ENTRIES];
    uint8_t offsets[TWINEBEETLE_UNK_OFFSETS];
    uint8_t details[TWINEBEETLE_UNK_DETAILS];
    uint8_t places[TWINEBEETLE_UNK_PLACES];
    uint8_t references[TWINEBEETLE_UNK_REFERENCES];
    uint8_t counts[TWINEBEETLE_UNK_COUNTS];
};

/* The tables hold a reading: what 26 is given for the want of. */
int second_holds(const struct handed *h);

/* 0 and the tables, or number + 256 * place and tables of zero. Room is taken to be enough. */
uint64_t second_unk(const struct handed *h, const uint8_t *text, size_t length, struct unk_tables *into);

#endif
