/* A second reading of char.def, written from document 01 for the fuzzer alone: over decoded characters, field by field, sharing no code with crates/. */
#ifndef SECOND_CHAR_DEF_H
#define SECOND_CHAR_DEF_H

#include "../tests/c/second_reading.h"

/* 0 and the tables, or number + 256 * place and tables of zero. Room is taken to be enough. */
uint64_t second_char_def(const uint8_t *text, size_t length, struct tables *into);

#endif
