/* One input through a reader of the five tables, beside its second reading: what both harnesses of such readers do. */
#ifndef FIVE_TABLES_H
#define FIVE_TABLES_H

#include "../tests/c/second_reading.h"

typedef uint64_t (*reader)(const uint8_t *, size_t, uint8_t *, size_t, uint8_t *, size_t, uint8_t *, size_t, uint8_t *, size_t, uint8_t *, size_t,
                           uint8_t *, size_t);
typedef uint64_t (*second_reader)(const uint8_t *, size_t, struct tables *);

/* The first bytes of the input are the control's, the others are read. Aborts where a rule is broken. */
void try_reader(reader read, second_reader second, const uint8_t *input, size_t size);

#endif
