/* Twinebeetle for C: readers of char.def, of packs, of unk.def and of UTF-8, proved in Rattle (crates/terminal and crates/terminal_unk).
 *
 * A slice is a pointer and a length in bytes; an empty one may have any pointer that is not null. Lent slices must not overlap, and each must be as
 * long as its length says: this is all that is asked, and nothing here can check it. Any bytes and any lengths get an answer.
 *
 * A reader answers 0, or a refusal's number plus 256 times its place (docs/FORMAT.md lists the numbers; a pack's place is a bit offset, a text's
 * a line from 1, or the length of the longest well-formed prefix for number 3). A refusal by 1, 2, 3 or 26 leaves lent memory as it was; any other
 * leaves it zero up to the sizes below. On acceptance unused places up to the sizes are zero. What lies past the sizes is never touched. */
#ifndef TWINEBEETLE_H
#define TWINEBEETLE_H

#include <stddef.h>
#include <stdint.h>

/* What a reader asks for, in bytes. */
#define TWINEBEETLE_NAMES 16384       /* the bytes of all names, one behind another */
#define TWINEBEETLE_CATEGORIES 2048   /* 512 x start u16, length u16 of the name */
#define TWINEBEETLE_DEFINITIONS 3072  /* 512 x length u32, invoke u8, group u8 */
#define TWINEBEETLE_RANGES 16384      /* 2,048 x lower u16, upper u16, first reference u16, count u16 */
#define TWINEBEETLE_REFERENCES 16384  /* 8,192 x category number u16 */
#define TWINEBEETLE_COUNTS 10         /* categories, definitions, ranges, references, name bytes: u16 each */

/* What the reader of unk.def asks for besides, in bytes. */
#define TWINEBEETLE_UNK_ENTRIES 32768    /* 4,096 x left u16, right u16, cost i16, the category's number and 1 or 0 u16 */
#define TWINEBEETLE_UNK_OFFSETS 16384    /* 4,096 x where the entry's details begin u32 */
#define TWINEBEETLE_UNK_DETAILS 65536    /* for each entry the length u32 of its details, and they, joined by NUL */
#define TWINEBEETLE_UNK_PLACES 2048      /* 512 x the category's first entry among the references u16, how many u16 */
#define TWINEBEETLE_UNK_REFERENCES 8192  /* 4,096 x entry number u16, by category */
#define TWINEBEETLE_UNK_COUNTS 6         /* entries u16, detail bytes u32 */

/* Numbers in tables have the least byte first. */
#define TWINEBEETLE_U16(bytes) ((uint16_t)((bytes)[0] | (bytes)[1] << 8))
#define TWINEBEETLE_U32(bytes) (TWINEBEETLE_U16(bytes) | (uint32_t)TWINEBEETLE_U16((bytes) + 2) << 16)

/* An answer's parts. */
#define TWINEBEETLE_NUMBER(answer) ((unsigned)((answer) & 255))
#define TWINEBEETLE_PLACE(answer) ((uint64_t)((answer) >> 8))

/* The length of the longest well-formed prefix of a text. */
uint64_t twinebeetle_valid_prefix(const uint8_t *text, size_t text_length);

uint64_t twinebeetle_read_char_def(const uint8_t *text, size_t text_length,
                                   uint8_t *names, size_t names_length,
                                   uint8_t *categories, size_t categories_length,
                                   uint8_t *definitions, size_t definitions_length,
                                   uint8_t *ranges, size_t ranges_length,
                                   uint8_t *references, size_t references_length,
                                   uint8_t *counts, size_t counts_length);

uint64_t twinebeetle_read_pack(const uint8_t *pack, size_t pack_length,
                               uint8_t *names, size_t names_length,
                               uint8_t *categories, size_t categories_length,
                               uint8_t *definitions, size_t definitions_length,
                               uint8_t *ranges, size_t ranges_length,
                               uint8_t *references, size_t references_length,
                               uint8_t *counts, size_t counts_length);

/* unk.def over a reading: names to counts are handed in, as one of the two readers above has left them, and are not written. Where they are no reading's,
 * or the counts have fewer than ten bytes, the answer is 26. */
uint64_t twinebeetle_read_unk(const uint8_t *text, size_t text_length,
                              const uint8_t *names, size_t names_length,
                              const uint8_t *categories, size_t categories_length,
                              const uint8_t *definitions, size_t definitions_length,
                              const uint8_t *ranges, size_t ranges_length,
                              const uint8_t *references, size_t references_length,
                              const uint8_t *counts, size_t counts_length,
                              uint8_t *entries, size_t entries_length,
                              uint8_t *offsets, size_t offsets_length,
                              uint8_t *details, size_t details_length,
                              uint8_t *places, size_t places_length,
                              uint8_t *unk_references, size_t unk_references_length,
                              uint8_t *unk_counts, size_t unk_counts_length);

#endif
