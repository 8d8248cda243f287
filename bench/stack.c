/* How deep each entry writes below its caller's frame: the stack of a thread is painted, the entry runs, and the paint that is left is counted.
 *
 *     stack FOLDER     the dictionaries of samples/ and of FOLDER (bench/make_dictionaries.py) */
#define _XOPEN_SOURCE 600
#include <pthread.h>
#include <stdio.h>
#include <stdlib.h>
#include <string.h>

#include "twinebeetle.h"

enum { PAINT = 0xA5, STACK = 1 << 20, NEAR = 512, MOST = 65536, ROWS = 4097, PLACES = 2097664, PACK = 40519, UNK = 4096 };

#define IN(type) const type *, size_t
#define OUT(type) type *, size_t
#define READING IN(uint8_t), IN(uint8_t), IN(uint8_t), IN(uint8_t), IN(uint8_t), IN(uint8_t)
uint64_t bench_rows(READING, OUT(uint32_t), OUT(uint32_t), OUT(uint16_t), OUT(uint16_t), OUT(uint64_t));
uint64_t bench_flat(READING, OUT(uint32_t), OUT(uint16_t), OUT(uint64_t));
uint64_t bench_lookups(IN(uint32_t), IN(uint16_t), IN(uint32_t), IN(uint32_t), IN(uint16_t), IN(uint16_t), IN(uint32_t));
uint64_t bench_read_unk(READING, IN(uint8_t), OUT(uint8_t), OUT(uint8_t), OUT(uint8_t), OUT(uint8_t), OUT(uint8_t), OUT(uint64_t));
uint64_t bench_write_pack(READING, OUT(uint8_t), OUT(uint64_t));

static uint8_t text[MOST + 1], unk_text[MOST + 1], pack[PACK];
static uint8_t names[TWINEBEETLE_NAMES], categories[TWINEBEETLE_CATEGORIES], definitions[TWINEBEETLE_DEFINITIONS];
static uint8_t ranges[TWINEBEETLE_RANGES], references[TWINEBEETLE_REFERENCES], counts[TWINEBEETLE_COUNTS];
static uint8_t entries[8 * UNK], offsets[4 * UNK], details[MOST], places[2048], members[2 * UNK];
static uint32_t boundaries[ROWS], starts[ROWS], flat_index[65536];
static uint16_t lengths[ROWS], row_pool[PLACES], flat_pool[PLACES];
static uint64_t said[2];
static size_t text_length, unk_length, pack_length;

#define FIVE names, sizeof names, categories, sizeof categories, definitions, sizeof definitions, ranges, sizeof ranges, references, sizeof references
#define SIX FIVE, counts, sizeof counts

static uint64_t do_valid_prefix(void) { return twinebeetle_valid_prefix(text, text_length) == text_length ? 0 : 3; }
static uint64_t do_read_char_def(void) { return twinebeetle_read_char_def(text, text_length, FIVE, counts, sizeof counts); }
static uint64_t do_read_pack(void) { return twinebeetle_read_pack(pack, pack_length, FIVE, counts, sizeof counts); }
static uint64_t do_rows(void) { return bench_rows(SIX, boundaries, ROWS, starts, ROWS, lengths, ROWS, row_pool, PLACES, said, 2); }
static uint64_t do_flat(void) { return bench_flat(SIX, flat_index, 65536, flat_pool, PLACES, said, 2); }
static uint64_t do_write_pack(void) { return bench_write_pack(SIX, pack, sizeof pack, said, 2); }
static uint64_t do_read_unk(void)
{
    return bench_read_unk(SIX, unk_text, unk_length, entries, sizeof entries, offsets, sizeof offsets, details, sizeof details, places, sizeof places, members,
                          sizeof members, said, 2);
}

struct run {
    uint64_t (*entry)(void);
    uint8_t *stack;
    uint64_t answer;
    size_t depth;
};

static void *painted(void *given)
{
    struct run *run = given;
    uint8_t *here = __builtin_frame_address(0);
    for (volatile uint8_t *at = run->stack; at < here - NEAR; at++)
        *at = PAINT;
    run->answer = run->entry();
    volatile uint8_t *at = run->stack;
    while (*at == PAINT)
        at++;
    run->depth = (size_t)(here - at);
    return NULL;
}

static size_t deepest(uint64_t (*entry)(void), const char *name)
{
    struct run run = {entry, aligned_alloc(4096, STACK), 0, 0};
    pthread_attr_t attributes;
    pthread_t thread;
    pthread_attr_init(&attributes);
    pthread_attr_setstack(&attributes, run.stack, STACK);
    if (pthread_create(&thread, &attributes, painted, &run) != 0 || pthread_join(thread, NULL) != 0)
        exit(2);
    if (run.answer != 0)
        printf("%s: refused %u\n", name, TWINEBEETLE_NUMBER(run.answer));
    free(run.stack);
    return run.depth;
}

static size_t read_file(const char *folder, const char *name, uint8_t *into)
{
    char path[4096];
    snprintf(path, sizeof path, "%s/%s", folder, name);
    FILE *file = fopen(path, "rb");
    if (!file)
        exit(printf("%s cannot be opened\n", path) > 0 ? 2 : 2);
    size_t length = fread(into, 1, MOST + 1, file);
    fclose(file);
    return length;
}

static void dictionary(const char *folder, const char *char_def, const char *unk_def)
{
    static const struct {
        const char *name;
        uint64_t (*entry)(void);
    } works[] = {{"twinebeetle_valid_prefix", do_valid_prefix}, {"twinebeetle_read_char_def", do_read_char_def}, {"rows", do_rows}, {"flat table", do_flat},
                 {"unk.def", do_read_unk}, {"write pack", do_write_pack}, {"twinebeetle_read_pack", do_read_pack}};
    text_length = read_file(folder, char_def, text);
    unk_length = read_file(folder, unk_def, unk_text);
    for (size_t i = 0; i < sizeof works / sizeof *works; i++) {
        printf("%s/%s\t%s\t%zu\n", folder, char_def, works[i].name, deepest(works[i].entry, works[i].name));
        if (works[i].entry == do_write_pack)
            pack_length = said[0];
    }
}

int main(int argc, char **argv)
{
    if (argc != 2)
        return 2;
    dictionary("samples", "char.def", "unk.def");
    dictionary(argv[1], "largest.char.def", "largest.unk.def");
    dictionary(argv[1], "deepest.char.def", "largest.unk.def");
    return 0;
}
