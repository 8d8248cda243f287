/* A loader that a firmware engineer can start from: reads a pack into static tables, then perhaps an unk.def over it, and prints counts, names and
 * entries, or what was refused and where.
 *
 *     cc -Iinclude -o loader examples/loader.c ARCHIVES && ./loader FILE.pack [UNK.DEF] */
#include <stdio.h>

#include "twinebeetle.h"

/* "No pack exceeds 40,519 bytes": one byte more is enough to see that a file is longer. */
#define MAX_PACK 40519

static uint8_t pack[MAX_PACK + 1];
static uint8_t names[TWINEBEETLE_NAMES];
static uint8_t categories[TWINEBEETLE_CATEGORIES];
static uint8_t definitions[TWINEBEETLE_DEFINITIONS];
static uint8_t ranges[TWINEBEETLE_RANGES];
static uint8_t references[TWINEBEETLE_REFERENCES];
static uint8_t counts[TWINEBEETLE_COUNTS];

/* A text of 65,536 bytes is read, one of a byte more is refused. */
static uint8_t text[65536 + 1];
static uint8_t entries[TWINEBEETLE_UNK_ENTRIES];
static uint8_t offsets[TWINEBEETLE_UNK_OFFSETS];
static uint8_t details[TWINEBEETLE_UNK_DETAILS];
static uint8_t places[TWINEBEETLE_UNK_PLACES];
static uint8_t unk_references[TWINEBEETLE_UNK_REFERENCES];
static uint8_t unk_counts[TWINEBEETLE_UNK_COUNTS];

static const char *meaning(unsigned number)
{
    switch (number) {
    case 2: return "text over 65,536 bytes";
    case 3: return "text not well-formed UTF-8";
    case 18: return "pack version is not 1";
    case 19: return "pack ends inside a field";
    case 20: return "pack field breaks its rule";
    case 21: return "pad bit set or bytes left over";
    case 23: return "unk line has under four fields";
    case 24: return "unk left, right or cost unreadable";
    case 25: return "unk entry 4,097";
    case 26: return "tables handed in don't hold together";
    default: return "room is below its size";
    }
}

static void show_name(unsigned number)
{
    const uint8_t *slot = categories + 4 * number;
    printf("%.*s", (int)TWINEBEETLE_U16(slot + 2), (const char *)names + TWINEBEETLE_U16(slot));
}

static void show_pack(void)
{
    unsigned many = TWINEBEETLE_U16(counts);
    printf("%u categories, %u definitions, %u ranges, %u references, %u name bytes\n", many, TWINEBEETLE_U16(counts + 2),
           TWINEBEETLE_U16(counts + 4), TWINEBEETLE_U16(counts + 6), TWINEBEETLE_U16(counts + 8));
    for (unsigned i = 0; i < many; i++) {
        printf("%u ", i);
        show_name(i);
        putchar('\n');
    }
}

/* Each entry: its category or -, left, right, cost, and the details with commas for the NULs between them. */
static void show_unk(void)
{
    unsigned many = TWINEBEETLE_U16(unk_counts);
    printf("%u entries, %lu detail bytes\n", many, (unsigned long)TWINEBEETLE_U32(unk_counts + 2));
    for (unsigned i = 0; i < many; i++) {
        const uint8_t *entry = entries + 8 * i, *stored = details + TWINEBEETLE_U32(offsets + 4 * i);
        unsigned category = TWINEBEETLE_U16(entry + 6);
        if (category)
            show_name(category - 1);
        else
            putchar('-');
        printf(" %u %u %d ", TWINEBEETLE_U16(entry), TWINEBEETLE_U16(entry + 2), (int16_t)TWINEBEETLE_U16(entry + 4));
        for (uint32_t k = 0; k < TWINEBEETLE_U32(stored); k++)
            putchar(stored[4 + k] ? stored[4 + k] : ',');
        putchar('\n');
    }
}

/* The file's bytes, as many as there is room for; 0 where it cannot be read. */
static int load(const char *name, uint8_t *into, size_t room, size_t *length)
{
    FILE *file = fopen(name, "rb");
    if (file) {
        *length = fread(into, 1, room, file);
        int failed = ferror(file);
        fclose(file);
        if (!failed)
            return 1;
    }
    fprintf(stderr, "%s cannot be read\n", name);
    return 0;
}

static int refused(const char *name, const char *unit, uint64_t answer)
{
    printf("%s: %s %llu: refused %u: %s\n", name, unit, (unsigned long long)TWINEBEETLE_PLACE(answer), TWINEBEETLE_NUMBER(answer),
           meaning(TWINEBEETLE_NUMBER(answer)));
    return 1;
}

int main(int argc, char **argv)
{
    size_t length;
    if (argc != 2 && argc != 3) {
        fprintf(stderr, "use: %s FILE.pack [UNK.DEF]\n", argv[0]);
        return 2;
    }
    if (!load(argv[1], pack, sizeof pack, &length))
        return 2;
    uint64_t answer = twinebeetle_read_pack(pack, length, names, sizeof names, categories, sizeof categories, definitions, sizeof definitions,
                                            ranges, sizeof ranges, references, sizeof references, counts, sizeof counts);
    if (answer)
        return refused(argv[1], "bit", answer);
    show_pack();
    if (argc == 2)
        return 0;
    if (!load(argv[2], text, sizeof text, &length))
        return 2;
    answer = twinebeetle_read_unk(text, length, names, sizeof names, categories, sizeof categories, definitions, sizeof definitions, ranges,
                                  sizeof ranges, references, sizeof references, counts, sizeof counts, entries, sizeof entries, offsets,
                                  sizeof offsets, details, sizeof details, places, sizeof places, unk_references, sizeof unk_references, unk_counts,
                                  sizeof unk_counts);
    if (answer)
        return refused(argv[2], TWINEBEETLE_NUMBER(answer) == 3 ? "byte" : "line", answer);
    show_unk();
    return 0;
}
