"""The tables of a reading and of an unk.def as bytes, in the layout of DESIGN.md section 6, and their checksum."""

import paper

# The bytes of the tables: names, categories, definitions, ranges, references.
ROOMS = (paper.NAME_BYTES, 4 * paper.CATEGORIES, 6 * paper.CATEGORY_LINES, 8 * paper.RANGES, 2 * paper.REFERENCES)

# Those of unk.def: entries, offsets, details, places, references.
UNK_ROOMS = (8 * paper.UNK_ENTRIES, 4 * paper.UNK_ENTRIES, paper.DETAIL_BYTES, 4 * paper.CATEGORIES, 2 * paper.UNK_ENTRIES)

FNV_BASIS, FNV_PRIME = 2166136261, 16777619


def le(number, width):
    return number.to_bytes(width, "little")


def counts(reading):
    """Categories, definitions, ranges, references, name bytes."""
    return (len(reading.names), len(reading.definitions), len(reading.ranges), reading.references(),
            reading.name_bytes())


def within(reading):
    limits = (paper.CATEGORIES, paper.CATEGORY_LINES, paper.RANGES, paper.REFERENCES, paper.NAME_BYTES)
    return all(count <= limit for count, limit in zip(counts(reading), limits))


def tables(reading):
    """The used parts of the five tables."""
    names = [name.encode() for name in reading.names]
    definitions = [le(length, 4) + bytes([invoke, group]) for invoke, group, length in reading.definitions]
    places = [le(low, 2) + le(high, 2) for low, high, _ in reading.ranges]
    rows = [ids for _, _, ids in reading.ranges]
    ranges = [place + slot for place, slot in zip(places, slots(rows))]
    references = [le(number, 2) for ids in rows for number in ids]
    return tuple(map(b"".join, (names, slots(names), definitions, ranges, references)))


def slots(parts):
    """Start and length of each part, one behind another from 0."""
    at, found = 0, []
    for part in parts:
        found.append(le(at, 2) + le(len(part), 2))
        at += len(part)
    return found


def fnv(value, data):
    """FNV-1a of 32 bits, going on from `value`."""
    for byte in data:
        value = (value ^ byte) * FNV_PRIME % 2**32
    return value


def checksum(used, rooms=ROOMS):
    """FNV-1a over the five tables in full. A zero byte only multiplies."""
    value = FNV_BASIS
    for table, size in zip(used, rooms, strict=True):
        value = fnv(value, table) * pow(FNV_PRIME, size - len(table), 2**32) % 2**32
    return value


def reading_of(answer):
    """The reading that an answer `ok NAMES DEFINITIONS RANGES` of the oracle says."""
    _, names, definitions, ranges = answer.split(" ")
    reading = paper.Reading()
    reading.names = [bytes.fromhex(name.strip("-")).decode() for name in items(names)]
    reading.definitions = [tuple(map(int, definition.split(":"))) for definition in items(definitions)]
    for item in items(ranges):
        bounds, row = item.split("/")
        low, high = (int(bound, 16) for bound in bounds.split("-"))
        reading.ranges.append((low, high, row_of(row)))
    return reading


def unk_tables(answer):
    """The used parts of the five tables that an answer `ok ENTRIES REFERENCES OFFSETS DETAILS` of the oracle says."""
    _, entries, references, offsets, details = answer.split(" ")
    rows = [row_of(row) for row in items(references)]
    category = {number: at + 1 for at, row in enumerate(rows) for number in row}
    words = [[int(number) % 0x10000 for number in entry.split(":")] for entry in items(entries)]
    table = [le(number, 2) for at, numbers in enumerate(words) for number in (*numbers, category.get(at, 0))]
    starts = [le(int(offset), 4) for offset in items(offsets)]
    listed = [le(number, 2) for row in rows for number in row]
    return b"".join(table), b"".join(starts), bytes.fromhex(details.strip("-")), b"".join(slots(rows)), b"".join(listed)


def unk_counts(used):
    """Entries, detail bytes."""
    return len(used[1]) // 4, len(used[2])


def row_of(word):
    return [] if word == "-" else [int(number) for number in word.split(":")]


def items(word):
    return [] if word == "." else word.split(",")
