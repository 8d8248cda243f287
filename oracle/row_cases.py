"""Tables for lists/rows.txt that are damaged one field at a time: those of a reading before rows are built of it, and those that are built.

A change is (`d`, TABLE, AT, VALUE), (`s`, TABLE, LENGTH) or (`k`, COUNT, NUMBER); README.md has the tables' numbers."""

import layout
import lookups
import paper
from ask import word
from handed import COUNTED_BY, LIMITS, WIDTHS, handed_in
from lookups import BMP, Tables

NAMES, CATEGORIES, DEFINITIONS, RANGES, REFERENCES, BOUNDARIES, STARTS, LENGTHS, POOL, INDEX, FLAT = range(11)
OF_READING = 5

# What stands behind a table of a reading, and behind one that is built: as many places, each of these bytes.
BEHIND = 16
FILL = {BOUNDARIES: 0xA5A5A5A5, STARTS: 0xA5A5A5A5, LENGTHS: 0xA5A5, POOL: 0xA5A5, INDEX: 0xA5A5A5A5, FLAT: 0xA5A5}
MOST = {BOUNDARIES: 2**32 - 1, STARTS: 2**32 - 1, LENGTHS: 2**16 - 1, POOL: 2**16 - 1, INDEX: 2**32 - 1, FLAT: 2**16 - 1}

# Names DEFAULT, A, B, é, 漢; rows of 1, 3, 4, 3, 1 and 1 categories.
DAMAGED = "DEFAULT 0 1 0\nA 1 0 2\n0x0..0xFFFF A\n0x41..0x43 B é\n0x42 漢 A"

CODES = (0, 0x40, 0x41, 0x42, 0x43, 0x44, 0xD7FF, 0xFFFF, 0x10000, 0x10FFFF, 0xD800, 0x110000)
WANTED = (b"", b"A", b"B", b"DEFAULT", b"DEFAUL", "é".encode(), "漢".encode(), b"AB", b"C")


def words_of(change):
    return " ".join(map(str, change))


# Tables of a reading.


def given(reading, change):
    """Tables and counts of a reading in zero rooms with places behind them, after a change."""
    tables = [bytearray(used.ljust(size + BEHIND, b"\0")) for used, size in zip(layout.tables(reading), layout.ROOMS)]
    counts = list(layout.counts(reading))
    kind, which, at, *value = change
    if kind == "d":
        tables[which][at] = value[0]
    elif kind == "s":
        del tables[which][at:]
    else:
        counts[which] = at
    return [bytes(table) for table in tables], counts


def reading_changes(reading):
    """Every used byte and the one behind; every count one off, at its limit, over it and far over it; every table as long as its count asks,
    shorter, and gone."""
    used, counts = layout.tables(reading), layout.counts(reading)
    found = [("d", table, at, value) for table, data in enumerate(used) for at in range(len(data) + 1)
             for value in changed_bytes((data + b"\0")[at])]
    found += [("k", which, number) for which, count in enumerate(counts)
              for number in sorted({0, count - 1, count + 1, LIMITS[which], LIMITS[which] + 1, 2**16, 2**32, 2**47})]
    needs = [width * counts[by] for width, by in zip(WIDTHS, COUNTED_BY)]
    return found + [("s", table, size) for table, need in enumerate(needs) for size in sorted({0, need - WIDTHS[table], need - 1, need})]


def changed_bytes(byte):
    return sorted({0, 1, 2, 255, (byte + 1) % 256, (byte - 1) % 256} - {byte})


def numbers_asked(tables, counts):
    """Names, definitions and numbers by name, but for an empty name behind its store: whether that runs past it is nobody's question."""
    names, categories, definitions = tables[:3]
    items = []
    for number in dict.fromkeys([0, 1, 2, 3, 4, 5, 511, 512, counts[0] - 1, counts[0], counts[1]]):
        if number >= 0 and not is_open(names, categories, number):
            found = lookups.name(names, categories, counts[0], number), lookups.definition(definitions, counts[1], number)
            items.append(f"m {number} {' '.join(map(answer_word, found))}")
    if any(is_open(names, categories, number) for number in range(min(counts[0], len(categories) // 4))):
        return items
    return items + [f"i {word(wanted)} {lookups.number_of(names, categories, counts[0], wanted)}" for wanted in WANTED]


def is_open(names, categories, number):
    place = lookups.slot(categories, number)
    return place is not None and place[1] == 0 and place[0] > len(names)


def answer_word(found):
    return found if isinstance(found, str) else word(found)


def reading_lines(reading, row_words):
    """Each change, what both builders say of the tables, and what lookups find in them."""
    lines = []
    for change in reading_changes(reading):
        tables, counts = given(reading, change)
        held = handed_in(tables, counts)
        built = ["z 26", "u 26"] if held is None else [row_words(list(zip(held.boundaries(), held.rows())))]
        asked = numbers_asked(tables, counts) if change[1] < RANGES or change[0] == "k" else []
        lines.append(" ".join([words_of(change), *asked, *built]))
    return lines


# Tables that are built.


def as_built(rows, index):
    """Tables that the rows say, with an index or with an empty one."""
    pool = [number for _, row in rows for number in row]
    starts = [sum(len(row) for _, row in rows[:at]) for at in range(len(rows))]
    return Tables(index, pool if index else [], [boundary for boundary, _ in rows], starts, [len(row) for _, row in rows], pool)


def table_of(lent, table):
    return {BOUNDARIES: lent.boundaries, STARTS: lent.starts, LENGTHS: lent.lengths, POOL: lent.pool, INDEX: lent.index, FLAT: lent.flat}[table]


def changed(lent, change):
    kind, table, at, *value = change
    data = [*table_of(lent, table), *[FILL[table]] * BEHIND]
    if kind == "d":
        data = [*table_of(lent, table)]
        data[at] = value[0]
    else:
        del data[at:]
    field = {BOUNDARIES: "boundaries", STARTS: "starts", LENGTHS: "lengths", POOL: "pool", INDEX: "index", FLAT: "flat"}[table]
    return lent._replace(**{field: data})


def built_changes(lent):
    """Every entry of the row tables one up, one down, none, as large as can be; entries of the index at the code points that are asked; every
    length one off, one, none."""
    tables = [BOUNDARIES, STARTS, LENGTHS, POOL] + ([FLAT] if lent.index else [])
    found = [("d", table, at, value) for table in tables for at, entry in enumerate(table_of(lent, table))
             for value in sorted({0, entry + 1, entry - 1, entry + len(lent.pool), MOST[table]} - {entry, -1})]
    sizes = [(table, len(table_of(lent, table))) for table in tables + ([INDEX] if lent.index else [])]
    found += [("s", table, size) for table, full in sizes for size in sorted({0, 1, full - 1, full + 1} - {full})]
    places = len(lent.pool)
    entries = [0, 1, lent.index[0x41], (places - 1) * 256 + 1, (places - 1) * 256 + 2, places * 256 + 1, places * 256, 255, 2**32 - 1] if lent.index else []
    return found + [("d", INDEX, code, entry) for code in (0, 0x41, 0x42, 0xFFFF) for entry in entries if lent.index]


def built_lines(lent, builders):
    """Each change of tables with the lookups that document 01 fixes; `builders` says that they are built."""
    lines = []
    for change in built_changes(lent):
        damaged = changed(lent, change)
        found = [(code, lookups.located(damaged, code)) for code in CODES]
        items = [look_word(code, one[0], one) for code, one in found if one is not None]
        items += [packed_word(code, lookups.packed(damaged.index, code)) for code in CODES if change[1] == INDEX]
        places = len(damaged.flat)
        items += [f"c {at} {lookups.flat_category(damaged.flat, at)}" for at in dict.fromkeys([0, places - 1, places]) if at >= 0 and change[1] == FLAT]
        if items:
            lines.append(" ".join([words_of(change), builders, *items]))
    return lines


def look_word(code, ways, found):
    _, start, row = found
    return " ".join(map(str, ["l", code, ways, start, len(row), *row]))


def packed_word(code, found):
    return " ".join(map(str, ["p", code, *found]))


def index_of(reading):
    return [offset * 256 + size for offset, size in flat_entries(reading)]


def flat_entries(reading):
    """Offset and length at each BMP code point, by document 01's rule."""
    rows, boundaries = reading.rows(), reading.boundaries()
    ends = [*boundaries[1:], BMP]
    found, offset = [], 0
    for row, first, end in zip(rows, boundaries, ends):
        found += [(offset, len(row))] * (min(end, BMP) - min(first, BMP))
        offset += len(row)
    return found


def damaged_reading():
    return paper.sized_char_def(DAMAGED.encode())
