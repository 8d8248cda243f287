#!/usr/bin/env python3
"""Makes lists/rows.txt from the built oracle: rows and flat tables of accepted texts, and lookups in them. README.md has its format."""

import layout
import lookups
import paper
import row_cases
from ask import FOLDER, Random, ask, word
from items import numbered, plain, text, times
from make_char_def import names, range_fields
from texts import char_text, long_text

SEED = 5

SHORT, LONG = 560, 30

OVERLAPS = ["0x0..0xFFFF A\n0x41..0x43 B\n0x42 C A", "0x41..0x45 A\n0x43..0x50 B\n0x45..0x46 C",
            "0x41 A\n0x42 A\n0x43 A", "DEFAULT 0 1 0\n0x41..0x43\n0x42 A", "0x41..0x43\n0x42 A\n0x60 DEFAULT",
            "0x50..0x41 A\n0x43 B", "0xFFFF A\n0x0 B", "0x41 DEFAULT A\n0x41 A DEFAULT", "0x41 A\n0x41 B\n0x41 A C",
            "0xD800..0xE000 A\n0xFFFD B", "DEFAULT 0 1 0\n0x50..0x41 A", "0x0..0xFFFD A", "0x41..0xDFFF A",
            "0xFFFF..0x0 A", "0x0..0x0 A\n0x1..0x1 B\n0xFFFF..0xFFFF C"]

# 2,048 ranges of one code point each, no two of them neighbours: 4,097 rows.
APART = [numbered(1, 999, "0x", "0 A\n"), numbered(1, 999, "0x", "2 B\n"), numbered(1, 49, "0x", "4 C\n")]

# Texts without a range, the sample, and the one whose tables are damaged.
FURTHER = ["", "A 1 0 2", "DEFAULT 0 1 0\nA 1 1 4294967295\nA 0 0 1", (FOLDER.parent / "samples/char.def").read_text(), row_cases.DAMAGED]

# Looked up in every dictionary: the ends of the surrogates and of the BMP, and numbers that are no scalar value.
EDGES = (0xD7FF, 0xD800, 0xDFFF, 0xE000, 0xFFFF, 0x10000, 0x10FFFF, 0x110000, 2**32 - 1)
# Numbers that no small dictionary knows.
UNKNOWN = (511, 512, 65535, 65536, 2**32 - 1)
# Of a large dictionary one boundary in so many is looked up by itself, and so many of its categories; the sum has all.
SPARSE, FEW = 256, 12
LONGEST_NAME = 512
LONGEST_FLAT_ROW = 255


def large():
    """Rows at document 01's limits, and of 255 and 256 categories."""
    rows = [text("0x41", numbered(1, count, " N", "")) for count in (255, 256, 512)]
    rows += [text(*APART, last) for last in ("0x9994", "0x9994 DEFAULT", "0x9994..0xFFFF A B C", "0x0..0xFFFF C D")]
    rows += [text(*APART, "0x0..0xFFFF", numbered(1, 509, " N", ""))]
    return rows + [text(numbered(1, 500, "0x", "..0xFFFF A\n")), text(numbered(1, 500, "0x41..0x", " B\n")),
                   text(times(2048, "0x41..0x43 A B\n"))]


def larger():
    """A flat pool whose offsets pass 16 bits, and as large a row pool with rows of 511 and 512."""
    sizes = ((900, 250), (499, 511))
    return [text(numbered(1, ranges, "0x", "0 A\n"), "0x0..0xFFFF", numbered(1, count, " N", "")) for ranges, count in sizes]


def small():
    random = Random(SEED)
    texts = OVERLAPS + names() + range_fields()[::3]
    texts += [char_text(random) for _ in range(SHORT)] + [long_text(random) for _ in range(LONG)]
    return [text(case) for case in dict.fromkeys(texts) if has_rows(case.encode())]


def has_rows(data):
    reading = paper.sized_char_def(data)
    return not isinstance(reading, str) and len(reading.ranges) > 0


# Rows and flat tables.


def rows_of(answer):
    """Pairs of a boundary and its row."""
    pairs = [item.split("/") for item in layout.items(answer.removeprefix("ok "))]
    return [(int(boundary, 16), layout.row_of(row)) for boundary, row in pairs]


def row_words(rows, written=True):
    places = sum(len(row) for _, row in rows)
    if written:
        words = [word for boundary, row in rows for word in (boundary, len(row), *row)]
        return " ".join(map(str, ["q", len(rows), places, *words]))
    pieces = [layout.le(boundary, 4) + layout.le(len(row), 2) + b"".join(layout.le(n, 2) for n in row) for boundary, row in rows]
    return f"y {len(rows)} {places} {layout.fnv(layout.FNV_BASIS, b''.join(pieces)):08x}"


def flat_words(rows, said):
    """The Rust builds none where a row is over 255, document 01 refuses it by 16."""
    longest = max(len(row) for _, row in rows)
    assert (said == "-") == (longest > LONGEST_FLAT_ROW)
    return "u 16" if said == "-" else f"f {sum(len(row) for _, row in rows)} {said}"


# Numbers and names.


def numbers_and_names(reading, data, dense):
    """Names, definitions and numbers by name, as the Rust says; 15 where it panics."""
    count, definitions = len(reading.names), len(reading.definitions)
    known = range(count) if dense else [*range(min(count, FEW)), *range(max(0, count - 2), count)]
    numbers = list(dict.fromkeys([*known, count, count + 1, max(0, definitions - 1), definitions, *UNKNOWN]))
    wanted = list(dict.fromkeys([*[reading.names[number] for number in known], *absent(reading.names)]))
    assert max(map(len, wanted)) <= LONGEST_NAME
    _, named, found = ask([f"names {word(data)} {paper.listed(numbers)} {paper.listed(map(word, wanted))}"])[0].split(" ")
    items = [f"m {number} {' '.join(map(number_word, one.split('/')))}" for number, one in zip(numbers, named.split(","), strict=True)]
    return items + [f"i {word(name)} {one}" for name, one in zip(wanted, found.split(","), strict=True)]


def number_word(said):
    """A name as it is said; a definition as its bytes: length in four, invoke, group."""
    if said == "x":
        return f"x{lookups.UNKNOWN}"
    if ":" not in said:
        return said
    invoke, group, length = map(int, said.split(":"))
    return word(layout.le(length, 4) + bytes([invoke, group]))


def absent(known):
    """Names that are nearly there: cut, longer, two at once, in other letters."""
    first, last = (known[0], known[-1]) if known else ("A", "B")
    return ["", "DEFAULT", "default", first[:-1], first + "x", " " + first, first.swapcase(), last + first, "".join(known[:2]), "".join(known)[:99]]


# Lookups.


def codes_of(rows, dense):
    """Every boundary and the points beside it, and the edges."""
    boundaries = [boundary for boundary, _ in (rows if dense else [*rows[:2], *rows[::SPARSE], rows[-1]])]
    return list(dict.fromkeys([*[code for boundary in boundaries for code in (boundary - 1, boundary, boundary + 1) if code >= 0], *EDGES]))


def looked_up(rows, data, dense, flat):
    """The Rust's lookups by the flat table and by rows, 14 where the Rust has no char; the rows it finds at any number; and places of the pool."""
    codes = codes_of(rows, dense)
    listed = paper.listed(f"{code:x}" for code in codes)
    said, found = [answer.removeprefix("ok ").split(",") for answer in ask([f"lookup {word(data)} {listed}", f"eval {word(data)} {listed}"])]
    starts = row_cases.as_built(rows, []).starts
    items = [look_words(code, one, rows, starts) for code, one in zip(codes, said, strict=True)]
    items += [packed_words(code, one) for code, one in zip(codes, said, strict=True) if code in EDGES]
    for code, row in zip(codes, found, strict=True):
        number = lookups.row_number([boundary for boundary, _ in rows], code)
        assert layout.row_of(row) == rows[number][1], (data, code)
        if not lookups.is_scalar(code) or not dense:
            items.append(f"v {code} {number}")
    return items + (pool_words(rows) if flat else [])


def look_words(code, said, rows, starts):
    """Two ways: with the index, and with none."""
    if said == "x":
        return row_cases.look_word(code, "XX", ("X", lookups.NOT_SCALAR, []))
    place, row = said.split("/")
    row, number = layout.row_of(row), lookups.row_number([boundary for boundary, _ in rows], code)
    assert place in ("-", f"{starts[number]}+{len(row)}") and row == rows[number][1]
    return row_cases.look_word(code, "RR" if place == "-" else "FR", ("", starts[number], row))


def packed_words(code, said):
    """With the index, where the Rust has one."""
    place, _, _ = said.partition("/")
    if place == "x":
        return row_cases.packed_word(code, ("X", lookups.NOT_SCALAR, 0))
    return row_cases.packed_word(code, ("N", 0, 0) if place == "-" else ("A", *place.split("+")))


def pool_words(rows):
    pool = [number for _, row in rows for number in row]
    places = [at for at in dict.fromkeys([0, len(pool) // 2, len(pool) - 1, len(pool), len(pool) + 1, 2**32]) if at >= 0]
    return [f"c {at} {lookups.flat_category(pool, at)}" for at in places]


# The list.


def text_line(case, rows, sums, dense):
    """All that is asked of one text."""
    reading = paper.sized_char_def(case.data)
    _, looked, flat = sums.split(" ")
    items = [*numbers_and_names(reading, case.data, dense), row_words(rows, dense), flat_words(rows, flat), f"a {looked}"]
    return " ".join([case.words, *items, *looked_up(rows, case.data, dense, flat != "-")])


def damaged_lines():
    """Tables of one text, damaged. The text is the base, so that each line is short."""
    reading = row_cases.damaged_reading()
    rows = list(zip(reading.boundaries(), reading.rows()))
    data = row_cases.DAMAGED.encode()
    said = ask([f"rows {word(data)}", f"sums {word(data)}"])
    assert rows_of(said[0]) == rows
    flat = flat_words(rows, said[1].split(" ")[2])
    lines = row_cases.reading_lines(reading, row_words)
    lines += row_cases.built_lines(row_cases.as_built(rows, []), row_words(rows))
    lines += row_cases.built_lines(row_cases.as_built(rows, row_cases.index_of(reading)), f"{row_words(rows)} {flat}")
    return [plain(data).words + " b"] + ["e 0 0 - " + line for line in lines]


def make():
    written, summed = small(), large()
    cases = written + summed + [text(case) for case in FURTHER] + larger()
    dense = [case in written or case.data.decode() in FURTHER for case in cases]
    said = ask(f"rows {word(case.data)}" for case in cases)
    by_rule = [paper.rows_answer(paper.sized_char_def(case.data)) for case in written]
    assert said[:len(written)] == by_rule, "document 01's covering rule"
    answers = list(map(rows_of, said))
    sums = ask(f"sums {word(case.data)}" for case in cases)
    lines = [text_line(*line) for line in zip(cases, answers, sums, dense)] + damaged_lines()
    (FOLDER / "lists/rows.txt").write_text("".join(line + "\n" for line in lines))
    print(f"rows.txt: {len(lines)} lines, {sum(map(len, lines))} bytes, at most {max(map(len, answers))} rows")


if __name__ == "__main__":
    make()
