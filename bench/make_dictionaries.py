#!/usr/bin/env python3
"""make_dictionaries.py FOLDER: the largest dictionaries that document 01's limits allow, for the benchmark.

    largest.char.def    65,536 bytes, 512 categories and lines, 2,048 ranges in no order, 8,192 references, 4,097 rows; about 14 categories a row
    deepest.char.def    the same, with ranges so wide that a row in the middle has 255 categories, the most that a flat entry can say
    crowded.char.def    as the largest, with names that all have one place among the hints of crate `slot`: the worst case for finding a name
    largest.unk.def     65,536 bytes, 4,096 entries

The same bytes at each run."""

import itertools
import pathlib
import random
import string
import sys

TEXT_BYTES, CATEGORIES, RANGES, ENTRIES = 65536, 512, 2048, 4096
NAMES_A_RANGE = 4
FLAT_ROW = 255

# Names of three letters, so that all 8,192 references fit the text.
NAMES = ["".join(letters) for letters in itertools.islice(itertools.product(string.ascii_uppercase, repeat=3), 0, 7 * CATEGORIES, 7)]

# As crates `mark` and `slot` have them.
MARKS, MARK_FACTOR, HINTS = 2 ** 32, 16777619, 512


def hint_place(name):
    mark = 0
    for byte in name.encode():
        mark = (mark * MARK_FACTOR + byte) % MARKS
    return mark % HINTS


def crowded_names():
    letters = [chr(c) for c in range(0x21, 0x7F) if chr(c) not in "#0"]
    names = map("".join, itertools.product(letters, repeat=3))
    return list(itertools.islice((name for name in names if hint_place(name) == hint_place(NAMES[0])), CATEGORIES))


def code(place):
    """The place-th code point that a bound may have: surrogates are none."""
    return place if place < 0xD800 else place + 0x800


def range_lines(stride, reach, names):
    """Ranges that begin `stride` apart and reach past the beginnings of `reach` others: all 4,096 boundaries differ, and none is 0."""
    numbers = random.Random(2048)
    references = NAMES_A_RANGE * RANGES // len(names) * names
    references += names[:NAMES_A_RANGE * RANGES - len(references)]
    numbers.shuffle(references)
    lines = []
    for i in range(RANGES):
        lower, upper = code(stride * i + 2), code(stride * (i + reach) + stride // 2)
        lines.append(f"0x{lower:04X}..{upper:04X} {' '.join(references[NAMES_A_RANGE * i:NAMES_A_RANGE * (i + 1)])}\n")
    numbers.shuffle(lines)
    return lines


def char_def(stride, reach, names, named):
    """Names as categories; the ranges name the first `named` of them."""
    categories = [f"{name} {i % 2} {i // 2 % 2} {i % 7}\n" for i, name in enumerate(names)]
    text = "".join(categories + range_lines(stride, reach, names[:named]))
    return text + "#" * (TEXT_BYTES - len(text))


def unk_def():
    numbers = random.Random(4096)
    lines = []
    for i in range(ENTRIES):
        line = f"{numbers.choice(NAMES)},{i % 9},{i % 9},{numbers.randrange(-99, 100)},x,"
        lines.append(line.ljust(TEXT_BYTES // ENTRIES - 1, "y") + "\n")
    return "".join(lines)


def main():
    folder = pathlib.Path(sys.argv[1])
    folder.mkdir(parents=True, exist_ok=True)
    for name, text in [("largest.char.def", char_def(30, 3, NAMES, CATEGORIES)), ("deepest.char.def", char_def(15, 2048, NAMES, FLAT_ROW)),
                       ("crowded.char.def", char_def(30, 3, crowded_names(), CATEGORIES)), ("largest.unk.def", unk_def())]:
        assert len(text) == TEXT_BYTES, (name, len(text))
        (folder / name).write_text(text)


main()
