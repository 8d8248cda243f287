#!/usr/bin/env python3
"""Stands in for our programs before `compare`: document 01's rules by paper.py, in the protocol that README.md states.

  oracle/stand_in.py PROGRAM [RULE]

RULE is one of wrong_rules.py, which is put in the place of paper.py's own."""

import sys

import layout
import paper
from layout import le

NOT_SCALAR, NUMBER_UNKNOWN, FLAT_ROW_LONG = 14, 15, 16
# The number that says: there is no reading to read over.
NO_READING = 254
BMP = 0x10000


def refusal_bytes(answer):
    _, number, place = answer.split(" ")
    return bytes([int(number)]) + le(int(place), 8)


def char_def_answer(text):
    reading = paper.sized_char_def(text)
    if isinstance(reading, str):
        return refusal_bytes(reading)
    return bytes(9) + b"".join(le(count, 2) for count in layout.counts(reading)) + b"".join(layout.tables(reading))


# Rows, the flat table and lookups.


def rows_answer(text, codes):
    reading = paper.sized_char_def(text)
    if isinstance(reading, str):
        return refusal_bytes(reading)
    boundaries, rows = reading.boundaries(), reading.rows()
    starts = [sum(map(len, rows[:at])) for at in range(len(rows))]
    head = le(len(rows), 4) + le(sum(map(len, rows)), 4)
    tables = numbers(boundaries, 4) + numbers(starts, 4) + numbers(map(len, rows), 2) + numbers(sum(rows, []), 2)
    found = b"".join(found_at(reading, code) for code in paper.numbers_of(codes, 4))
    return bytes(10) + head + tables + flat_answer(boundaries, starts, rows) + found


def numbers(some, width):
    return b"".join(le(number, width) for number in some)


def flat_answer(boundaries, starts, rows):
    """The index by its runs: neighbouring rows that are empty have entries of their own, as their offset is the same."""
    if any(len(row) > 255 for row in rows):
        return bytes([FLAT_ROW_LONG]) + bytes(8)
    runs, last = b"", None
    for boundary, start, row in zip(boundaries, starts, rows):
        entry = start * 256 + len(row)
        if entry != last and boundary < BMP:
            runs += le(boundary, 4) + le(entry, 4)
        last = entry
    return b"\0" + le(sum(map(len, rows)), 4) + numbers(sum(rows, []), 2) + runs + le(BMP, 4)


def found_at(reading, code):
    """By the flat table, its packed entry, and by the rows alone."""
    if 0xD800 <= code <= 0xDFFF or code > 0x10FFFF:
        part = bytes([0, NOT_SCALAR])
        return part + bytes(2) + part + part + bytes(2)
    row, entry = reading.at(code), reading.flat_entry(code)
    part = b"\0" + le(len(row), 2) + numbers(row, 2)
    packed = b"\2" if entry is None else b"\1" + le(entry[0], 4) + le(entry[1], 2)
    return (b"\2" if entry is None else b"\1") + part + packed + b"\2" + part


# unk.def.


def unk_answer(char_def, text, asked):
    over = paper.sized_char_def(char_def)
    if isinstance(over, str):
        return bytes([NO_READING]) + bytes(8)
    categories = over.names
    answer = paper.sized_unk(categories, text)
    if answer.startswith("refused "):
        return refusal_bytes(answer)
    used = layout.unk_tables(answer)
    entries, details = layout.unk_counts(used)
    counts = le(entries, 2) + le(len(used[4]) // 2, 2) + le(len(used[3]) // 4, 2) + le(details, 4)
    words = b"".join(word_at(used, len(categories), number) for number in paper.numbers_of(asked, 4))
    return bytes(9) + counts + b"".join(used) + words


def word_at(used, categories, number):
    """A category's entries, an entry, an entry's details."""
    unknown = bytes([NUMBER_UNKNOWN])
    entries, offsets, details, places, references = used
    first, count = (paper.numbers_of(places[4 * number:4 * number + 4], 2) if number < categories else (0, 0))
    ids = b"\0" + le(count, 2) + references[2 * first:2 * (first + count)] if number < categories else unknown
    if 8 * number >= len(entries):
        return ids + unknown + unknown
    offset = paper.numbers_of(offsets[4 * number:4 * number + 4], 4)[0]
    size = int.from_bytes(details[offset:offset + 4], "little")
    return ids + b"\0" + entries[8 * number:8 * number + 6] + b"\0" + details[offset:offset + 4 + size]


# Records.

PROGRAMS = {"batch_char_def": (1, char_def_answer), "batch_rows": (2, rows_answer), "batch_unk": (3, unk_answer)}


def records(data):
    at = 0
    while at < len(data):
        end = at + 4 + int.from_bytes(data[at:at + 4], "little")
        yield data[at + 4:end]
        at = end


def main():
    width, answer = PROGRAMS[sys.argv[1]]
    if len(sys.argv) > 2:
        import wrong_rules
        wrong_rules.apply(sys.argv[2])
    found = list(records(sys.stdin.buffer.read()))
    groups = zip(*(found[at::width] for at in range(width)))
    sys.stdout.buffer.write(b"".join(answer(*group) for group in groups))


if __name__ == "__main__":
    main()
