"""Tables for lists/packs.txt that the pack writer is handed: those of a pack, damaged. README.md has the items.

A change is `d` TABLE AT BYTES, `c` COUNT NUMBER or `s` TABLE SIZE."""

import layout
import packs
from ask import word
from handed import COUNTED_BY, LIMITS, WIDTHS, handed_in
from pack_cases import BESIDE, NO_BOUNDS


# What stands behind a room's size.
GUARD = 16 * b"\xa5"


def words_of(change):
    kind, *words = change
    return " ".join([kind, *[word(one) if isinstance(one, bytes) else str(one) for one in words]])


def changed(one, changes):
    """The tables and counts of a reading, in rooms with a guard behind their full sizes, after the changes."""
    counts = list(layout.counts(one))
    tables = [bytearray(used.ljust(size, b"\0") + GUARD) for used, size in zip(layout.tables(one), layout.ROOMS)]
    for kind, which, at, *come in changes:
        if kind == "d":
            assert at + len(*come) <= len(tables[which])
            tables[which][at:at + len(*come)] = come[0]
        elif kind == "c":
            counts[which] = at
        else:
            del tables[which][at:]
    return [bytes(table) for table in tables], counts


def line(one, changes):
    """The changes, and the pack that the writer makes of the tables or `f` for 26."""
    found = handed_in(*changed(one, changes))
    if found is None:
        return " ".join([*map(words_of, changes), "f"])
    data = packs.packed(packs.fields(found))
    read, _ = packs.judged(data)
    assert layout.tables(read) == layout.tables(found), changes
    return " ".join([*map(words_of, changes), "p", word(data)])


def set_bytes(one):
    """Every used byte of every table."""
    return [[("d", table, at, bytes([value]))] for table, used in enumerate(layout.tables(one)) for at, byte in enumerate(used)
            for value in sorted({0, 0xFF, byte ^ 1, (byte + 1) % 256} - {byte})]


def bounds():
    return [[("d", 3, at, layout.le(bound, 2))] for at in (0, 2, 8) for bound in BESIDE + NO_BOUNDS]


def counts(one):
    """Each count one off, at its limit, over it, and far over it."""
    found = [(which, number) for which, count in enumerate(layout.counts(one))
             for number in sorted({0, count - 1, count, count + 1, LIMITS[which], LIMITS[which] + 1, 2**16, 2**32, 2**47})]
    return [[("c", which, number)] for which, number in found if number >= 0]


def sizes(one):
    """Each table exactly as long as its count asks, and a byte shorter."""
    needs = [width * layout.counts(one)[by] for width, by in zip(WIDTHS, COUNTED_BY)]
    return [[("s", table, size)] for table, need in enumerate(needs) for size in sorted({0, need - 1, need} & set(range(need + 1)))]


def slots(*parts):
    return b"".join(layout.le(number, 2) for number in parts)


def together():
    """Several changes of the tables of A, é, 漢 and three ranges with 1, 3 and 0 references."""
    return [
        # Names: exchanged with their slots, cut elsewhere, with a gap, one over the other, twice, none left.
        [("d", 0, 0, "漢éA".encode()), ("d", 1, 0, slots(0, 3, 3, 2, 5, 1))],
        [("d", 0, 0, b"ABCDEF"), ("d", 1, 0, slots(0, 2, 2, 2, 4, 2))],
        [("d", 0, 0, b"ABCDEF"), ("d", 1, 0, slots(0, 2, 2, 1, 4, 2))],
        [("d", 0, 0, b"ABCDEF"), ("d", 1, 0, slots(0, 2, 1, 2, 4, 2))],
        [("d", 0, 0, b"ABABAB"), ("d", 1, 0, slots(0, 2, 2, 2, 4, 2))],
        [("d", 0, 0, b"ABABCD"), ("d", 1, 0, slots(0, 2, 2, 2, 4, 2))],
        [("d", 0, 0, b"ABCDAB"), ("d", 1, 0, slots(0, 2, 2, 2, 4, 2))],
        [("d", 1, 0, slots(3, 3, 1, 2, 0, 1))],
        [("d", 1, 0, slots(0, 6, 6, 0, 6, 0))],
        [("d", 1, 0, slots(0, 1, 1, 0, 1, 5))],
        [("d", 1, 0, slots(0, 0, 0, 3, 3, 3))],
        [("d", 1, 0, slots(0, 3, 3, 3, 6, 0))],
        [("d", 0, 6, b"D"), ("c", 4, 7), ("d", 1, 8, slots(3, 4))],
        [("d", 0, 6, b"D"), ("c", 4, 7), ("c", 0, 4), ("d", 1, 12, slots(6, 1))],
        [("d", 0, 6, b"D"), ("c", 4, 7), ("c", 0, 4), ("d", 1, 12, slots(6, 1)), ("d", 4, 0, slots(3))],
        [("c", 0, 0), ("c", 4, 0)],
        [("c", 0, 0), ("c", 4, 0), ("c", 2, 0), ("c", 3, 0)],
        [("c", 0, 2), ("c", 4, 3)],
        [("c", 0, 2), ("c", 4, 3), ("d", 4, 2, slots(1))],
        # Ranges: references dealt out anew, with a gap, one over the other, a sum that is short or long, bounds inverted.
        [("d", 3, 4, slots(0, 0)), ("d", 3, 12, slots(0, 0)), ("d", 3, 20, slots(0, 4))],
        [("d", 3, 4, slots(0, 4)), ("d", 3, 12, slots(4, 0)), ("d", 3, 20, slots(4, 0))],
        [("d", 3, 4, slots(0, 4)), ("d", 3, 12, slots(0, 0)), ("d", 3, 20, slots(0, 0))],
        [("d", 3, 4, slots(0, 2)), ("d", 3, 12, slots(1, 2)), ("d", 3, 20, slots(4, 0))],
        [("d", 3, 4, slots(3, 1)), ("d", 3, 12, slots(0, 3)), ("d", 3, 20, slots(4, 0))],
        [("d", 3, 20, slots(4, 1))],
        [("d", 3, 20, slots(4, 1)), ("c", 3, 5)],
        [("d", 3, 20, slots(4, 65535))],
        [("c", 2, 2)],
        [("c", 2, 1), ("c", 3, 1)],
        [("c", 2, 4)],
        [("c", 2, 4), ("d", 3, 24, slots(0, 0, 4, 0))],
        [("c", 2, 0), ("c", 3, 0)],
        # Definitions: fewer, more.
        [("c", 1, 0)],
        [("c", 1, 512)],
        [("c", 1, 3), ("d", 2, 12, b"\1\2\3\4\1\1")],
        [("c", 1, 3), ("d", 2, 12, b"\1\2\3\4\1\2")],
        [("c", 0, 0), ("c", 1, 0), ("c", 2, 0), ("c", 3, 0), ("c", 4, 0)],
    ]


def full(one):
    """Tables that are full: a count more, the last name the first one's, and the last entries damaged."""
    first = one.names[0].encode()
    found = [[("c", which, limit + 1)] for which, limit in enumerate(LIMITS)] + [[("c", which, limit - 1)] for which, limit in enumerate(LIMITS) if which != 1]
    found += [[("d", 0, 16384 - len(first), first)], [("d", 0, 16383, b"\xc3")], [("d", 1, 2046, slots(31))], [("d", 1, 2044, slots(16351))],
              [("d", 2, 3071, b"\2")], [("d", 2, 3070, b"\xff")], [("d", 3, 16382, slots(5))], [("d", 3, 16380, slots(8187))],
              [("d", 3, 16376, slots(0xDFFF))], [("d", 3, 16378, slots(0xFFFE))], [("d", 4, 16382, slots(512))], [("d", 4, 0, slots(0xFFFF))]]
    found += [[("s", table, size - 1)] for table, size in enumerate(layout.ROOMS)]
    # One more behind the sizes, where nothing else is wrong: a category, a name byte, a definition, a range, a reference.
    return found + [[("c", 0, 513), ("d", 1, 2044, slots(16352, 31, 16383, 1))], [("c", 4, 16385), ("d", 0, 16384, b"A"), ("d", 1, 2046, slots(33))],
                    [("c", 1, 513), ("d", 2, 3072, bytes(6))], [("c", 2, 2049), ("d", 3, 16384, slots(0, 0, 8192, 0))],
                    [("c", 3, 8193), ("d", 3, 16382, slots(5)), ("d", 4, 16384, slots(0))]]
