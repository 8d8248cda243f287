"""A reading's tables as the unk reader is handed them, and what can be wrong with them."""

from typing import NamedTuple

import layout
import paper
from ask import word
from handed import WIDTHS, handed_in

NAMES, CATEGORIES, DEFINITIONS, RANGES, REFERENCES = range(5)
# Counts, in their order.
OF_CATEGORIES, OF_DEFINITIONS, OF_RANGES, OF_REFERENCES, OF_NAME_BYTES = range(5)
# How many bytes stand behind each table's size, so that a count may pass its limit.
SPARE = 16
# What a bound must not be, and what stands beside it.
BOUNDS = (0xD7FF, 0xD800, 0xDBFF, 0xDC00, 0xDFFF, 0xE000, 0xFEFE, 0xFEFF, 0xFF00, 0xFFFD, 0xFFFE, 0xFFFF)


class Handed(NamedTuple):
    """Tables and counts, and the words that make them of those that char.def's reader left."""
    words: str
    tables: tuple
    counts: tuple

    def put(self, table, at, data):
        changed = self.tables[table]
        assert at + len(data) <= len(changed)
        changed = changed[:at] + data + changed[at + len(data):]
        return self.with_table(f"m {table} {at} {word(data)}", table, changed)

    def cut(self, table, length):
        assert length <= len(self.tables[table])
        return self.with_table(f"s {table} {length}", table, self.tables[table][:length])

    def with_table(self, words, table, data):
        tables = self.tables[:table] + (data,) + self.tables[table + 1:]
        return self._replace(words=self.words + words + " ", tables=tables)

    def counted(self, which, count):
        counts = self.counts[:which] + (count,) + self.counts[which + 1:]
        return self._replace(words=f"{self.words}k {which} {count >> 32} {count % 2**32} ", counts=counts)

    def used(self):
        """How many bytes of each table the counts say."""
        categories, definitions, ranges, references, name_bytes = self.counts
        counts = (name_bytes, categories, definitions, ranges, references)
        return [count * width for count, width in zip(counts, WIDTHS)]

    def names(self):
        """The names, None where the tables don't hold together."""
        reading = handed_in(self.tables, self.counts)
        return None if reading is None else reading.names


def handed(reading):
    """The tables as the reader of char.def leaves them in rooms that were zero."""
    tables = (table.ljust(room + SPARE, b"\0") for table, room in zip(layout.tables(reading), layout.ROOMS))
    return Handed("", tuple(tables), layout.counts(reading))


def each_byte(whole):
    """Every byte that is used, and the one behind, one up, one down, and as large as can be."""
    places = [(table, at) for table, used in enumerate(whole.used()) for at in range(used + 1)]
    changed = [(table, at, {whole.tables[table][at] + 1, whole.tables[table][at] - 1, 255}) for table, at in places]
    return [whole.put(table, at, bytes([byte])) for table, at, values in changed for byte in sorted(values) if 0 <= byte < 256]


def each_count(whole):
    """Every count one up, one down, none, at its limit and past it, and so large that its bytes would pass 64 bits."""
    limits = (paper.CATEGORIES, paper.CATEGORY_LINES, paper.RANGES, paper.REFERENCES, paper.NAME_BYTES)
    large = [2**16, 2**16 + 1, 2**32, 2**32 + 1, 2**61, 2**61 + 1, 2**62, 2**63, 2**64 - 1]
    near = [[count - 1, count + 1, 0, limit - 1, limit, limit + 1, *large, *[2**62 + count, 2**61 + count, 2**32 + count]]
            for count, limit in zip(whole.counts, limits)]
    return [whole.counted(which, count) for which, counts in enumerate(near) for count in dict.fromkeys(counts) if count >= 0]


def each_cut(whole):
    """Every table as long as its count says, one byte shorter, one entry shorter, and gone."""
    lengths = [{used, used - 1, used - width, used // 2, 0} for used, width in zip(whole.used(), WIDTHS)]
    cuts = [whole.cut(table, length) for table, some in enumerate(lengths) for length in sorted(some) if length >= 0]
    exact = whole
    for table, used in enumerate(whole.used()):
        exact = exact.cut(table, used)
    return cuts + [exact]


def each_bound(whole, at):
    """The bounds of the range at a number."""
    return [whole.put(RANGES, 8 * at + side, layout.le(bound, 2)) for side in (0, 2) for bound in BOUNDS]


def apart(whole):
    """Name slots and range slots that say otherwise than one behind another from 0. The reading is that of unk_cases.SMALL:
    names A, B, 漢, é; ranges of 2, 0, 1 and 3 references."""
    le = layout.le
    slots = [[(1, 1), (0, 1)], [(0, 2), (2, 1)], [(0, 2), (1, 1)], [(0, 1), (0, 1)], [(0, 1), (2, 1)], [(0, 0), (0, 2)], [(0, 2), (2, 0)],
             [(0, 1), (1, 2)], [(0, 1), (1, 1), (2, 1), (3, 4)], [(0, 1), (1, 1), (2, 2), (4, 3)], [(0, 1), (1, 1), (2, 4), (6, 1)],
             [(0, 1), (1, 4), (5, 1), (6, 1)], [(0, 1), (1, 1), (2, 3), (5, 3)], [(0, 1), (1, 1), (2, 3), (5, 65535)], [(65535, 1)], [(0, 65535)]]
    moved = [whole.put(CATEGORIES, 0, b"".join(le(start, 2) + le(length, 2) for start, length in some)) for some in slots]
    parts = [[(0, 1), (1, 1)], [(0, 3), (3, 0), (3, 0)], [(0, 0), (0, 2)], [(0, 2), (0, 0)], [(0, 2), (1, 0)], [(0, 2), (2, 1), (3, 0)],
             [(0, 2), (2, 4), (6, 0), (6, 0)], [(0, 0), (0, 0), (0, 0), (0, 6)], [(0, 6), (6, 0), (6, 0), (6, 0)], [(0, 7)], [(0, 65535)],
             [(0, 2), (2, 0), (2, 1), (3, 4)], [(0, 2), (2, 0), (2, 1), (3, 2)], [(0, 2), (2, 0), (3, 1), (2, 3)]]
    for some in parts:
        changed = whole
        for at, (first, count) in enumerate(some):
            changed = changed.put(RANGES, 8 * at + 4, le(first, 2) + le(count, 2))
        moved.append(changed)
    return moved


def renamed(whole):
    """Other bytes in the names of `SMALL`: repeated, ill-formed, and such as no char.def says."""
    names = ["AAA漢é".encode(), b"BA", b"BB", b"A\n", b"A\r", b"A,", b"\0\0", b"A\x80", b"\xc3\xa9", b"AB\xed\xa0\x80", b"AB\xf0\x9f\x98\x80\xa9",
             b"AB\xe6\xbc\xff", b"AB\xef\xbb\xbf", b"AB\xe6\xbc\xa2\xc1\xa9", b"AB\xe6\xbc\xa2\xc3A", b"AB\xe6\xbc\xa2BB", b"ABABABA"]
    return [whole.put(NAMES, 0, some) for some in names]


def unknown_numbers(whole):
    """A category number in each reference that isn't known, and the last that is."""
    known, last = whole.counts[OF_CATEGORIES], whole.counts[OF_REFERENCES]
    return [whole.put(REFERENCES, 2 * at, layout.le(number, 2)) for at in {0: 0, last - 1: 0} for number in (known - 1, known, known + 1, 256, 65535)]


def past_limits(whole):
    """One entry more in each table of a full reading, and nothing wrong with it but the limit. The last two names are of 63 bytes and of one."""
    le = layout.le
    assert whole.used() == list(layout.ROOMS)
    more_bytes = whole.put(CATEGORIES, 2046, le(2, 2)).put(NAMES, 16384, b"X").counted(OF_NAME_BYTES, 16385)
    split = b"".join(le(start, 2) + le(length, 2) for start, length in ((16320, 62), (16382, 1), (16383, 1)))
    more_names = whole.put(CATEGORIES, 2040, split).counted(OF_CATEGORIES, 513)
    more_ranges = whole.put(RANGES, 16384, b"".join(le(number, 2) for number in (0x41, 0x43, 8192, 0))).counted(OF_RANGES, 2049)
    more_references = whole.put(RANGES, 16382, le(5, 2)).counted(OF_REFERENCES, 8193)
    return [more_bytes, more_names, whole.counted(OF_DEFINITIONS, 513), more_ranges, more_references]


def random_damage(random, whole):
    """Some bytes changed, a count or a table's length: one to three of them."""
    for _ in range(1 + random.below(3)):
        kind, table = random.below(8), random.below(5)
        used = whole.used()[table]
        if kind == 0:
            whole = whole.counted(table, max(0, whole.counts[table] + random.of([-1, 1, 1, 256, -256])))
        elif kind == 1:
            whole = whole.cut(table, min(len(whole.tables[table]), max(0, used + random.below(9) - 4)))
        elif len(whole.tables[table]):
            at = random.below(min(len(whole.tables[table]), used + 4))
            whole = whole.put(table, at, bytes([random.of([random.below(256), random.below(4), whole.tables[table][at] ^ 1])]))
    return whole
