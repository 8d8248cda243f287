"""Document 01's pack, "The pack" and "Refusals by number": a writer and a reader, written from its words. README.md says how they read them.

The writer goes from a reading to fields and from fields to bytes; a pack with a broken field is written by the same means, so that its
place is known. The reader goes over bits and knows nothing of the writer: the two check each other."""

from typing import NamedTuple

import paper

VERSION = 1
MOST_BYTES = 40_519
MARKS = (0xFEFF, 0xFFFE)


class Field(NamedTuple):
    kind: str
    width: int
    value: int

    def bits(self):
        return f"{self.value:0{self.width}b}" if self.width else ""


# The writer.


def head(categories, lines, ranges, references, version=VERSION):
    return [Field("version", 8, version), Field("categories", 10, categories), Field("lines", 10, lines),
            Field("ranges", 12, ranges), Field("references", 14, references)]


def name_fields(name):
    return [Field("size", 15, len(name)), Field("name", 8 * len(name), int.from_bytes(name, "big"))]


def definition_fields(invoke, group, length):
    return [Field("invoke", 1, invoke), Field("group", 1, group), Field("length", 32, length)]


def range_fields(lower, upper, numbers):
    return [Field("lower", 16, lower), Field("upper", 16, upper), Field("count", 14, len(numbers)),
            *[Field("number", 9, number) for number in numbers]]


def fields(reading):
    """A reading's fields, in their order; a name may be bytes that no text has."""
    names = [name.encode() if isinstance(name, str) else name for name in reading.names]
    parts = [head(len(names), len(reading.definitions), len(reading.ranges), reading.references())]
    parts += map(name_fields, names)
    parts += [definition_fields(*definition) for definition in reading.definitions]
    parts += [range_fields(*one) for one in reading.ranges]
    return [field for part in parts for field in part]


def packed(fields):
    """Most significant bit first; zero bits fill the last byte."""
    bits = "".join(field.bits() for field in fields)
    size = (len(bits) + 7) // 8
    return int("0" + bits.ljust(8 * size, "0"), 2).to_bytes(size, "big")


def starts(fields):
    """Where each field starts, and behind them where the padding does."""
    found = [0]
    for field in fields:
        found.append(found[-1] + field.width)
    return found


# The reader.


class Cursor:
    def __init__(self, data):
        self.kind = None
        self.bits = f"{int.from_bytes(data, 'big'):0{8 * len(data)}b}" if data else ""
        self.at = 0

    def refuse(self, number, place):
        raise paper.Refused(number, place)

    def field(self, kind, width):
        """Where the field starts, and its bits: 19 where the pack ends inside it."""
        self.kind = kind
        start, self.at = self.at, self.at + width
        if self.at > len(self.bits):
            self.refuse(19, start)
        return start, self.bits[start:self.at]

    def number(self, kind, width, keeps, broken=20):
        """A field's number, which must keep its rule."""
        start, bits = self.field(kind, width)
        value = int(bits, 2)
        if not keeps(value):
            self.refuse(broken, start)
        return value

    def name(self, size, known):
        """A name's bytes are one field."""
        start, bits = self.field("name", 8 * size)
        try:
            name = int(bits, 2).to_bytes(size, "big").decode("utf-8", "strict")
        except UnicodeDecodeError:
            self.refuse(20, start)
        if name in known:
            self.refuse(20, start)
        return name

    def end(self):
        """The padding with all after it is one field: less than a byte, all zero."""
        self.kind, rest = "padding", self.bits[self.at:]
        if len(rest) >= 8 or "1" in rest:
            self.refuse(21, self.at)


def is_bound(number):
    return not 0xD800 <= number <= 0xDFFF and number not in MARKS


def at_most(limit):
    return lambda number: number <= limit


def read_head(cursor):
    """Categories, category lines, ranges, references."""
    cursor.number("version", 8, lambda version: version == VERSION, broken=18)
    counts = [("categories", 10, paper.CATEGORIES), ("lines", 10, paper.CATEGORY_LINES), ("ranges", 12, paper.RANGES),
              ("references", 14, paper.REFERENCES)]
    return [cursor.number(kind, width, at_most(limit)) for kind, width, limit in counts]


def read_names(cursor, count):
    # A dict keeps the order, and finds a name among 512 at once.
    names, total = {}, 0
    for _ in range(count):
        size = cursor.number("size", 15, lambda size: size >= 1 and total + size <= paper.NAME_BYTES)
        total += size
        names[cursor.name(size, names)] = size
    return list(names)


def read_definition(cursor):
    return tuple(cursor.number(kind, width, lambda _: True) for kind, width in (("invoke", 1), ("group", 1), ("length", 32)))


def read_ranges(cursor, count, references, categories):
    ranges, total = [], 0
    for _ in range(count):
        lower, upper = (cursor.number(kind, 16, is_bound) for kind in ("lower", "upper"))
        size = cursor.number("count", 14, lambda size: total + size <= references)
        total += size
        ranges.append((lower, upper, [cursor.number("number", 9, lambda number: number < categories) for _ in range(size)]))
    if total != references:
        cursor.kind = "total"
        cursor.refuse(20, cursor.at)
    return ranges


def read_all(cursor):
    categories, lines, ranges, references = read_head(cursor)
    reading = paper.Reading()
    reading.names = read_names(cursor, categories)
    reading.definitions = [read_definition(cursor) for _ in range(lines)]
    reading.ranges = read_ranges(cursor, ranges, references, categories)
    cursor.end()
    return reading


def read(data):
    """The reading that a pack holds, or `refused NUMBER PLACE`."""
    try:
        return read_all(Cursor(data))
    except paper.Refused as refusal:
        return "refused {} {}".format(*refusal.args)


# What must hold between the two, and of the reader alone, whatever the bytes are.


def judged(data):
    """The answer, borne out: what is accepted is what the writer makes of it; a refusal follows from the bits up to its field's end.
    With it the kind of the last field that was read."""
    cursor = Cursor(data)
    try:
        reading = read_all(cursor)
    except paper.Refused as refusal:
        answer = "refused {} {}".format(*refusal.args)
        assert nothing_before(data, *refusal.args) and nothing_behind(data, answer, cursor.at), (answer, data.hex())
        return answer, cursor.kind
    assert packed(fields(reading)) == data and len(data) <= MOST_BYTES, data.hex()
    return reading, cursor.kind


def nothing_before(data, number, place):
    """Cut at or before the place, the pack is refused for its end alone; cut there it can be whole, or lack references."""
    for size in {place // 8, max(place // 8 - 1, 0)}:
        answer = read(data[:size])
        if 8 * size == place and number == 21:
            kept = not isinstance(answer, str)
        elif 8 * size == place:
            kept = answer in (f"refused 19 {place}", f"refused 20 {place}")
        else:
            kept = str(answer).startswith("refused 19 ") and int(answer.split(" ")[2]) <= 8 * size
        if not kept:
            return False
    return True


def nothing_behind(data, answer, end):
    """18 and 20 stay whatever stands behind the broken field. A pack that ends inside a field goes wrong there or later."""
    number, place = map(int, answer.split(" ")[1:])
    if number in (18, 20):
        upto = data[:(end + 7) // 8]
        return read(upto) == answer and read(upto + 8 * b"\xff") == answer
    longer = read(data + 8 * b"\0") if number == 19 else answer
    return not isinstance(longer, str) or int(longer.split(" ")[2]) >= place
