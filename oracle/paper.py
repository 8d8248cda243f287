"""Document 01's rules for char.def and unk.def, written from its words and not from the Rust.

Answers have the form of the oracle's, without messages, so that the two can be held side by side.
`Reading` has no sizes, since the Rust has none; `Sized` has document 01's.
"""

import re
import sys
from itertools import accumulate

# Python refuses decimal numerals of over 4,300 digits; a line of char.def may hold one.
sys.set_int_max_str_digits(0)

# Document 01, "Sizes".
TEXT_BYTES, CATEGORIES, NAME_BYTES, CATEGORY_LINES, RANGES, REFERENCES = 65536, 512, 16384, 512, 2048, 8192
UNK_ENTRIES, DETAIL_BYTES = 4096, 65536

WHITE = "".join(map(chr, [*range(0x09, 0x0E), 0x20, 0x85, 0xA0, 0x1680, *range(0x2000, 0x200B),
                          0x2028, 0x2029, 0x202F, 0x205F, 0x3000]))
FIELDS_AT_WHITE = re.compile(f"[^{WHITE}]+")
FIELDS_AT_ASCII = re.compile("[^\t\f\r ]+")


class Refused(Exception):
    pass


def numeral(text, form, base, least, most):
    """The number that `text` spells, None where it spells none."""
    value = int(text, base) if re.fullmatch(form, text) else None
    return value if value is not None and least <= value <= most else None


def unsigned(text):
    return numeral(text, r"\+?[0-9]+", 10, 0, 2**32 - 1)


def signed(text):
    return numeral(text, r"[+-]?[0-9]+", 10, -(2**31), 2**31 - 1)


def from_ucs2(number):
    if number in (0xFEFF, 0xFFFE):
        raise Refused(6)
    return 0xFFFD if 0xD800 <= number <= 0xDFFF else number


def bound(text):
    while text.startswith("0x"):
        text = text[2:]
    number = numeral(text, r"\+?[0-9a-fA-F]+", 16, 0, 0xFFFF)
    if number is None:
        raise Refused(5)
    return from_ucs2(number)


class Reading:
    def __init__(self):
        self.names, self.definitions, self.ranges = [], [], []

    def intern(self, name):
        if name not in self.names:
            self.add_name(name)
        return self.names.index(name)

    def add_name(self, name):
        self.names.append(name)

    def add_range(self, low, high, names):
        self.ranges.append((low, high, [self.intern(name) for name in names]))

    def add_definition(self, name, definition):
        self.intern(name)
        self.definitions.append(definition)

    def range_line(self, body):
        first, *names = FIELDS_AT_WHITE.findall(body)
        parts = first.split("..")
        if len(parts) > 2:
            raise Refused(4)
        bounds = [bound(part) for part in parts]
        self.add_range(bounds[0], bounds[-1], names)

    def category_line(self, body):
        fields = FIELDS_AT_ASCII.findall(body)
        if len(fields) != 4:
            raise Refused(7)
        numbers = [unsigned(field) for field in fields[1:]]
        if None in numbers:
            raise Refused(8)
        self.add_definition(fields[0], (int(numbers[0] == 1), int(numbers[1] == 1), numbers[2]))

    def line(self, line):
        body = line.split("#")[0].strip(WHITE)
        if body.startswith("0x"):
            self.range_line(body)
        elif body:
            self.category_line(body)

    def references(self):
        return sum(len(ids) for _, _, ids in self.ranges)

    def name_bytes(self):
        return sum(len(name.encode()) for name in self.names)

    def at(self, code):
        """The covering rule."""
        covering = [ids for low, high, ids in self.ranges if low <= code <= high]
        row = list(dict.fromkeys(number for ids in covering for number in ids))
        return row or [number for number, name in enumerate(self.names) if name == "DEFAULT"]

    def boundaries(self):
        ends = [end for low, high, _ in self.ranges for end in (low, high + 1)]
        return sorted({0, *ends})

    def rows(self):
        return [self.at(boundary) for boundary in self.boundaries()]

    def flat_entry(self, code):
        """Offset and length in the flat pool, None where there is no flat entry."""
        rows = self.rows()
        if code > 0xFFFF or any(len(row) > 255 for row in rows):
            return None
        before = rows[:sum(boundary <= code for boundary in self.boundaries())]
        return sum(map(len, before[:-1])), len(before[-1])


class Sized(Reading):
    """Each limit is allowed, one more is refused: 9, 10, then names from the left, 12 before 13; 11, 12, 13."""

    def add_range(self, low, high, names):
        if len(self.ranges) == RANGES:
            raise Refused(9)
        if self.references() + len(names) > REFERENCES:
            raise Refused(10)
        super().add_range(low, high, names)

    def add_definition(self, name, definition):
        if len(self.definitions) == CATEGORY_LINES:
            raise Refused(11)
        super().add_definition(name, definition)

    def add_name(self, name):
        if len(self.names) == CATEGORIES:
            raise Refused(12)
        if self.name_bytes() + len(name.encode()) > NAME_BYTES:
            raise Refused(13)
        super().add_name(name)


def read(lines, line_reader):
    """None, or the refusal at the first bad line."""
    for place, line in enumerate(lines, 1):
        try:
            line_reader(line)
        except Refused as refusal:
            return f"refused {refusal} {place}"
    return None


def listed(items, between=",", none="."):
    return between.join(map(str, items)) or none


def row_word(row):
    return listed(row, ":", "-")


def char_def(text):
    """The reading, or the refusal."""
    reading = Reading()
    return read(text.split("\n"), reading.line) or reading


def sized(data, reader):
    """What a reader answers to any bytes: 2 and 3 come before its lines."""
    if len(data) > TEXT_BYTES:
        return "refused 2 0"
    try:
        text = data.decode("utf-8", "strict")
    except UnicodeDecodeError as bad:
        return f"refused 3 {bad.start}"
    return reader(text)


def sized_char_def(data):
    """The reading of any bytes within the sizes, or the refusal."""
    reading = Sized()
    return sized(data, lambda text: read(text.split("\n"), reading.line)) or reading


def char_answer(reading):
    names = listed(name.encode().hex() for name in reading.names)
    definitions = listed(":".join(map(str, definition)) for definition in reading.definitions)
    ranges = listed(f"{low:x}-{high:x}/{row_word(ids)}" for low, high, ids in reading.ranges)
    return f"ok {names} {definitions} {ranges}"


def rows_answer(reading):
    rows = zip(reading.boundaries(), reading.rows())
    return "ok " + listed(f"{boundary:x}/{row_word(row)}" for boundary, row in rows)


def lookup_answer(reading, codes):
    return "ok " + listed(lookup_word(reading, code) for code in codes)


def lookup_word(reading, code):
    if 0xD800 <= code <= 0xDFFF or code > 0x10FFFF:
        return "x"
    entry = reading.flat_entry(code)
    place = "-" if entry is None else f"{entry[0]}+{entry[1]}"
    return f"{place}/{row_word(reading.at(code))}"


def unk_lines(text):
    *ended, last = text.split("\n")
    return [line.removesuffix("\r") for line in ended] + ([last] if last else [])


def unk_entry(line):
    name, *fields = line.split(",")
    if len(fields) < 3:
        raise Refused(23)
    numbers = [unsigned(fields[0]), unsigned(fields[1]), signed(fields[2])]
    if None in numbers:
        raise Refused(24)
    left, right, cost = numbers
    cost = (cost + 0x8000) % 0x10000 - 0x8000
    return name, f"{left % 0x10000}:{right % 0x10000}:{cost}", "\0".join(fields[3:]).encode()


def unk_answer(categories, text, most=None):
    """The Rust has no limit on entries, document 01 has one."""
    entries = []

    def add(line):
        entry = unk_entry(line)
        if len(entries) == most:
            raise Refused(25)
        entries.append(entry)

    refusal = read(unk_lines(text), add)
    if refusal:
        return refusal
    references = [[at for at, entry in enumerate(entries) if entry[0] == category]
                  for category in categories]
    records = [len(details).to_bytes(4, "little") + details for _, _, details in entries]
    offsets = list(accumulate(map(len, records), initial=0))[:-1]
    numbers = listed(entry[1] for entry in entries)
    details = b"".join(records).hex() or "-"
    return f"ok {numbers} {listed(map(row_word, references))} {listed(offsets)} {details}"


def sized_unk(categories, data):
    """The answer to any bytes within the sizes."""
    return sized(data, lambda text: unk_answer(categories, text, UNK_ENTRIES))


def numbers_of(table, width):
    return [int.from_bytes(table[at:at + width], "little") for at in range(0, len(table), width)]


def well_formed(data):
    try:
        data.decode("utf-8", "strict")
    except UnicodeDecodeError:
        return False
    return True
