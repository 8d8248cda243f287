"""Rules that are wrong in one place, for check_compare.py: each is put in the place of paper.py's own, or of stand_in.py's."""

import re
import sys

import paper

MAIN = sys.modules["__main__"]
READING = paper.Reading


def white(more):
    """White_Space with other characters."""
    paper.WHITE = paper.WHITE + more
    paper.FIELDS_AT_WHITE = re.compile(f"[^{paper.WHITE}]+")


def replaced(place, name, wrong):
    setattr(place, name, wrong(getattr(place, name)))


def refused(number):
    raise paper.Refused(number)


def interned_from_the_right(self, low, high, names):
    numbers = [self.intern(name) for name in reversed(names)]
    self.ranges.append((low, high, numbers[::-1]))


def length_of_31_bits(right):
    return lambda self, name, definition: right(self, name, (*definition[:2], definition[2] % 2**31))


def default_where_nothing_covers(self, code):
    covering = [ids for low, high, ids in self.ranges if low <= code <= high]
    row = list(dict.fromkeys(number for ids in covering for number in ids))
    return row if covering else [number for number, name in enumerate(self.names) if name == "DEFAULT"]


def with_repeats(self, code):
    row = [number for low, high, ids in self.ranges if low <= code <= high for number in ids]
    return row or [number for number, name in enumerate(self.names) if name == "DEFAULT"]


def without_inverted(self):
    ends = [end for low, high, _ in self.ranges if low <= high for end in (low, high + 1)]
    return sorted({0, *ends})


def without_blank(right):
    return lambda lines, line_reader: right([line for line in lines if line.strip(paper.WHITE)], line_reader)


CHAR_DEF = {
    "category lines are split at all White_Space": lambda: setattr(paper, "FIELDS_AT_ASCII", paper.FIELDS_AT_WHITE),
    "category lines are split at VT": lambda: setattr(paper, "FIELDS_AT_ASCII", re.compile("[^\t\v\f\r ]+")),
    "range lines are split at ASCII space only": lambda: setattr(paper, "FIELDS_AT_WHITE", paper.FIELDS_AT_ASCII),
    "U+200B is White_Space": lambda: white("\u200b"),
    "U+001C is White_Space": lambda: white("\x1c"),
    "FFFE is a character": lambda: replaced(paper, "from_ucs2", lambda right: lambda n: n if n == 0xFFFE else right(n)),
    "FEFF is a character": lambda: replaced(paper, "from_ucs2", lambda right: lambda n: n if n == 0xFEFF else right(n)),
    "DFFF stays": lambda: replaced(paper, "from_ucs2", lambda right: lambda n: n if n == 0xDFFF else right(n)),
    "one 0x is taken off": lambda: replaced(paper, "bound", lambda right: lambda text: refused(5) if text.startswith("0x0x") else right(text)),
    "numbers have no sign": lambda: replaced(paper, "unsigned", lambda right: lambda text: None if text[:1] == "+" else right(text)),
    "a length has 31 bits": lambda: replaced(READING, "add_definition", length_of_31_bits),
    "2 is read as 1": lambda: replaced(paper, "unsigned", lambda right: lambda text: 1 if text == "2" else right(text)),
    "names are interned from the right": lambda: setattr(READING, "add_range", interned_from_the_right),
    "lines that are blank aren't counted": lambda: replaced(paper, "read", without_blank),
    "DEFAULT only where no range covers": lambda: setattr(READING, "at", default_where_nothing_covers),
    "rows keep repeats": lambda: setattr(READING, "at", with_repeats),
    "rows are sorted": lambda: replaced(READING, "at", lambda right: lambda self, code: sorted(right(self, code))),
    "an inverted range has no boundaries": lambda: setattr(READING, "boundaries", without_inverted),
    "FFFF has the row of FFFE": lambda: replaced(READING, "at", lambda right: lambda self, code: right(self, code - (code == 0xFFFF))),
    "the BMP's end has no row": lambda: replaced(READING, "boundaries", lambda right: lambda self: [b for b in right(self) if b < 0x10000]),
    "beyond the BMP stands FFFF's row": lambda: replaced(MAIN, "found_at", lambda right: lambda reading, code: right(reading, min(code, 0xFFFF))),
    "DFFF is a scalar value": lambda: replaced(MAIN, "found_at", lambda right: lambda reading, code: right(reading, code - (code == 0xDFFF) * 0x800)),
    "10FFFF is no scalar value": lambda: replaced(MAIN, "found_at", lambda right: lambda reading, code: right(reading, code + (code == 0x10FFFF))),
    "a long row has a flat entry": lambda: replaced(MAIN, "flat_answer", lambda right: lambda b, s, rows: right(b, s, [row[:255] for row in rows])),
    "511 categories": lambda: setattr(paper, "CATEGORIES", 511),
    "511 category lines": lambda: setattr(paper, "CATEGORY_LINES", 511),
    "2,047 ranges": lambda: setattr(paper, "RANGES", 2047),
    "8,191 references": lambda: setattr(paper, "REFERENCES", 8191),
    "16,383 name bytes": lambda: setattr(paper, "NAME_BYTES", 16383),
    "65,535 bytes of text": lambda: setattr(paper, "TEXT_BYTES", 65535),
}


# unk.def.


def lines_as_split(text):
    return [line.removesuffix("\r") for line in text.split("\n")]


def lines_without_any_cr(text):
    *ended, last = text.split("\n")
    return [line.removesuffix("\r") for line in ended] + ([last.removesuffix("\r")] if last else [])


def lines_without_all_crs(text):
    *ended, last = text.split("\n")
    return [line.rstrip("\r") for line in ended] + ([last] if last else [])


def numbers_first(right):
    """24 where a number is there and can't be read, before 23."""
    def entry(line):
        fields = line.split(",")
        readers = (paper.unsigned, paper.unsigned, paper.signed)
        if any(reader(field) is None for reader, field in zip(readers, fields[1:])):
            raise paper.Refused(24)
        return right(line)
    return entry


def cost_in_bounds(right):
    """Cost stops at the ends of 16 bits."""
    return lambda text: None if (value := right(text)) is None else max(-0x8000, min(value, 0x7FFF))


UNK = {
    "a final LF starts a line": lambda: setattr(paper, "unk_lines", lines_as_split),
    "a last CR is dropped": lambda: setattr(paper, "unk_lines", lines_without_any_cr),
    "every CR before LF is dropped": lambda: setattr(paper, "unk_lines", lines_without_all_crs),
    "blank lines are skipped": lambda: replaced(paper, "unk_lines", lambda right: lambda text: [line for line in right(text) if line]),
    "fields are trimmed": lambda: replaced(paper, "unk_entry", lambda right: lambda line: right(",".join(map(str.strip, line.split(","))))),
    "24 before 23": lambda: replaced(paper, "unk_entry", numbers_first),
    "cost stops at 16 bits": lambda: replaced(paper, "signed", cost_in_bounds),
    "cost has no plus": lambda: replaced(paper, "signed", lambda right: lambda text: None if text[:1] == "+" else right(text)),
    "left and right may be -0": lambda: replaced(paper, "unsigned", lambda right: lambda text: 0 if text == "-0" else right(text)),
    "details lose a last empty field": lambda: replaced(paper, "unk_entry", lambda right: lambda line: right(line.removesuffix(","))),
    "an unknown entry has no details": lambda: replaced(MAIN, "word_at", lambda right: lambda *asked: right(*asked)[:-1] + b"\0"),
    "4,095 entries": lambda: setattr(paper, "UNK_ENTRIES", 4095),
    "65,535 bytes of text": lambda: setattr(paper, "TEXT_BYTES", 65535),
}


def apply(rule):
    (CHAR_DEF | UNK)[rule]()
