"""char.def texts for `compare`, and what the answers of our programs must be: the reading, and rows, flat table and lookups."""

import re

import paper
from ask import ask, word
from compared import HEAD, Case, Differs, Wanted, damaged, looked_record, record, refusal
from limits import limits
from make_rows import large
from texts import bases, char_text, edit, long_text, raw, real_files, real_text, spliced

# Rows of docs/DIFFERENCES.md.
SIZES, ILL_FORMED, LINE = "sizes", "bytes that are not UTF-8", "the number of the bad line"
LONG_ROW, NOT_SCALAR, LENT = "a row with over 255 categories", "a number that is no scalar value", "a lent room that is too small"
LISTED = (SIZES, ILL_FORMED, LINE, LONG_ROW, NOT_SCALAR, LENT)
PROGRAMS = ("batch_char_def", "batch_rows")

BASES = 60
FLAT_ROW = 255
# The places that batch_rows lends for each pool, and its answers where they are too few: no row, so no lookup has a boundary to begin with.
ROOM = 131_072
FLAT_ROW_LONG, NO_ROOM, NO_ROWS, NO_FLAT = 16, 17, bytes(8), bytes(8)
UNFOUND, UNSCALAR = bytes([0, 26, 0, 0, 2, 0, 26, 0, 0]), bytes([0, 14, 0, 0, 0, 14, 0, 14, 0, 0])
# What can be over the sizes: 513 names, of at least a byte and a space each.
SHORTEST_FULL = 2 * (paper.CATEGORIES + 1)
MOST = (paper.CATEGORIES, paper.CATEGORY_LINES, paper.RANGES, paper.REFERENCES, paper.NAME_BYTES)

BOUND = re.compile(rb"0x([0-9A-Fa-f]{1,4})")
ODD_CODES = [0, 0x41, 0x7F, 0xD7FF, 0xD800, 0xDBFF, 0xDC00, 0xDFFF, 0xE000, 0xFEFF, 0xFFFD, 0xFFFE, 0xFFFF, 0x10000, 0x10FFFF,
             0x110000, 0x7FFFFFFF, 0xFFFFFFFF]
RAW_BYTES = b"0x0x0x0x1144AAFFfe..+-##  \t\n\n\n\r\v\f\0g9D8B,"


def cases(random, count):
    at_limits, accepted, real = [case.data for case in limits() + large()], bases(random, BASES), real_files("char.def")
    makers = {"grammar": lambda: grammar_text(random, accepted, at_limits),
              "mutated": lambda: damaged(random, real_text(random, real), edit, spliced), "raw": lambda: raw(random, RAW_BYTES)}
    for _ in range(count):
        sort = ("grammar", "grammar", "grammar", "mutated", "mutated", "raw")[random.below(6)]
        data = makers[sort]()
        yield Case(sort, data, codes(random, data))


def limit_cases(random):
    return (Case("grammar", case.data, codes(random, case.data)) for case in limits())


def grammar_text(random, accepted, at_limits):
    kind = random.below(2000)
    if kind < 3:
        return damaged(random, random.of(at_limits), edit, spliced)
    if kind < 1750:
        return char_text(random).encode()
    if kind < 1850:
        return damaged(random, random.of(accepted), edit, spliced)
    return long_text(random).encode()


def codes(random, data):
    """Code points at and beside the text's bounds, any of the BMP, one beyond it, and one that is odd."""
    found = BOUND.findall(data) or [b"41"]
    near = [max(0, int(random.of(found), 16) + random.below(3) - 1) for _ in range(2)]
    return (*near, random.below(0x10000), 0x10000 + random.below(0x100000), random.of(ODD_CODES))


def records(name, case):
    return record(case.data) + (looked_record(case) if name == "batch_rows" else b"")


# What the Rust and the list of differences leave.


def wanted(batch):
    rust = ask(f"laid {word(case.data)} {paper.listed(map('{:x}'.format, case.looked))}" for case in batch)
    before = kept_before(batch, rust)
    return [allowed(case, answer, before.get(at, True)) for at, (case, answer) in enumerate(zip(batch, rust))]


def kept_before(batch, rust):
    """For a long text that the Rust refuses: do the lines before keep the limits?"""
    places = {at: int(answer.split(" ")[2]) for at, answer in enumerate(rust)
              if answer.startswith("refused ") and len(batch[at].data) >= SHORTEST_FULL}
    answers = ask(f"counts {word(lines_before(batch[at].data, place))}" for at, place in places.items())
    return {at: within(answer.split(" ")[1]) for at, answer in zip(places, answers)}


def lines_before(text, place):
    return b"".join(line + b"\n" for line in text.split(b"\n")[:place - 1])


def within(counts):
    return all(int(count) <= most for count, most in zip(counts.split(":"), MOST, strict=True))


def allowed(case, rust, kept):
    kind, *words = rust.split(" ")
    if len(case.data) > paper.TEXT_BYTES:
        return refused(2, 0, SIZES)
    if kind == "text":
        return refused(3, int(words[0]), ILL_FORMED)
    if kind == "ok" and within(words[0]):
        return accepted(case, *words[1:])
    if kind == "refused" and kept:
        return refused(int(words[0]), int(words[1]), LINE)
    if kind == "panic":
        raise Differs(f"the Rust panics over {case.data.hex()}")
    return refused(*first_full(case.data), SIZES)


def refused(number, place, row):
    return Wanted(number, (refusal(number, place),) * 2, (row,))


def accepted(case, longest, places, reading, rows):
    listed = [LONG_ROW] * (int(longest) > FLAT_ROW) + [NOT_SCALAR] * any(map(is_odd, case.looked)) + [LENT] * (int(places) > ROOM)
    rows = bytes.fromhex(rows) if int(places) <= ROOM else unfit(case, int(longest))
    return Wanted(0, (bytes(HEAD) + bytes.fromhex(reading), bytes(HEAD) + rows), tuple(listed))


def is_odd(code):
    return 0xD800 <= code < 0xE000 or code > 0x10FFFF


def unfit(case, longest):
    """16 before 17."""
    flat = FLAT_ROW_LONG if longest > FLAT_ROW else NO_ROOM
    found = [UNSCALAR if is_odd(code) else UNFOUND for code in case.looked]
    return bytes([NO_ROOM]) + NO_ROWS + bytes([flat]) + NO_FLAT + b"".join(found)


def first_full(text):
    """Number and line where a limit is passed: the Rust must keep all before it, and with it pass one."""
    said = paper.sized_char_def(text)
    if not isinstance(said, str) or int(said.split(" ")[1]) not in range(9, 14):
        raise Differs(f"the Rust's counts pass a limit, paper.py says {said}: {text.hex()}")
    _, number, place = said.split(" ")
    answers = ask(f"counts {word(lines_before(text, int(place) + more))}" for more in (0, 1))
    if [within(answer.split(" ")[1]) for answer in answers if answer.startswith("ok ")] != [True, False]:
        raise Differs(f"paper.py says {said}, the Rust's counts don't: {text.hex()}")
    return int(number), int(place)
