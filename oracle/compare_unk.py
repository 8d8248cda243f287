"""unk.def texts for `compare`, and what the answers of our program must be: the tables, and what stands under some numbers."""

import paper
import unk_cases
from ask import ask, word
from compared import HEAD, Case, Differs, Wanted, damaged, looked_record, record, refusal
from texts import UNK_TOKENS, bases, long_unk_text, raw, real_files, real_text, spliced, unk_bases, unk_edit, unk_text

# Rows of docs/DIFFERENCES.md.
SIZES, ILL_FORMED, LINE = "sizes", "bytes that are not UTF-8", "the number of the bad line"
SHORT, BLANK = "an unk line with under four fields", "a blank unk line"
UNKNOWN = "an unknown category, definition or entry number"
LISTED = (SIZES, ILL_FORMED, LINE, SHORT, BLANK, UNKNOWN)
PROGRAMS = ("batch_unk",)

CHAR_DEFS, BASES = 40, 60
ODD_NUMBERS = [511, 512, 4095, 4096, 65535, 65536, 2**31, 2**32 - 1]
RAW_BYTES = b",,,,,,,,01122349--+AABx*  \t\n\n\n\r\r\0\"#5"

NAMES = {}


def cases(random, count):
    """Most texts are read over the first char.def; those in the manner of a published one over the char.def beside it, too."""
    fixed = (unk_cases.MIXED, unk_cases.SMALL, unk_cases.BARE, unk_cases.NONE, unk_cases.MANY)
    char_defs = [case.data for case in fixed] + bases(random, CHAR_DEFS)
    real, beside = real_files("unk.def"), [b"".join(lines) for lines in real_files("char.def")]
    NAMES.update((char_def, paper.sized_char_def(char_def).names) for char_def in char_defs + beside)
    at_limits = [case.data for case in unk_cases.limits() + unk_cases.over_many()]
    to_damage = unk_bases(random, BASES, NAMES[char_defs[0]])
    makers = {"grammar": lambda: grammar_text(random, to_damage, at_limits),
              "mutated": lambda: damaged(random, real_text(random, real), unk_edit, spliced),
              "raw": lambda: raw(random, RAW_BYTES, UNK_TOKENS)}
    for _ in range(count):
        sort = ("grammar", "grammar", "grammar", "mutated", "mutated", "raw")[random.below(6)]
        over = random.of(beside) if sort == "mutated" and random.below(4) else random.of([char_defs[0], random.of(char_defs)])
        yield Case(sort, makers[sort](), numbers(random), over)


def limit_cases(random):
    over = unk_cases.MIXED.data
    NAMES[over] = paper.sized_char_def(over).names
    return (Case("grammar", case.data, numbers(random), over) for case in unk_cases.limits())


def grammar_text(random, to_damage, at_limits):
    kind = random.below(2000)
    if kind < 3:
        return damaged(random, random.of(at_limits), unk_edit, spliced)
    if kind < 1600:
        return unk_text(random).encode()
    if kind < 1800:
        return damaged(random, random.of(to_damage), unk_edit, spliced)
    return long_unk_text(random).encode()


def numbers(random):
    """Small numbers, which most texts have, and some that few or none has."""
    return random.below(3), random.below(12), random.below(64), random.of(ODD_NUMBERS)


def records(_, case):
    return record(case.char_def) + record(case.data) + looked_record(case)


# What the Rust and the list of differences leave.


def wanted(batch):
    names = {char_def: paper.listed(map(word, NAMES[char_def])) for char_def in {case.char_def for case in batch}}
    rust = ask(f"laidunk {names[case.char_def]} {word(case.data)} {paper.listed(case.looked)}" for case in batch)
    return [allowed(case, answer) for case, answer in zip(batch, rust)]


def allowed(case, rust):
    kind, *words = rust.split(" ")
    if len(case.data) > paper.TEXT_BYTES:
        return refused(2, 0, SIZES)
    if kind == "text":
        return refused(3, int(words[0]), ILL_FORMED)
    if kind == "ok" and int(words[0]) <= paper.UNK_ENTRIES:
        return accepted(case, words[1])
    # Each line is an entry, so the first one that is too many is always the same line.
    place = paper.UNK_ENTRIES + 2 if kind == "ok" else int(words[kind == "refused"])
    if place > paper.UNK_ENTRIES + 1:
        return refused(25, paper.UNK_ENTRIES + 1, SIZES)
    return bad_line(case.data.split(b"\n")[place - 1], place, rust)


def bad_line(line, place, rust):
    """23 before 24, also where the Rust reads a number first or panics."""
    if line.count(b",") < 3:
        return refused(23, place, BLANK if line in (b"", b"\r") else SHORT)
    if not rust.startswith("refused 24 "):
        raise Differs(f"the Rust says {rust} of {line!r}")
    return refused(24, place, LINE)


def refused(number, place, row):
    return Wanted(number, (refusal(number, place),), (row,))


def accepted(case, tables):
    entries = int.from_bytes(bytes.fromhex(tables[:4]), "little")
    unknown = any(number >= min(entries, len(NAMES[case.char_def])) for number in case.looked)
    return Wanted(0, (bytes(HEAD) + bytes.fromhex(tables),), (UNKNOWN,) if unknown else ())
