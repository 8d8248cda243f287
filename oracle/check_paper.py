#!/usr/bin/env python3
"""Holds the Rust against document 01: its examples, the readings chosen for it, and its rules over
seeded random texts. Stops at the first disagreement."""

import sys
import tempfile

import paper
from ask import FOLDER, Random, ask, word
from texts import char_text, unk_text

SEED = 2
TEXTS = int(sys.argv[1]) if __name__ == "__main__" and len(sys.argv) > 1 else 200_000

# The answers below are document 01's, without messages. Its packs have no counterpart in the Rust.
EXAMPLES = [
    ("char", "", "ok . . ."),
    ("rows", "", "ok 0/-"),
    ("rows", "0x41 A", "ok 0/-,41/0,42/-"),
    ("char", "0x0x41..43 A", "ok 41 . 41-43/0"),
    ("char", "0xFEFF A", "refused 6 1"),
    ("char", "0xD800..0xDFFF A", "ok 41 . fffd-fffd/0"),
    ("rows", "0x43..0x41 A", "ok 0/-,42/-,43/-"),
    ("char", "0x41....0x43 A", "refused 4 1"),
    ("char", "0x41...0x43 A", "refused 5 1"),
    ("char", "A 1 0", "refused 7 1"),
    ("char", "A 4294967296 0 0", "refused 8 1"),
    ("rows", "0x41 B A\n0x41 A C", "ok 0/-,41/0:1:2,42/-"),
    ("char", "A 1 0 2", "ok 41 1:0:2 ."),
    ("unk 41", "A,65536,1,-32769,x,y", "ok 0:1:32767 0 0 03000000780079"),
    ("char", "0x10000 A", "refused 5 1"),
]

READINGS = [
    # A last line behind the last LF, perhaps empty.
    ("char", "A 1 0 2\n", "ok 41 1:0:2 ."),
    ("char", "\n\nA", "refused 7 3"),
    ("char", "A 1 0 2\n0x41 A\nB\n", "refused 7 3"),
    # DEFAULT where the covering ranges name no category.
    ("rows", "DEFAULT 1 0 0\n0x41", "ok 0/0,41/0,42/0"),
    ("rows", "0x41\n0x41 A\n0x43 DEFAULT", "ok 0/1,41/0,42/1,43/1,44/1"),
    # Bounds.
    *[("char", text, "refused 5 1")
      for text in ("0x", "0x 41", "0x41..", "0x..", "0x+", "0x-0", "0x+0x41")],
    ("char", "0x+41", "ok . . 41-41/-"),
    ("char", "0x41..+43", "ok . . 41-43/-"),
    ("char", "0x....", "refused 4 1"),
    # No white space, and ordinary characters.
    *[("char", f"{c}A 1 0 2", f"ok {word(c + 'A')} 1:0:2 .")
      for c in ("\u200b", "\u180e", "\0", "\x1c", "\ufeff")],
    *[("char", f"0x41{c}A", "refused 5 1") for c in ("\u200b", "\u180e", "\0", "\x1c", "\ufeff")],
    ("char", "\ufeff0x41 A", "refused 7 1"),
    # unk.def: details.
    ("unk 41", "A,1,2,3", "ok 1:2:3 0 0 00000000"),
    ("unk 41", "A,1,2,3,", "ok 1:2:3 0 0 00000000"),
    ("unk 41", "A,1,2,3,x\0y,z", "ok 1:2:3 0 0 05000000780079007a"),
    ("unk 41", "B,1,2,3,x", "ok 1:2:3 - 0 0100000078"),
    # unk.def: numbers.
    ("unk 41", "A,-0,2,3", "refused 24 1"),
    ("unk 41", "A,1,-0,3", "refused 24 1"),
    ("unk 41", "A,1,2,-0", "ok 1:2:0 0 0 00000000"),
    ("unk 41", "A,1,2,-+5", "refused 24 1"),
    *[("unk 41", text, "refused 24 1")
      for text in ("A, 1,2,3", "A,1,2 ,3", "A,1,2, 3", "A,1,2,3 ")],
    # unk.def: ends of lines.
    ("unk 41", "A,1,2,3,x\r\nA,1,2,3,x\r", "ok 1:2:3,1:2:3 0:1 0,5 010000007802000000780d"),
    ("unk 41", "A,1,2,3,x\r\r\n", "ok 1:2:3 0 0 02000000780d"),
    # Document 01's words on spaces and numbers.
    ("char", "A\u3000B 1 0 2\n0x41 A\u3000B", "ok 41e3808042,41,42 1:0:2 41-41/1:2"),
    ("char", "A\v1\v0\v2", "refused 7 1"),
    ("char", "\vA\f1\r0\t+2\v", "ok 41 1:0:2 ."),
    ("char", "A 01 +1 00", "ok 41 1:1:0 ."),
    ("char", "A 2 4294967295 4294967295", "ok 41 0:0:4294967295 ."),
    ("char", "0xFFFE A", "refused 6 1"),
    ("char", "0xFFFF..FEFF A", "refused 6 1"),
    ("char", "0xFEFF..g A", "refused 6 1"),
    ("char", "0xg..FEFF A", "refused 5 1"),
]

DEPARTURES = [
    # Limits: the Rust has none.
    ("char", "".join(f"C{n} 1 0 0\n" for n in range(513)), "ok"),
    ("char", "0x41\n" * 2049, "ok"),
    ("char", "0x41" + " A" * 8193, "ok"),
    ("char", "A" * 16385 + " 1 0 0", "ok"),
    ("char", "#" * 65537, "ok"),
    ("unk 41", "A,1,2,3\n" * 4097, "ok"),
    # Short unk lines: a panic, or a number read first.
    *[("unk 41", text, "panic 2") for text in ("A,1,2,3\n\n", "A,1,2,3\nA", "A,1,2,3\nA,1,2")],
    *[("unk 41", text, "refused 24 1") for text in ("A,x", "A,", "A,1,x")],
]


def without_message(answer):
    parts = answer.split(" ")
    return " ".join(parts[:{"refused": 3, "panic": 2}.get(parts[0], len(parts))])


def answers(requests):
    return [without_message(answer) for answer in ask(requests)]


def same(what, requests, wanted, got):
    for request, want, have in zip(requests, wanted, got, strict=True):
        if want != have:
            sys.exit(f"{what}: {request}\n  document 01: {want}\n  the Rust:    {have}")
    print(f"{what}: {len(requests)} agree")


def check_table(what, table):
    requests = [f"{kind} {word(text)}" for kind, text, _ in table]
    same(what, requests, [answer for _, _, answer in table], answers(requests))


def check_departures():
    requests = [f"{kind} {word(text)}" for kind, text, _ in DEPARTURES]
    wanted = [answer for _, _, answer in DEPARTURES]
    got = ["ok" if answer.startswith("ok") else answer for answer in answers(requests)]
    same("departures", requests, wanted, got)


def check_long_rows():
    """A row over 255: no flat table, and lookups go by rows."""
    codes = [0, 0x41, 0xFFFF, 0x10000]
    for length in (255, 256):
        text = "0x0..0xFFFF " + " ".join(f"C{n}" for n in range(length))
        check_lookups(f"row of {length}", [paper.char_def(text)], [text], codes)


def check_lookups(what, readings, texts, codes):
    word_of_codes = ",".join(f"{code:x}" for code in codes)
    requests = [f"lookup {word(text)} {word_of_codes}" for text in texts]
    same(what, requests, [paper.lookup_answer(r, codes) for r in readings], ask(requests))


def check_unknown_numbers():
    """The Rust panics, answered as x; only an entry's details are answered as absent."""
    text, entries = word("0x41 B\nA 1 0 2"), word("A,1,2,3,x")
    requests = [f"names {text} 0,1,2 41,42,43", f"words 41 {entries} 0,1,4294967295",
                f"lookup {text} 41,d7ff,d800,dfff,e000,10ffff,110000"]
    wanted = ["ok 42/1:0:2,41/x,x/x 1,0,-", "ok 0/1:2:3/78,x/x/x,x/x/x",
              "ok 0+1/0,1+0/-,x,x,1+0/-,-/-,x"]
    same("unknown numbers", requests, wanted, ask(requests))


def check_file_layer():
    """The file layer strips one mark and puts U+FFFD for malformed bytes."""
    with tempfile.NamedTemporaryFile() as file:
        file.write(2 * "\ufeff".encode() + b"A\xffB\xed\xa0\x80")
        file.flush()
        requests = [f"file {word(file.name)}"]
        wanted = [f"ok {word(chr(0xFEFF) + 'A' + chr(0xFFFD) + 'B' + 3 * chr(0xFFFD))}"]
        same("file layer", requests, wanted, ask(requests))


def ucs2_answer(number):
    try:
        return str(paper.from_ucs2(number))
    except paper.Refused as refusal:
        return f"x{refusal}"


def check_ucs2():
    requests = [f"c {number:04x}" for number in range(0x10000)]
    same("UCS-2", requests, [ucs2_answer(number) for number in range(0x10000)], ask(requests))


def numeral_answer(kind, data):
    if kind == "c":
        return ucs2_answer(int(data, 16))
    text = bytes.fromhex(data.strip("-")).decode()
    if kind == "h":
        try:
            return str(paper.bound(text))
        except paper.Refused as refusal:
            return f"x{refusal}"
    number = (paper.unsigned if kind == "u" else paper.signed)(text)
    return "x" if number is None else str(number % 2**32)


def check_numerals():
    lines = (FOLDER / "lists/numerals.txt").read_text().splitlines()
    wanted = [numeral_answer(*line.split(" ")[:2]) for line in lines]
    same("numerals.txt", lines, wanted, [line.split(" ")[2] for line in lines])


LOOKED_UP = [0, 0x2F, 0x30, 0x41, 0x42, 0x43, 0x44, 0x45, 0x46, 0x50, 0x51, 0x4E00, 0xA000, 0xD7FF,
             0xD800, 0xDFFF, 0xE000, 0xFEFE, 0xFF00, 0xFF01, 0xFFFD, 0xFFFF, 0x10000, 0x10FFFF,
             0x110000]


def check_char_texts(random):
    texts = [char_text(random) for _ in range(TEXTS)]
    readings = [paper.char_def(text) for text in texts]
    for kind, answer in (("char", paper.char_answer), ("rows", paper.rows_answer)):
        requests = [f"{kind} {word(text)}" for text in texts]
        wanted = [r if isinstance(r, str) else answer(r) for r in readings]
        same(f"random {kind}", requests, wanted, answers(requests))
    tell_classes(wanted)
    accepted = [(r, text) for r, text in zip(readings, texts) if not isinstance(r, str)]
    # A flat table takes the Rust half a millisecond, so only a part is looked up.
    check_lookups("random lookups", *zip(*accepted[:TEXTS // 20]), LOOKED_UP)


def check_unk_texts(random):
    categories = ["A", "B", "漢字", "", "A"]
    front = "unk " + ",".join(map(word, categories))
    texts = [unk_text(random) for _ in range(TEXTS)]
    wanted = [paper.unk_answer(categories, text) for text in texts]
    requests = [f"{front} {word(text)}" for text in texts]
    got = [short_line(want, have) for want, have in zip(wanted, answers(requests))]
    same("random unk", requests, wanted, got)
    tell_classes(wanted)


def short_line(want, have):
    """Under four fields the Rust panics or refuses a number; document 01 says 23 at that line."""
    if want.startswith("refused 23 ") and have.split(" ")[0] in ("panic", "refused"):
        return f"refused 23 {have.split(' ')[-1]}"
    return have


def tell_classes(wanted):
    """How often each answer came, so that a generator that reaches too little shows itself."""
    counts = {}
    for want in wanted:
        parts = want.split(" ")
        kind = parts[0] if parts[0] == "ok" else parts[1]
        counts[kind] = counts.get(kind, 0) + 1
    print("  " + ", ".join(f"{kind}: {count}" for kind, count in sorted(counts.items())))


if __name__ == "__main__":
    check_table("examples", EXAMPLES)
    check_table("readings", READINGS)
    check_departures()
    check_long_rows()
    check_unknown_numbers()
    check_file_layer()
    check_ucs2()
    check_numerals()
    check_char_texts(Random(SEED))
    check_unk_texts(Random(SEED))
