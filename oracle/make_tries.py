#!/usr/bin/env python3
"""Puts the lists that the try_ programs replay into the place where rt hands them over, crates/NAME/stdin.

With --check it writes nothing and fails where a file there is not what the lists say, or where a program's stdout, which is written by
hand, does not have as many lines agree as its list asks. The character list is made here, by Python's own encoder; those of packs are made
by make_packs.py, and the others by make_lists.py, make_char_def.py, make_rows.py and make_unk.py with the Rust."""
import os
import sys

HERE = os.path.dirname(os.path.abspath(__file__))
TOP = os.path.dirname(HERE)
LAST = 0x10FFFF


def lines(name):
    with open(os.path.join(HERE, "lists", name), encoding="ascii") as file:
        return file.read().splitlines()


def is_edge(c):
    """The first and the last character of each first byte, of each second byte below 1000 hex, and those that RFC 3629 names."""
    named = (0x7F, 0x80, 0x7FF, 0x800, 0xD7FF, 0xE000, 0xFEFF, 0xFFFD, 0xFFFE, 0xFFFF, 0x10000, LAST)
    step = 0x40 if c < 0x1000 else 0x1000
    return c in named or c % step in (0, step - 1)


def characters():
    scalars = [c for c in range(LAST + 1) if not 0xD800 <= c <= 0xDFFF]
    return [f"v {chr(c).encode().hex()} {c:04X}" for c in scalars if is_edge(c)]


def try_text():
    texts = ["t " + line for line in lines("utf8.txt")]
    white = ["w " + line for line in lines("white_space.txt")]
    none = [f"e {LAST:X} {LAST:X}"]
    return texts + characters() + lines("utf8_runs.txt") + white + none


TRIES = {"try_text": try_text, "try_numeral": lambda: lines("numerals.txt"), "try_char_def": lambda: lines("char_def.txt"),
         "try_pack": lambda: lines("packs.txt"), "try_unk": lambda: lines("unk.txt"), "try_lookup": lambda: try_lookup()}


# Programs that say only how many lines agreed; a line that ends in `b` or `c` asks nothing.
COUNTING = ("try_char_def", "try_pack", "try_unk")


# What try_lookup calls the kinds of its cases, and the letters of their items.
KINDS = (("rows", "qyz"), ("flat tables", "fu"), ("names and definitions by number", "m"), ("numbers by name", "i"), ("sums over the BMP", "a"),
         ("lookups", "l"), ("packed lookups", "p"), ("places of the flat pool", "c"), ("searches among boundaries", "v"))
# How many words an item of rows.txt has, but for `q` and `l`; `d`, `s` and `k` damage a table.
WORDS = {"t": 2, "x": 3, "n": 5, "e": 4, "b": 1, "d": 4, "s": 3, "k": 3, "m": 4, "i": 3, "y": 4, "z": 2, "f": 3, "u": 2, "a": 2, "p": 5, "c": 3, "v": 3}
CHANGES = "dsk"


def letters(line):
    """The letters of a line's items."""
    words, found, at = line.split(" "), [], 0
    while at < len(words):
        letter = words[at]
        found.append(letter)
        if letter == "q":
            at += 3 + 2 * int(words[at + 1]) + int(words[at + 2])
        else:
            at += 5 + int(words[at + 4]) if letter == "l" else WORDS[letter]
    assert at == len(words), line
    return found


# The program reads its list in two halves of so many bytes, and has room for so many places of a row pool.
HALF, POOL = 524288, 524288 - 32


def try_lookup():
    """rows.txt with a line that asks nothing where the first half ends, so that no line lies in both. Rows that are too many for the program's pool
    are refused by 17 there, and nothing is looked up in them."""
    made = list(map(within_pool, lines("rows.txt")))
    sizes = [len(line) + 1 for line in made]
    first = max(end for end in range(len(made)) if sum(sizes[:end]) + len("t 00 b\n") <= HALF)
    assert first < [letters(line)[-1] for line in made].index("b"), "the base stands in the half that needs it"
    filler = "t " + "0" * (HALF - sum(sizes[:first]) - len("t  b\n")) + " b"
    assert sum(sizes[first:]) < HALF
    return made[:first] + [filler] + made[first:]


def within_pool(line):
    words = line.split(" ")
    if "y" not in words or int(words[words.index("y") + 2]) <= POOL:
        return line
    return " ".join(words[:words.index("y")] + ["z", "17", "u", "16"])


def lookups_agree(made):
    """What try_lookup says where all agrees."""
    items = [(letter, any(change in found for change in CHANGES)) for found in map(letters, made) for letter in found]
    counts = [[sum(letter in of_kind and damaged == wanted for letter, damaged in items) for wanted in (False, True)] for _, of_kind in KINDS]
    return "".join(f"{kind}: {sound} agreed, {damaged} more over damaged tables\n" for (kind, _), (sound, damaged) in zip(KINDS, counts)) + "0 differed\n"


def miscounted(name, made):
    """Whether the program's stdout is not that every line agrees."""
    with open(os.path.join(TOP, "crates", name, "stdout"), encoding="ascii") as file:
        said = file.read()
    if name == "try_lookup":
        return said != lookups_agree(made)
    asked = sum(not line.endswith((" b", " c")) for line in made)
    return name in COUNTING and said != f"{asked} agreed, 0 differed\n"


def main():
    wrong = 0
    for name, made in TRIES.items():
        path = os.path.join(TOP, "crates", name, "stdin")
        text = "".join(line + "\n" for line in made())
        if "--check" in sys.argv[1:]:
            with open(path, encoding="ascii") as file:
                if file.read() != text:
                    print(f"{path} is not what oracle/lists say: run oracle/make_tries.py")
                    wrong = 1
            if miscounted(name, made()):
                print(f"crates/{name}/stdout does not count the lines of its list")
                wrong = 1
        else:
            with open(path, "w", encoding="ascii") as file:
                file.write(text)
    return wrong


sys.exit(main())
