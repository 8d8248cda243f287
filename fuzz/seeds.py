#!/usr/bin/env python3
"""Makes seeds for the fuzzers, a file each, from the lists of oracle/ and from samples/.

    fuzz/seeds.py FOLDER      FOLDER/valid_prefix, FOLDER/valid_prefix-long and so on for read_char_def, read_pack and read_unk

oracle/README.md has the lists' items. Long inputs are slow and stand apart: of those over LONG bytes,
texts that stand at the limits and those that others are made of go in and no others."""
import hashlib
import os
import sys

TOP = os.path.dirname(os.path.dirname(os.path.abspath(__file__)))

# The control bytes: fill A5, slices against the page behind them, nothing short; the same with tables that end where their counts do.
PLAIN = bytes([0xA5, 0, 0, 0xFF, 0, 0])
TIGHT = bytes([0x5B, 0xFF, 0xFF, 0, 2, 0])
# Room k is one byte short from here on.
SHORT_FROM = 0xE0

LONG = 3000

# How many words an item has that comes between the text and the line's last item.
BETWEEN = {"o": 1, "m": 3, "k": 3, "s": 2}


def data(word):
    return b"" if word == "-" else bytes.fromhex(word)


class Line:
    """What one line of a list builds: its text, the room that is short, the damage of the tables that are handed in, its last item."""

    def __init__(self, words, base):
        self.text, self.short, self.damage, self.ends = b"", None, [], ""
        self.at_limit = "x" in words or "n" in words
        at = 0
        while at < len(words) and not self.ends:
            at = self.item(words, at, base)

    def item(self, words, at, base):
        kind = words[at]
        if kind == "t":
            self.text += data(words[at + 1])
            return at + 2
        if kind == "x":
            self.text += int(words[at + 1]) * data(words[at + 2])
            return at + 3
        if kind == "n":
            head, tail = data(words[at + 3]), data(words[at + 4])
            self.text += b"".join(head + b"%05d" % k + tail for k in range(int(words[at + 1]), int(words[at + 2]) + 1))
            return at + 5
        if kind == "e":
            start, gone = int(words[at + 1]), int(words[at + 2])
            self.text += base[:start] + data(words[at + 3]) + base[start + gone:]
            return at + 4
        if kind == "o":
            self.short = int(words[at + 1])
        elif kind == "m":
            start = int(words[at + 2])
            self.damage += [(int(words[at + 1]), start + i, byte) for i, byte in enumerate(data(words[at + 3]))]
        elif kind not in BETWEEN:
            self.ends = kind
        return at + 1 + BETWEEN.get(kind, 0)


def lines(name):
    base = b""
    with open(os.path.join(TOP, "oracle", "lists", name), encoding="ascii") as file:
        for row in file:
            line = Line(row.split(), base)
            if line.ends == "b":
                base = line.text
            if len(line.text) <= LONG or line.ends in "bc" or line.at_limit:
                yield line


def control(line, flags=PLAIN):
    return flags if line.short is None else flags[:5] + bytes([SHORT_FROM + line.short])


def one_text(name):
    return [control(line) + line.text for line in lines(name)]


def prefixes():
    with open(os.path.join(TOP, "oracle", "lists", "utf8.txt"), encoding="ascii") as file:
        texts = [data(row.split()[0]) for row in file]
    return [PLAIN + text for text in texts] + [TIGHT + text for text in texts] + [PLAIN + LONG * text for text in texts[:9]]


def unk_seed(line, before, flags):
    damage = line.damage[:7]
    head = control(line, flags) + len(before).to_bytes(2, "little") + bytes([len(damage)])
    return head + b"".join(bytes([table, at & 255, at >> 8 & 255, value]) for table, at, value in damage) + before + line.text


def unks():
    before, seeds = b"", []
    for line in lines("unk.txt"):
        if line.ends == "c":
            before = line.text
        else:
            seeds.append(unk_seed(line, before, TIGHT if len(seeds) % 2 else PLAIN))
    return seeds


def sample(name):
    with open(os.path.join(TOP, "samples", name), "rb") as file:
        return file.read()


def write(folder, seeds):
    for part, inputs in ((folder, [seed for seed in seeds if len(seed) <= LONG]), (folder + "-long", [seed for seed in seeds if len(seed) > LONG])):
        os.makedirs(part, exist_ok=True)
        for seed in inputs:
            with open(os.path.join(part, hashlib.sha1(seed).hexdigest()), "wb") as file:
                file.write(seed)
        print(f"{part}: {len(set(inputs))} seeds")


def main():
    top = sys.argv[1]
    char_def, unk = sample("char.def"), sample("unk.def")
    write(os.path.join(top, "valid_prefix"), prefixes())
    write(os.path.join(top, "read_char_def"), one_text("char_def.txt") + [PLAIN + char_def])
    write(os.path.join(top, "read_pack"), one_text("packs.txt"))
    write(os.path.join(top, "read_unk"), unks() + [PLAIN + len(char_def).to_bytes(2, "little") + b"\0" + char_def + unk])


main()
