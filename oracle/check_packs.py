#!/usr/bin/env python3
"""Holds lists/packs.txt against wrong readers and wrong tests of tables: each differs from it somewhere, and the right ones nowhere.

A wrong one is packs.py or handed.py with one piece of its text exchanged."""

import sys
import types

import layout
import packs
from ask import FOLDER
from handed_cases import changed
from texts import spliced

READERS = [
    ("takes a name twice", "if name in known:", "if False:"),
    ("holds a name only against the one before it", "if name in known:", "if known and name == list(known)[-1]:"),
    ("takes names of any bytes", '"utf-8", "strict"', '"latin-1"'),
    ("takes surrogates in names", '"utf-8", "strict"', '"utf-8", "surrogatepass"'),
    ("takes names of no bytes", "size >= 1 and ", ""),
    ("takes any sum of name bytes", " and total + size <= paper.NAME_BYTES", ""),
    ("refuses 16,384 name bytes", "total + size <= paper.NAME_BYTES", "total + size < paper.NAME_BYTES"),
    ("takes 16,384 bytes for each name", "total + size <= paper.NAME_BYTES", "size <= paper.NAME_BYTES"),
    ("refuses an ill-formed name at its length", "self.refuse(20, start)\n        if name", "self.refuse(20, start - 15)\n        if name"),
    ("refuses a repeated name at its length", "self.refuse(20, start)\n        return name", "self.refuse(20, start - 15)\n        return name"),
    ("takes any count", "total + size <= references", "True"),
    ("takes counts up to the limit", "total + size <= references", "total + size <= 8192"),
    ("takes each count up to the total", "total + size <= references", "size <= references"),
    ("takes any total", "if total != references:", "if False:"),
    ("takes a number one too high", "number < categories", "number <= categories"),
    ("takes any number", "number < categories", "True"),
    ("takes the bound FEFF", "(0xFEFF, 0xFFFE)", "(0xFFFE,)"),
    ("takes the bound FFFE", "(0xFEFF, 0xFFFE)", "(0xFEFF,)"),
    ("refuses the bound FFFF", "(0xFEFF, 0xFFFE)", "(0xFEFF, 0xFFFE, 0xFFFF)"),
    ("takes the bound D800", "0xD800 <= number", "0xD800 < number"),
    ("takes the bound DFFF", "number <= 0xDFFF", "number < 0xDFFF"),
    ("takes bounds from DC00 on", "number <= 0xDFFF", "number < 0xDC00"),
    ("refuses the bound E000", "number <= 0xDFFF", "number <= 0xE000"),
    ("takes any pad bits", 'len(rest) >= 8 or "1" in rest', "len(rest) >= 8"),
    ("takes zero bytes left over", 'len(rest) >= 8 or "1" in rest', '"1" in rest'),
    ("takes the last pad bit", '"1" in rest', '"1" in rest[:-1]'),
    ("takes the first pad bit", '"1" in rest', '"1" in rest[1:]'),
    ("takes one more of all", "number <= limit", "number <= limit + 1"),
    ("refuses each limit", "number <= limit", "number < limit"),
    ("takes any categories", "paper.CATEGORIES)", "1023)"),
    ("takes any category lines", "paper.CATEGORY_LINES)", "1023)"),
    ("takes any ranges", "paper.RANGES)", "4095)"),
    ("takes any references", "paper.REFERENCES)", "16383)"),
    ("takes 513 categories", "paper.CATEGORIES)", "513)"),
    ("takes 513 category lines", "paper.CATEGORY_LINES)", "513)"),
    ("takes 2,049 ranges", "paper.RANGES)", "2049)"),
    ("takes 8,193 references", "paper.REFERENCES)", "8193)"),
    ("gives 20 for 18", "broken=18", "broken=20"),
    ("places 19 at the pack's end", "self.refuse(19, start)", "self.refuse(19, len(self.bits))"),
    ("gives 19 where a field ends with the pack", "if self.at > len(self.bits):", "if self.at >= len(self.bits):"),
    ("places 21 at the last byte's end", "self.refuse(21, self.at)", "self.refuse(21, (self.at + 7) // 8 * 8)"),
    ("gives 21 before the total's 20", "        cursor.refuse(20, cursor.at)", "        place = cursor.at\n        cursor.end()\n        cursor.refuse(20, place)"),
]

TESTS = [
    ("takes any counts", "any(count > limit for count, limit in zip(counts, LIMITS))", "False"),
    ("takes tables of any length", "any(len(table) < width * counts[by] for table, width, by in zip(tables, WIDTHS, COUNTED_BY))", "False"),
    ("takes parts anywhere", "if start != at:", "if False:"),
    ("takes any sum", "return at == total", "return True"),
    ("takes names of no bytes", " or not all(size for _, size in slots)", ""),
    ("takes ill-formed names", '"utf-8", "strict"', '"utf-8", "replace"'),
    ("takes a name twice", "len(set(names)) == len(names)", "True"),
    ("takes any flags", "all(max(one[1:]) <= 1 for one in found)", "True"),
    ("takes any bounds", " or not all(map(is_bound, bounds))", ""),
    ("takes any numbers", " or any(number >= categories for number in numbers)", ""),
]


def pieces(words, base):
    """The bytes that a line's items build, and the words behind them."""
    data, at = b"", 0
    while words[at] in ("t", "x", "e"):
        size = {"t": 2, "x": 3, "e": 4}[words[at]]
        kind, *rest = words[at:at + size]
        come = bytes.fromhex(rest[-1].strip("-"))
        data += come if kind == "t" else int(rest[0]) * come if kind == "x" else spliced(base, (int(rest[0]), int(rest[1]), come))
        at += size
    return data, words[at:]


def lines():
    """Packs with the words that end their line; rooms are left to the program."""
    found, base = [], b""
    for line in (FOLDER / "lists/packs.txt").read_text().splitlines():
        words = line.split(" ")
        if words[0] == "o":
            continue
        data, end = pieces(words, base)
        base = data if end[0] == "b" else base
        found += [(data, end)] if end[0] != "b" else []
    return found


def variant(name, old="", new=""):
    """A module of this folder with a piece of its text exchanged."""
    source = (FOLDER / f"{name}.py").read_text()
    assert source.count(old) >= 1, old
    made = types.ModuleType(name)
    exec(compile(source.replace(old, new) if old else source, name, "exec"), made.__dict__)
    return made


def reads(module, data, end):
    """The reader says what the line says; the tables are only looked at where it has them."""
    answer = module.read(data)
    if isinstance(answer, str):
        return answer.split(" ")[1:] == end[1:] and end[0] == "r"
    counted = [*map(str, layout.counts(answer))] == end[1:6]
    return end[0] in "aw" and counted and (end[0] == "a" or [part.hex() or "-" for part in layout.tables(answer)] == end[7:])


def changes(words):
    found, at = [], 0
    while words[at] in ("d", "c", "s"):
        size = 4 if words[at] == "d" else 3
        kind, *rest = words[at:at + size]
        found.append((kind, *map(int, rest[:2]), *map(bytes.fromhex, rest[2:])))
        at += size
    return found, words[at]


def holds(module, data, end):
    """The test of tables says what the line says, by acceptance alone."""
    found, said = changes(end)
    return (module.handed_in(*changed(packs.read(data), found)) is None) == (said == "f")


def differences(judge, module, found):
    count = 0
    for data, end in found:
        try:
            count += not judge(module, data, end)
        except (ArithmeticError, LookupError, ValueError):
            count += 1
    return count


def main():
    listed = lines()
    kinds = [("packs", "reader", reads, READERS, [one for one in listed if one[1][0] in "raw"]),
             ("handed", "test", holds, TESTS, [one for one in listed if one[1][0] in "dcs"])]
    wrong = 0
    for name, what, judge, exchanges, found in kinds:
        right = differences(judge, variant(name), found)
        print(f"{right:5} of {len(found)} differ: {name}.py")
        counts = [differences(judge, variant(name, old, new), found) for _, old, new in exchanges]
        for count, (said, _, _) in zip(counts, exchanges):
            print(f"{count:5} differ: a {what} that {said}")
        wrong += right + counts.count(0)
    return int(wrong > 0)


if __name__ == "__main__":
    sys.exit(main())
