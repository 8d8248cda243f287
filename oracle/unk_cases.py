"""Texts of unk.def, and the char.def texts whose categories they are read over."""

from itertools import product

import check_paper
import paper
from ask import FOLDER
from items import numbered, text, times
from limits import full
from texts import ILL_FORMED

# char.def texts. The first is the one for most: names of every sort, and one (A,B) that no line of unk.def can have.
MIXED = text("A 1 0 2\n0x41..0x43 B A é\nDEFAULT 0 1 0\n漢字 1 1 0\nA\u3000B 1 0 2\n0x50 0x A\u200b \ufeffA ..\n"
             "0x60 AA AAA AB a\nA,B 1 0 2\n\"A\" 1 0 2\nA\0B 1 0 2\n0x70\n")
# unk_handed.py breaks these two: names of one, one, three and two bytes, ranges of two, no, one and three references; no range.
SMALL = text("A 1 0 2\nB 0 1 3\n漢 1 1 4294967295\n0x41..0x43 A B\n0x50\n0x60..0x5F 漢\n0x70 é A é")
BARE = text("A 1 0 2\nB 1 1 1\n")
NONE = text("# no category\n0x41\n")
SAMPLE = text((FOLDER.parent / "samples/char.def").read_bytes())
MANY = text(numbered(1, 512, "0x41 N", "\n"))
# Two and two have the same mark in crate `name_rules`, and are not the same.
MARKS = text("0x41 WtewwG VKdRRz UgsAgb jFVMIa")
LONG = text("0x41 ", times(16384, "A"))
FULL = full()[0]

GOOD = "A,1,2,3"


def fixed():
    groups = [known(), line_ends(), short_lines(), numbers(), details(), categories(), orders(), first_bad(), ill_formed()]
    return [text(case) for group in groups for case in group]


def known():
    """Document 01's example, and the readings chosen for it."""
    return [case for kind, case, _ in check_paper.EXAMPLES + check_paper.READINGS if kind.startswith("unk ")]


def line_ends():
    """What ends a line, what is dropped before LF and what stays; a final LF starts no line."""
    ends = ["\n", "\r\n", "\n\r", "\r", "\r\r\n", "\r\r", "\r\n\r", "\n\n", "\r\n\r\n", "\v", "\f", "\u0085", "\u2028", "\0\n", " \n", "\n "]
    lines = [("A,1,2,3,x", "B,4,5,6,y"), ("A,1,2,3", "B,4,5,6"), ("A,1,2,3,", "B,4,5,6,,"), (",1,2,3,\r", ",4,5,6,\r")]
    pairs = [one + end + two + last for one, two in lines for end in ends for last in ("", end)]
    return ["", *ends] + pairs + [GOOD + end for end in ends]


SHORT = ["", "A", ",", ",,", "A,", "A,1", "A,x", "A,-0", "A,1,", "A,1,x", "A,x,2", "A,1,2", ",,2", "A,4294967296", "A,1,4294967295",
         "A,1,4294967296", "漢字", "\0", " ", "\r", "\t", "A;1;2;3", "A 1 2 3", "A、1、2、3", "\ufeff", "#", "# A", "A,1\r,2"]


def short_lines():
    """23 also where the Rust panics, or reads a number first."""
    forms = ["{}", "{}\n", GOOD + "\n{}\n", "{}\nA,x,2,3", GOOD + "\r\n{}\r\nB"]
    return [form.replace("{}", line) for form in forms for line in SHORT]


SPELLED = ["0", "1", "9", "+5", "-5", "-0", "+0", "-1", "00", "007", "+007", "-007", "32767", "32768", "-32767", "-32768", "-32769", "65535", "65536",
           "65537", "+65536", "131071", "-65535", "-65536", "-65537", "2147483647", "2147483648", "-2147483647", "-2147483648", "-2147483649",
           "+2147483647", "+2147483648", "4294967295", "4294967296", "4294967297", "+4294967295", "-4294967295", "-4294967296", "9999999999",
           "18446744073709551616", "340282366920938463463374607431768211456", "00000000000000000000000000000065536",
           "-00000000000000000000000002147483648", "", "+", "-", "++5", "+-5", "-+5", "--5", " 5", "5 ", "\t5", "5\0", "\0", "5\r", "\r5", "0x5",
           "5.0", "5e3", "1_0", "１", "\u0665", "\u22125", "\uff0b5", "a", "5a", "\ufeff5", "5\ufeff"]


def numbers():
    """Every spelling in each number field; two fields that can't be read."""
    forms = ["A,{},2,3,x", "A,1,{},3,x", "A,1,2,{},x", "A,1,2,{}"]
    each = [form.replace("{}", number) for form in forms for number in SPELLED]
    return each + ["A,x,y,z", "A,,,", "A,,2,3", "A,1,,3", "A,1,2,", ",,,,", "A,1,2,,x", "A,x,2,y,z", "A,-1,-1,-1", "A,65536,65536,65536"]


TAILS = ["", ",", ",,", ",,,", ",x", ",x,", ",,x", ",x,y", ",x,,y", ",x\0y", ",\0", ",\0,\0", ",x\0,y", ",,\0", ", ", ",\r", ",x\r", ",\rx", ",\r,\r",
         ", x , y ", ",\"x,y\"", ",*,*,*,*,*,*", ",名詞,一般,*,*", ",\ufeff", ",\U0001f600,\U0010ffff", ",x\ty", ",x\vy\fz", ",\u0085,\u2028", ",#x",
         ",1,2,3,4", ",,,,,,,,,", ",A,1,2,3"]


def details():
    ends = ["", "\n", "\r\n", "\nB,4,5,6,z"]
    return [f"{GOOD}{tail}{end}" for tail in TAILS for end in ends]


NAMES = paper.sized_char_def(MIXED.data).names
NEAR = ["", " ", " A", "A ", "A\t", "A\r", "\rA", "C", "b", "AAAA", "AAB", "BA", "é ", "e\u0301", "E", "漢", "字", "漢字漢字", "漢字\0", "A\0", "\0", "A\0C",
        "\ufeff", "\ufeff\ufeffA", "A\ufeff", "default", "DEFAUL", "DEFAULTS", "A\u3000", "\u3000B", "A B", "\"A", "A\"", "'A'", "0X", "0x0x", ".", "..."]


def categories():
    """Every name, and what nearly is one."""
    single = [f"{name},1,2,3,x" for name in NAMES + NEAR]
    rows = [NAMES, NAMES[::-1], NEAR + NAMES, NAMES + NAMES, [name for name in NAMES for _ in range(3)], sorted(NAMES + NEAR)]
    return single + ["".join(f"{name},{at},1,{-at},{name}\n" for at, name in enumerate(row)) for row in rows]


def orders():
    """Entries of three categories and of none, in every order."""
    names = [*product("ABZ", repeat=3), *product(["漢字", "A", "é", "Z"], repeat=2)]
    return ["".join(f"{name},{at},{at},{at},{name}{at}\n" for at, name in enumerate(row)) for row in names]


BAD = ["", "A,1,2", "A,x", "A,x,2,3", "A,1,2,3x"]


def first_bad():
    """The first bad line among several, behind good ones."""
    before = ["", GOOD + "\n", "B,1,2,3,x\r\n,4,5,6,\n"]
    pairs = [good + one + "\n" + two for good in before for one in BAD for two in BAD + [GOOD]]
    return pairs + [(GOOD + "\n") * count + bad + end for count in (1, 9, 99) for bad in BAD for end in ("\n", "\r\nA,1,2,3")]


def ill_formed():
    """3 before any line, wherever the bytes stand."""
    listed = [line.split(" ")[0].strip("-") for line in (FOLDER / "lists/utf8.txt").read_text().splitlines()]
    broken = [data for data in map(bytes.fromhex, listed) if not paper.well_formed(data)][::13] + ILL_FORMED
    around = [(b"", b""), (b"A,1,2,3,x", b"\nB,1,2,3\n"), (b"A,1\n", b",1,2,3"), ("漢字,1,2,3,名詞\n".encode(), b"\xff")]
    return [before + data + behind for data in broken for before, behind in around]


# Texts at the limits.

SHORTEST = ",0,0,0\n"


def limits():
    return [*entries(), *behind(), *text_bytes(), *long_fields()]


def entries():
    """4,096 entries and one more."""
    pieces = ["A,1,2,3\n", SHORTEST, "B,1,2,3,x\r\n"]
    each = [text(times(count, piece)) for piece in pieces for count in (4095, 4096, 4097, 4098)]
    each += [text(times(2048, "A,1,2,3\nB,4,5,6\n"), last) for last in ("", "A,1,2,3")]
    each += [text(times(1024, "Z,1,2,3\nB,4,5,6\nA,7,8,9\nB,1,1,1\n"))]
    each += [text(numbered(1, count, "A,", ",0,0\n")) for count in (4096, 4097)] + [text(numbered(1, 4096, ",0,0,-", ",x\n"))]
    return each + [text(numbered(1, 2048, "A,0,", ",0\n"), numbered(1, 2048, "B,", ",0,0,y,z\n"))]


def behind():
    """What stands behind 4,096 entries, and what stands before: within a line 23, 24, 25."""
    last = [GOOD, GOOD + "\n", "\n", "\n\n", "\r", "\r\n", "A", "A,x", "A,1,2", "A,x,2,3", "A,1,2,3x", "A,1,2,3\nA", "A,1,2,3\nA,x,2,3", "\nA,1,2,3",
            b"A,1,2,3\n\xff", b"\xe3\x81"]
    behind = [text(times(4096, SHORTEST), end) for end in last]
    inside = [text(times(count, SHORTEST), bad, "\n", times(2, SHORTEST)) for count in (999, 4094, 4095) for bad in BAD + [GOOD]]
    return behind + inside + [text(times(4095, SHORTEST), GOOD), text(times(4095, SHORTEST), GOOD + "\r"), text(times(4095, SHORTEST), GOOD + ",x\r")]


def text_bytes():
    """65,536 bytes and one more; 2 before 3 before any line."""
    each = [text(times(count, piece)) for piece in ("\n", "A", ",", "\r", b"\x80", b"\0") for count in (65536, 65537)]
    each += [text(GOOD, ",", times(count, "x")) for count in (65527, 65528, 65529)]
    each += [text(times(count, SHORTEST), last) for count, last in ((9362, ""), (9362, "\n\n"), (9362, ",0"), (9362, ",0,"), (10000, ""))]
    each += [text(times(4096, SHORTEST[:-1] + piece + "\n"), times(count, "\n")) for piece, count in ((",12345678", 0), (",1234567", 4096))]
    each += [text(times(4095, SHORTEST[:-1] + ",1234567\n"), ",0,0,0,", times(count, "z")) for count in (4103, 4104, 4105)]
    each += [text(times(4095, SHORTEST), ",0,0,0,", times(count, "y")) for count in (36863, 36864, 36865)]
    each += [text(times(32768, "\r\n")), text(times(21845, "漢"), "A"), text(times(21845, "漢"), "AA"), text(times(65536, "\n"), b"\xff")]
    each += [text(b"\xff", times(count, "\n")) for count in (65535, 65536)] + [text(times(65535, "\n"), last) for last in ("A", b"\xff", b"\xe3")]
    return each + [text(GOOD, "\n", times(65528, ",")), text(times(70000, "\n")), text(times(8192, "A,1,2,3\n")), text(times(8192, "A,1,2,3\n"), "\n")]


def long_fields():
    """A field as long as a text may be."""
    digits = [text("A,", times(65530, "0"), ",2,3"), text("A,1,", times(65530, "0"), ",3"), text("A,1,2,", times(65529, "0"), "3"),
              text("A,1,2,-", times(65528, "0"), "3"), text("A,", times(65530, "9"), ",2,3"), text("A,1,2,", times(65530, "9"))]
    names = [text(times(65530, "A"), ",1,2,3"), text(times(21843, "漢"), ",1,2,3"), text("A", times(65535, "\0")), text(times(65535, "A"), ",")]
    fields = [text(GOOD, times(count, ",")) for count in (65528, 65529, 65530)]
    fields += [text(GOOD, times(32764, ",x")), text(GOOD, ",", times(65527, "\r"), "\n"), text(GOOD, ",", times(65526, "\r"), "\n\n"),
               text(GOOD, ",", times(65528, "\0")), text(GOOD, ",", times(16382, "\U0001f600"))]
    return digits + names + fields


def over_many():
    """512 categories: each with an entry, with eight, and some with none."""
    each = [text(numbered(1, 512, "N", ",1,2,3\n")), text(numbered(257, 768, "N", ",1,2,3,x\n")), text(numbered(1, 4096, "N", ",1,2,3\n"))]
    rounds = [numbered(1, 512, "N", ",1,2,-3,y\n")] * 8
    each += [text(*rounds), text(*rounds, "N00001,1,2,3"), text(numbered(300, 512, "N", ",1,2,3\n"), numbered(1, 299, "N", ",4,5,6\n"))]
    ends = ["N00512,1,2,3\nN00001,4,5,6", "N00000,1,2,3\nN00513,4,5,6", "N00256,1,2,3\nN00257,4,5,6\nN00256,7,8,9", "N,1,2,3\nN0001,4,5,6", "", "N00512,1"]
    return each + [text(end) for end in ends] + [text(times(4096, "N00512,1,2,3\n")), text(times(2048, "N00001,1,2,3\nN00512,4,5,6\n"))]


def looked_up_many():
    """Eight entries in each of 512 categories; entries in the first, the last and none."""
    return [text(*[numbered(1, 512, "N", ",1,2,-3,y\n")] * 8), text("N00512,1,2,3,x,y\nN00000,4,5,6\nN00001,7,8,9,\n")]


def over_long():
    """A category of 16,384 bytes."""
    each = [text(times(count, "A"), ",1,2,3,x") for count in (16383, 16384, 16385)]
    return each + [text(times(16384, "A"), ",1,2,3,x\n", times(16384, "A"), ",4,5,6\n", times(16384, "A"), last) for last in ("", ",7,8,9")]


def over_marks():
    return [text("VKdRRz,1,2,3\njFVMIa,4,5,6\nWtewwG,7,8,9\nUgsAgb,1,1,1\nVKdRRz,2,2,2")]


def over_full():
    """All tables of the reading full."""
    names = paper.sized_char_def(FULL.data).names
    picked = [names[0], names[1], names[509], names[510], names[511], names[510][:-1], names[510] + "M", names[0][:-1] + "0"]
    return [text("".join(f"{name},{at},2,3,x\n" for at, name in enumerate(picked))), text(*[f"{name},1,2,3\n" for name in picked[::-1]]), text("")]


def over_few():
    """Few categories or none."""
    return [text(case) for case in ("", GOOD, "A,1,2,3\nB,4,5,6,x\nA,7,8,9\nC,1,1,1", "\n", "A,1", "A,x,2,3", ",1,2,3", b"A,1,2,3,\xff")] + [
        text(times(4096, "A,1,2,3\n")), text(times(65537, "A"))]
