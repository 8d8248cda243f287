"""Seeded random texts: lines that are nearly right, made of pieces that the rules care about, and damage to texts."""

import paper
from ask import FOLDER

NAMES = ["A", "B", "C", "DEFAULT", "漢字", "A", "B", "C", "é", "0x", "A\u3000B", "A\u200b", "\ufeffA",
         "x#y", ".."]
SPACES = [" ", " ", " ", "\t", "  ", "\u3000", "\v", "\f", "\r", "\u0085", "\u00a0", "\u2003",
          "\u2028", "\u180e", "\x1c", ""]
BOUNDS = ["0x41", "0x43", "0x41..0x43", "0x30..0x50", "0x45..0x42", "0x0..0xFFFF", "0x0x41..43",
          "0x+41", "0xFEFE..0xFF00", "0xD7FF..0xE000", "0xDFFF", "0xffFD..FFFF", "0x004E00..9FFF"]
PARTS = ["0x", "0X", "x", "0", "+", "-", "..", ".", "41", "FEFF", "fffe", "D800", "FFFF", "10000",
         "g"]
NUMBERS = ["0", "1", "1", "2", "+1", "01", "4294967295", "70000"]
BAD_NUMBERS = ["4294967296", "-1", "-0", "", "+", "1.", "１", "a", "+-1", "1 1"]
COSTS = ["0", "-1", "+5", "32767", "-32769", "2147483647", "-2147483648", "-0"]
BAD_COSTS = ["2147483648", "-2147483649", "", "-", "1a", " 1", "--1"]
ENDS = ["\n"] * 40 + ["\r\n", "\r\r\n", "\r"] * 5 + ["\n\n"]


def space(random):
    return " " if random.below(8) else random.of(SPACES)


def usually(random, good, bad):
    return random.of(good if random.below(24) else bad)


def char_line(random):
    kind = random.below(16)
    if kind == 0:
        return random.of(["", " ", "\u3000", "# note", "\t#0x41 A", "\r"])
    if kind < 6:
        fields = [random.of(NAMES)] + [usually(random, NUMBERS, BAD_NUMBERS) for _ in range(3)]
    else:
        damaged = "0x" + "".join(random.of(PARTS) for _ in range(1 + random.below(4)))
        first = usually(random, BOUNDS, [damaged])
        fields = [first] + [random.of(NAMES) for _ in range(random.below(4))]
    line = "".join(field + space(random) for field in fields)
    return space(random) + line + random.of(["", "", "", "# A", "#"])


def char_text(random):
    lines = [char_line(random) + "\n" for _ in range(1 + random.below(8))]
    text = "".join(lines)
    return text if random.below(2) else text[:-1]


def unk_line(random):
    fields = [random.of(NAMES), usually(random, NUMBERS, BAD_NUMBERS),
              usually(random, NUMBERS, BAD_NUMBERS), usually(random, COSTS, BAD_COSTS)]
    fields += [random.of(["", "x", "名詞", "*", "\0", "\r", " "]) for _ in range(random.below(5))]
    return ",".join(fields if random.below(24) else fields[:random.below(4)])


def unk_text(random):
    lines = [unk_line(random) + random.of(ENDS) for _ in range(1 + random.below(6))]
    text = "".join(lines)
    return text if random.below(2) else text[:-1]


# Long char.def texts: most lines are right, so that a reading has many names and ranges.

POOL = ["DEFAULT", "SPACE", "KANJI", "漢字", "ひらがな", "é", "A", "B", "0x", "..", "A\u200b"]
POOL += [f"N{number}" for number in range(14)]
CODES = [0, 0x20, 0x41, 0x7F, 0x80, 0x3041, 0x4E00, 0xD7FF, 0xD800, 0xDFFF, 0xE000, 0xFEFE, 0xFF00,
         0xFFFD, 0xFFFF]
CODE_FORMS = ["0x{:04X}", "0x{:x}", "0x{:X}", "0x00{:04x}", "0x0x{:x}", "0x+{:X}"]
GAPS = [" ", " ", " ", "\t", "  ", "\r", "\f"]
WIDE_GAPS = GAPS + ["\u3000", "\u00a0", "\u0085", "\v", "\u2003"]


def code(random):
    return random.of(CODE_FORMS).format(random.of([random.of(CODES), random.below(0xFE00)]))


def bounds(random):
    upper = code(random) if random.below(4) else code(random).removeprefix("0x")
    return code(random) if random.below(3) == 0 else code(random) + ".." + upper


def long_line(random):
    if random.below(250) == 0:
        return char_line(random)
    kind = random.below(12)
    if kind == 0:
        return random.of(["", " ", "\u3000", "# note", "\t#0x41 A", "\r"])
    if kind < 5:
        fields, gaps = [random.of(POOL[:8] + POOL[9:])] + [random.of(NUMBERS) for _ in range(3)], GAPS
    else:
        fields, gaps = [bounds(random)] + [random.of(POOL) for _ in range(random.below(5))], WIDE_GAPS
    line = "".join(field + random.of(gaps) for field in fields)
    return line + random.of(["", "", "", "# A", "#"])


def long_text(random):
    lines = [long_line(random) for _ in range(20 + random.below(41))]
    return random.of(["\n", "\n", "\r\n"]).join(lines)


def bases(random, count):
    """Texts to damage: the sample and accepted long ones."""
    found = [(FOLDER.parent / "samples/char.def").read_bytes()]
    while len(found) <= count:
        data = long_text(random).encode()
        if not isinstance(paper.sized_char_def(data), str):
            found.append(data)
    return found


# Damage, as an edit: what stands at a place, how many bytes of it go, and the bytes that come.

TOKENS = [token.encode() for token in NAMES + SPACES + BOUNDS + PARTS + NUMBERS + BAD_NUMBERS]
TOKENS += [b"\n", b"\n", b"\r\n", b"#", b"\0", b"\xef\xbb\xbf", b"\xf0\x9f\x98\x80"]
ILL_FORMED = [b"\x80", b"\xff", b"\xc0\xaf", b"\xe3\x81", b"\xed\xa0\x80", b"\xf4\x90\x80\x80"]
DIGITS = [b"FEFF", b"fffe", b"FFFE..41", b"41..FEFF", b"D800", b"10000", b"g", b"", b"0x41", b"+41", b"-1", b"4...", b"41...."]
BYTES = list(b"\n\r\t #.+-0x1Aag\0\x80\xbf\xc2\xe3\xed\xf0\xff")


def bound_edit(random, data):
    """The four digits behind some `0x` go, and others come."""
    at = data.find(b"0x", random.below(len(data))) + 2
    return at, min(4, len(data) - at), random.of(DIGITS)


def edit(random, data, tokens=TOKENS, field_edit=bound_edit):
    """Where, how many bytes go, what comes."""
    at = random.below(len(data)) if data else 0
    some = min(1 + random.below(12), len(data) - at)
    kind = random.below(9) if data else 5
    if kind == 0:
        return at, 1, bytes([random.of(BYTES)])
    if kind == 1:
        return at, 1, bytes([random.below(256)])
    if kind == 2:
        return at, some, b""
    if kind == 3:
        return at, 0, data[at:at + some]
    if kind == 4:
        return at, len(data) - at, b""
    if kind == 5:
        return at, 0, random.of(tokens if random.below(8) else ILL_FORMED)
    if kind == 6:
        return field_edit(random, data)
    return line_edit(random, data, exchange=kind == 7)


def line_edit(random, data, exchange):
    """Two lines, at most three apart, change places; or a line goes or comes twice."""
    lines = data.split(b"\n")
    first = random.below(len(lines))
    last = min(first + 1 + random.below(3), len(lines) - 1) if exchange else first
    part = lines[first:last + 1]
    if exchange:
        part[0], part[-1] = part[-1], part[0]
    else:
        part = part * random.below(3)
    at = len(b"\n".join(lines[:first] + [b""]))
    return at, len(b"\n".join(lines[first:last + 1])), b"\n".join(part)


def spliced(data, change):
    at, gone, come = change
    return data[:at] + come + data[at + gone:]


# Files in the manner of the published dictionaries, of which pieces are damaged.


def real_files(ending):
    """The lines of each, with their ends."""
    paths = [FOLDER.parent / "samples" / ending, *sorted((FOLDER / "real").glob("*." + ending))]
    return [path.read_bytes().splitlines(keepends=True) for path in paths]


def real_text(random, files):
    """Some lines that follow one another, now and then behind some others, or a whole file."""
    lines = random.of(files)
    if random.below(60) == 0:
        return b"".join(lines)
    return (lines_of(random, lines) if random.below(3) == 0 else b"") + lines_of(random, lines)


def lines_of(random, lines):
    first = random.below(len(lines))
    return b"".join(lines[first:first + 1 + random.below(12)])


# Raw bytes: any, such as the rules care about, any characters, and tokens in any order.


def raw(random, some, tokens=TOKENS):
    kind = random.below(8)
    if kind == 0:
        return random.bytes(random.below(40))
    if kind < 4:
        return random.bytes(random.below(60)).translate((some * 256)[:256])
    if kind == 4:
        return "".join(character(random) for _ in range(random.below(12))).encode()
    return noise(random, tokens)


def character(random):
    """Any scalar value, by the length of its UTF-8."""
    code = random.below(random.of([0x80, 0x800, 0x3100, 0x10000, 0x110000]))
    return chr(code) if code < 0xD800 or code > 0xDFFF else "0x41"


def noise(random, tokens=TOKENS):
    return b"".join(random.of(tokens if random.below(80) else ILL_FORMED) for _ in range(random.below(24)))


# unk.def: long texts, noise and damage.

FIELDS = [field.encode() for field in NAMES + NUMBERS + BAD_NUMBERS + COSTS + BAD_COSTS + ["", "x", "名詞", "*", "\0", "\r", " "]]
UNK_TOKENS = FIELDS + [b"," + field for field in FIELDS] + [b",", b",", b"\n", b"\n", b"\r\n", b"\r", b",0,0,0\n", b"A,1,2,3\n"]


def long_unk_line(random):
    if random.below(250) == 0:
        return unk_line(random)
    numbers = [random.of([random.of(NUMBERS), str(random.below(2000))]) for _ in range(2)]
    cost = random.of([random.of(COSTS), str(random.below(40000) - 20000)])
    details = [random.of(["名詞", "一般", "noun", "*", "*", "", "\0"]) for _ in range(random.below(6))]
    return ",".join([random.of(NAMES + POOL), *numbers, cost, *details])


def long_unk_text(random):
    end = random.of(["\n", "\n", "\r\n"])
    lines = [long_unk_line(random) for _ in range(20 + random.below(41))]
    return end.join(lines) + random.of(["", end])


def unk_noise(random):
    return noise(random, UNK_TOKENS)


def unk_edit(random, data):
    return edit(random, data, UNK_TOKENS, comma_edit)


def comma_edit(random, data):
    """A field behind some comma goes, and another comes."""
    at = data.find(b",", random.below(len(data))) + 1
    ends = [end for end in (data.find(b",", at), data.find(b"\n", at)) if end >= 0]
    return at, min(ends, default=len(data)) - at, random.of(FIELDS)


def unk_bases(random, count, categories):
    """Texts to damage: the sample and accepted long ones."""
    found = [(FOLDER.parent / "samples/unk.def").read_bytes()]
    while len(found) <= count:
        data = long_unk_text(random).encode()
        if paper.sized_unk(categories, data).startswith("ok "):
            found.append(data)
    return found
