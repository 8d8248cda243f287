#!/usr/bin/env python3
"""Makes lists/char_def.txt from the built oracle. README.md has its format."""

from itertools import product

import check_paper
import layout
import paper
from ask import FOLDER, Random, ask, word
from items import edited, plain, text, times
from limits import limits
from texts import bases, char_text, edit, long_text, noise

SEED = 3

SHORT, LONG, NOISE, BASES, EDITS = 600, 50, 120, 6, 120
WRITTEN = 12
LONGEST = 70_000

# Unicode's White_Space, and what looks like it.
WHITE = list(paper.WHITE.replace("\n", ""))
NOT_WHITE = list("\0\x1c\x1d\x1e\x1f\u180e\u200b\u200c\u2060\ufeff\u00ad\u3001")


def spaces():
    """White space, or nearly, at each place of either kind of line."""
    forms = ["{}A 1 0 2", "A{}1 0 2", "A 1 0{}2", "A 1 0 2{}", "{}0x41 A", "0x41{}A", "0x41 A{}B", "0x41 A{}",
             "0x{}41 A", "0x41..{}43 A", "{}", "{}# x", "A{}B 1 0 2\n0x41 A{}B", "0{}x41 A"]
    return [form.replace("{}", c) for c in WHITE + NOT_WHITE for form in forms]


def line_ends():
    """What ends a line and what only looks like it."""
    ends = ["\n", "\r\n", "\n\r", "\r", "\r\r\n", "\n\n", "\v", "\f", "\u0085", "\u2028", "\u2029", "\n\n\n", "\0\n"]
    lines = [("A 1 0 2", "0x41 A"), ("0x41 A", "B 0 1 3"), ("0x41 A # x", "0x42 B"), ("0x41", "A")]
    return [one + end + two + last for one, two in lines for end in ends for last in ("", end)]


def range_fields():
    """Every pair of bounds that the rules tell apart, and dots in all arrangements."""
    lower = ["0x41", "0x0x41", "0x+41", "0x", "0xg", "0x10000", "0xFEFF", "0xfffe", "0xD800", "0xFFFF", "0x0x", "0x-1"]
    upper = ["43", "0x43", "0x0x43", "+43", "0x+43", "+0x43", "0X43", "-1", "", "g", "4g", "10000", "FEFF", "feff",
             "0xFFFE", "fFfE", "DFFF", "d800", "0", "0000000000FFFF", "４３"]
    pairs = [f"{low}..{high} A" for low in lower for high in upper] + [f"{low} A" for low in lower]
    dots = ["".join(parts) for count in range(6) for parts in product([".", "4"], repeat=count)]
    odd = ["..43 A", "... A", ".. A", "..", "...", "0X41 A", "00x41 A", "x41 A", "0x41..0x42..0x43 A", "0x41..43..g A",
           "0xg....g", "0xFEFF....", "0x41,0x43 A", "0x41-0x43 A", "0x41..43# A", "0x41#..43 A", "0x#41", "0#x41 A",
           "0xFEFE..0xFF00 A", "0xFFFD..0xFFFF A", "0xD7FF..0xE000 A", "0xDBFF..0xDC00 A", "0xE000..0xD7FF A"]
    return pairs + ["0x" + spelled + " A" for spelled in dots] + odd


def category_fields():
    numbers = ["0", "1", "2", "+1", "01", "+01", "4294967295", "4294967296", "4294967297", "-0", "-1", "+", "++1", "1.0",
               "0x1", "a", "1a", "１", "18446744073709551617"]
    places = ["A {} 0 2", "A 1 {} 2", "A 1 0 {}"]
    fields = ["A", "A 1", "A 1 0", "A 1 0 2", "A 1 0 2 3", "A 1 0 2 3 4", "A a", "A 1 0 2 # 3", "A 1 0 # 2", "A 1 0 2#",
              "1 1 1 1", "+ 1 1 1", "A x y z", "A 1 y z", "A 1 0 z", "A\t1\f0\r2", "A,1,0,2", "A  1 \t 0\r\r2"]
    return [place.replace("{}", number) for place in places for number in numbers] + fields


def comments():
    """`#` at each place."""
    lines = ["A 1 0 2", "0x41..43 A B", "漢字 1 1 0"]
    return [line[:at] + "#" + line[at:] for line in lines for at in range(len(line) + 1)] + ["#", "##", " #\n#", "# 0x41 A"]


def names():
    """Numbers in order of first sight in either kind of line, and definitions in the order of category lines."""
    return ["0x41 A A", "0x41 A B A B", "0x41 B A\n0x41 A C", "0x41 B\nA 1 0 2\nB 0 1 3", "A 1 0 2\nA 0 1 3",
            "A 1 0 2\nA 0 1 3\n0x41 A", "DEFAULT 0 1 0", "0x41\nDEFAULT 0 1 0", "0x41 DEFAULT", "0x41\n0x42 DEFAULT\n0x43",
            "DEFAULT 0 1 0\nDEFAULT 1 0 1\n0x41 DEFAULT DEFAULT", "default 1 1 1\n0x41 Default DEFAULT", "0x41 0x42 0x43",
            "A 1 0 2\n0x41 B\nC 0 0 0\n0x41 C A B D\nD 1 1 1", "é 1 0 2\n0x41 é e\u0301", "0x41 A a\nＡ 1 0 2",
            "A\u3000B 1 0 2\n0x41 A\u3000B", "A\u00a0 1 0 2\n0x41 A", "A\v1 1 0 2\n0x41 A", "A\u0085B 1 0 2",
            "0x41 .. ... #", "0x41 AB A B ABA", "0x41 A\nAB 1 0 2\n0x42 AB A", "A 1 0 2\nB 1 0 2\n0x41 B A\n0x42 A B",
            "0x43..0x41 A", "0x43..0x42", "0xFFFF A", "0x0..0xFFFF A", "0x0 A", "0xFFFF..0x0", "0xD800..0xDFFF A",
            "\ufeff0x41 A", "\ufeffA 1 0 2", "\ufeff", "\ufeff#", "\0", "\0 1 0 2\n0x41 \0", "0x41 \U0001f600 \U0010ffff"]


BAD = ["0x41....43 A", "0x41...43 A", "0xFFFE A", "A 1 0", "A 1 0 x"]


def first_bad():
    """The first bad line among several, behind good ones of each kind."""
    good = ["", "A 1 0 2\n0x41 A\n", "# x\n\n0x41 B A\n"]
    pairs = [before + one + "\n" + two for before in good for one in BAD for two in BAD + ["B 1 1 1"]]
    return pairs + ["A 1 0 2\n" * count + bad + end for count in (1, 9, 99) for bad in BAD for end in ("", "\n", "\r\n#")]


def ill_formed():
    """3 before any line, wherever the bytes stand."""
    listed = [line.split(" ")[0].strip("-") for line in (FOLDER / "lists/utf8.txt").read_text().splitlines()]
    broken = [data for data in map(bytes.fromhex, listed) if str(paper.sized_char_def(data)).startswith("refused 3 ")][::9]
    around = [(b"", b""), (b"A 1 0 2\n0x41 A", b" 1 0 2\n"), (b"A 1\n# ", b"\n0x41 A"), ("漢字 1 0 2\n".encode(), b"\xff")]
    return [before + data + behind for data in broken for before, behind in around]


def random_texts(random):
    short = [char_text(random) for _ in range(SHORT)]
    return short + [noise(random) for _ in range(NOISE)] + [long_text(random) for _ in range(LONG)]


def rooms():
    """1 comes before all else: a text that is accepted, too long, ill-formed, or has a bad line."""
    texts = [text("A 1 0 2\n0x41 A"), text(""), text(times(65537, "#")), text(b"A\xff"), text("A 1 0")]
    return [f"o {room} {short.words} r 1 0" for room in range(5) for short in texts]


def fixed():
    known = [case for kind, case, _ in check_paper.EXAMPLES + check_paper.READINGS if kind in ("char", "rows")]
    groups = [known, spaces(), line_ends(), range_fields(), category_fields(), comments(), names(), first_bad(), ill_formed()]
    return [case for group in groups for case in group]


# Answers.


def expected(texts):
    """The Rust's answers, and document 01's where only it has the refusal."""
    rust = ask(f"char {word(data)}" for data in texts)
    return [judged(data, *pair) for data, *pair in zip(texts, rust, map(paper.sized_char_def, texts))]


def judged(data, rust, said):
    """A reading or `refused NUMBER PLACE`. Where both have the answer they must agree."""
    if isinstance(said, str) and int(said.split(" ")[1]) in (2, 9, 10, 11, 12, 13):
        assert said == "refused 2 0" or before_is_good(data, int(said.split(" ")[2])), said
        return said
    if rust.startswith("ok "):
        reading = layout.reading_of(rust)
        assert layout.within(reading) and layout.tables(reading) == layout.tables(said), data
        return reading
    answer = "refused 3 " + rust.split(" ")[1] if rust.startswith("text ") else " ".join(rust.split(" ")[:3])
    assert answer == said, (data, rust, said)
    return answer


def before_is_good(data, place):
    """The Rust accepts the lines before a limit is passed, and they are within the limits."""
    before = b"".join(line + b"\n" for line in data.split(b"\n")[:place - 1])
    answer = ask([f"char {word(before)}"])[0]
    return answer.startswith("ok ") and layout.within(layout.reading_of(answer))


def answer_words(answer, written=False):
    if isinstance(answer, str):
        return answer.replace("refused", "r")
    used = layout.tables(answer)
    words = [*map(str, layout.counts(answer)), f"{layout.checksum(used):08x}"]
    return " ".join(["w", *words, *map(word, used)] if written else ["a", *words])


def damaged(random):
    """A base, then edits of it."""
    lines = []
    for data in bases(random, BASES):
        edits = [edited(data, edit(random, data)) for _ in range(EDITS)]
        answers = map(answer_words, expected([change.data for change in edits]))
        lines += [plain(data).words + " b", *map(" ".join, zip([change.words for change in edits], answers))]
    return lines


def make():
    random = Random(SEED)
    plains = list(dict.fromkeys(text(case) for case in fixed() + random_texts(random)))
    cases = plains + limits()
    assert max(len(case.data) for case in cases) <= LONGEST
    answers = expected([case.data for case in cases])
    # Tables are written out for some short texts of every sort.
    written = [at % WRITTEN == 0 and at < len(plains) for at in range(len(cases))]
    lines = [f"{case.words} {answer_words(*pair)}" for case, *pair in zip(cases, answers, written)]
    lines += rooms() + damaged(random)
    tell("char_def.txt", lines)
    (FOLDER / "lists/char_def.txt").write_text("".join(line + "\n" for line in lines))


def tell(name, lines):
    """How often each answer comes."""
    kinds = {}
    for line in lines:
        words = line.split(" ")
        ends = [at for at, item in enumerate(words) if item in ("a", "w", "r", "b", "f", "p")]
        kind = "r " + words[ends[-1] + 1] if words[ends[-1]] == "r" else words[ends[-1]]
        kinds[kind] = kinds.get(kind, 0) + 1
    print(f"{name}: {len(lines)} lines: " + ", ".join(f"{kind}: {count}" for kind, count in sorted(kinds.items())))


if __name__ == "__main__":
    make()
