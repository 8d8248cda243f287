"""Texts at document 01's limits: each one reached, one more, and what comes first where two are passed."""

from items import numbered, text, times

CATEGORY = " 1 0 2\n"
# With five digits behind it, a name of 32 bytes: 512 of them are 16,384.
PAD = "N" * 27


def limits():
    return [*categories(), *category_lines(), *name_bytes(), *ranges(), *references(), *text_bytes(), *long_lines(), *full()]


def categories():
    texts = [text(numbered(1, count, "0x41 N", "\n")) for count in (512, 513)]
    texts += [text("0x41", numbered(1, count, " N", "")) for count in (512, 513)]
    behind = ["0x41 N00001 N00512", "0x41 N00001 M", "N00512 1 1 1", "M 1 1 1", "M 1 1", "M 1 1 x", "0x41....",
              "0xFEFF M", "0x41 M\nB", "0x41 N00001 M N00002\n0x41 B", "\n\nM 1 1 1"]
    return texts + [text(numbered(1, 512, "0x41 N", "\n"), last) for last in behind]


def category_lines():
    texts = [text(numbered(1, count, "N", CATEGORY)) for count in (511, 512, 513, 514)]
    texts += [text(times(count, "A" + CATEGORY)) for count in (512, 513)]
    behind = ["A 1 0 2", "A 1 0", "A 1 0 x", "B 1 0 2", "0x41 B"]
    return texts + [text(times(512, "A" + CATEGORY), last) for last in behind]


def name_bytes():
    return [*one_long_name(), *many_names(), *long_name_and_more()]


def one_long_name():
    texts = [text(times(count, "A"), "漢 1 0 2") for count in (16381, 16382)]
    texts += [text("0x41 ", times(5461, "漢"), tail) for tail in ("A", "AA")]
    texts += [text("0x41 A ", times(16383, "B")), text("0x41 A ", times(16384, "B"), " C")]
    return texts + [text("\n\n", times(16385, "A"), CATEGORY), text(times(16385, "A"), " 1 0")]


def many_names():
    texts = [text("0x41", numbered(1, 512, " " + PAD, ""), last) for last in ("", " M")]
    texts += [text("0x41", numbered(1, 511, " " + PAD, ""), " " + 33 * "M")]
    texts += [text(numbered(1, 512, PAD, CATEGORY)), text(numbered(1, 511, PAD, CATEGORY), 33 * "M" + CATEGORY)]
    return texts + [text(numbered(1, 511, PAD, CATEGORY), 32 * "M" + CATEGORY, "0x41 M")]


def long_name_and_more():
    longest = ["0x41 ", times(16384, "A"), "\n"]
    texts = [text(*longest, "0x42 ", times(16384, "A")), text(*longest, "0x42 A"), text(*longest, "B 1 0 2")]
    texts += [text("0x41 ", times(16383, "A"), "\nB 1 0 2\n0x42 B")]
    return texts + [text("0x41 B ", times(16384, "A"), "\nB 1")]


def ranges():
    texts = [text(times(count, "0x41\n")) for count in (2047, 2048, 2049)]
    texts += [text(numbered(1, 2048, "0x", "..0xFFFF A\n")), text(numbered(1, 2049, "0x", " A\n"))]
    behind = ["# x", "A 1 0 2", "A 1 0", "0x42", "0x42 A", "0x42....", "0x42..", "0x42..FEFF", "\n\n0x42", "0x42\n0xg"]
    texts += [text(times(2048, "0x41\n"), last) for last in behind]
    both = [(2047, 8192), (2047, 8193), (2048, 8193)]
    return texts + [text(times(lines, "0x41\n"), "0x42", times(names, " A")) for lines, names in both]


def references():
    texts = [text("0x41", times(count, " A")) for count in (8191, 8192, 8193)]
    behind = ["0x41 A B C D", "0x41 A B C", "0x41 A B C D A", "0x41 A B C D\nE 1 0 2", "0x41 A B C D\n0x41", "0x41 M N O P Q"]
    texts += [text(times(2047, "0x41 A B C D\n"), last) for last in behind]
    behind = ["0x42", "0x42 A", "0x42 B", "B 1 0 2", "0x42 # A", "0xg A", "0x42 A\nB", "\n0x41\n0x41 A"]
    texts += [text("0x41", times(8192, " A"), "\n", last) for last in behind]
    texts += [text("0x41", numbered(1, 512, " N", ""), times(count, " A"), " B") for count in (7679, 7680)]
    return texts + [text("0x41", times(8192, " A"), times(513, " B")), text("0x41", times(8193, " A"), "\n0x42 B")]


def text_bytes():
    texts = [text(times(count, piece)) for piece in ("#", " ", "\n", "A", b"\x80") for count in (65536, 65537)]
    texts += [text(times(21845, piece), tail) for piece in ("\u3000", "漢") for tail in ("#", "A", "##")]
    texts += [text(head, times(21845, "漢")) for head in ("#", "##")]
    texts += [text(times(65535, "\n"), last) for last in ("A", "0", b"\xff", b"\xe3")]
    texts += [text(times(count, "\n"), "漢") for count in (65533, 65534)]
    texts += [text(times(65532, "\n"), "0x41"), text(times(65530, "\n"), "0xFEFF"), text(times(65536, "\n"), b"\xff")]
    texts += [text(b"\xff", times(count, " ")) for count in (65535, 65536)]
    texts += [text("A\n", times(count, " ")) for count in (65534, 65535)]
    texts += [text(times(70000, "\n")), text(times(16384, "\U0001f600"))]
    return texts + [text(times(65536, b"\0")), text(times(32768, "\r\n"))]


def long_lines():
    """A line as long as a text may be."""
    spaces = [text("0x41", times(65530, " "), " A"), text("A", times(65529, " "), "1 0 2 "), text(times(65532, "\t"), "0x41"),
              text(times(65532, "\v"), "0x41"), text("0x41", times(21843, "\u3000"), " A\n"), text("0x41", times(21844, "\u3000")),
              text("0x41", times(32766, "\u0085"))]
    digits = [text("A 1 0 ", times(65529, "0"), "2"), text("A 1 0 ", times(65530, "9")), text("A ", times(65530, "0"), " 1 1"),
              text("0x", times(65534, "0")), text("0x", times(65533, "0"), "g"), text("0x", times(65534, "1")),
              text("0x41..", times(65528, "0"), "43"), text("0x+", times(65531, "0"), "41")]
    signs = [text("0x", times(65534, ".")), text("0x", times(32767, "..")), text(times(32766, "0x"), "41 A"),
             text(times(32768, "0x")), text("0x41..", times(32764, "0x"), "43"), text("0x41 #", times(65530, "A"))]
    names = [text("A", times(32767, " A"), " ")]
    names += [text("A", times(count, "\u3000"), " 1 0 2") for count in (5461, 5462, 21843)]
    return spaces + digits + signs + names


def full():
    """All tables full at once, then one more of each."""
    lines = [numbered(1, 510, PAD, CATEGORY), 63 * "M" + CATEGORY, "A" + CATEGORY, times(2048, "0x41 A A A A\n")]
    behind = ["", "# x", "0x41", "0x41 A", "A 1 0 2", "B 1 0 2", "0x41 B", "0xg", "A 1 0", "A 1 0 4294967296"]
    return [text(*lines, last) for last in behind]
