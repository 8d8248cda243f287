#!/usr/bin/env python3
"""Makes the files in lists/ from the built oracle. README.md has their formats."""

from itertools import product

from ask import FOLDER, Random, ask, word

SEED = 1

# Document 01, "The lines of char.def".
WHITE_SPACE = "0009-000D 0020 0085 00A0 1680 2000-200A 2028-2029 202F 205F 3000"


def write(name, lines):
    (FOLDER / "lists" / name).write_text("".join(line + "\n" for line in lines))
    print(f"{name}: {len(lines)} lines")


# numerals.txt

ASCII = [chr(byte) for byte in range(128)]
PAIRS = ["".join(pair) for pair in product("+-0x19afAFgG .", repeat=2)]
TRIPLES = ["".join(triple) for triple in product("+-0x1", repeat=3)]
ODD = ["", "+-", "-+", "++", "--", "+ 1", "- 1", "1 2", "1_0", "1,0", "1.0", "1e3", "0b1", "0o7",
       "NaN", "inf", "true", "one", "0x", "0X", "0x0X41", "0X41", "x41", "X41", "41x", "410x",
       "0x+41", "0x-0", "+0x41", "-0x41", "0x+0x41", "0x0x+0x41", "0x0x", "0x0x0", "00x41",
       "0x 41", " 0x41", "0x41 ", "0x4 1", "0x\0", "\u00a01", "1\u3000"]
FOREIGN = ["０", "１", "４１", "０ｘ４１", "0x４１", "1１", "１1", "Ａ", "ｆ", "\u0660", "\u0661\u0662",
           "1\u0660", "\u06f1", "\u0967", "\u00b2", "\u2167", "\u2212" + "1", "\uff0b" + "1",
           "\u200b1", "\ufeff" + "1", "1\ufeff", "\U0001d7cf", "é", "1é", "日本"]
ZEROS = ["0" * count for count in (1, 2, 3, 7, 8, 9, 10, 16, 31, 32, 33, 64, 100)]
THOUSAND = "0" * 1000

DECIMAL_LIMITS = [0, 1, 2, 8, 9, 10, 11, 99, 100, 255, 256, 32767, 32768, 32769, 65534, 65535,
                  65536, 65537, 99999, 429496729, 429496730, 214748364, 214748365, 2147483646,
                  2147483647, 2147483648, 2147483649, 2147483650, 2147483657, 4294967294,
                  4294967295, 4294967296, 4294967297, 4294967305, 9999999999, 21474836470,
                  42949672950, 42949672960, 18446744073709551615, 18446744073709551616,
                  340282366920938463463374607431768211456]
HEX_LIMITS = [0x0, 0x1, 0x9, 0xA, 0xF, 0x10, 0x41, 0x7F, 0x80, 0xFF, 0x100, 0xFFF, 0x1000, 0x7FFF,
              0x8000, 0xD7FF, 0xD800, 0xDBFF, 0xDC00, 0xDFFF, 0xE000, 0xFEFE, 0xFEFF, 0xFF00,
              0xFFFD, 0xFFFE, 0xFFFF, 0x10000, 0x10001, 0x1FFFF, 0xFFFF0, 0xFFFFF, 0x100000,
              0x10FFFF, 0xFFFFFFFF, 0x100000000, 0x100000041]

DECIMAL_SPELLINGS = ["{}", "+{}", "-{}", "0{}", "+0{}", "-0{}", "0000{}", "{}0", "++{}", "--{}",
                     "+-{}", "-+{}", " {}", "{} ", "+ {}", "\t{}", "{}\n", "{}+", "{}a", "0x{}"]
HEX_SPELLINGS = ["{}", "+{}", "-{}", "0{}", "0000{}", "0x{}", "0X{}", "0x0x{}", "0x0x0x{}",
                 "0x0x0x0x{}", "0x0x0x0x0x{}", "0x+{}", "0x-{}", "0x++{}", "+0x{}", "0x00{}",
                 "0x{}0", "0x{}g", " {}", "{} ", "0x {}", "x{}"]


def decimals():
    spelled = [form.format(limit) for limit in DECIMAL_LIMITS for form in DECIMAL_SPELLINGS]
    ends = ["", "7", "2147483648", "4294967295", "4294967296"]
    longest = [THOUSAND, "+" + THOUSAND + "1", THOUSAND + "4294967295", THOUSAND + "4294967296",
               "-" + THOUSAND + "2147483648", "-" + THOUSAND + "2147483649"]
    return spelled + padded(["", "+", "-"], ends) + longest


def hexes():
    cases = [digits for limit in HEX_LIMITS for digits in (f"{limit:x}", f"{limit:X}")]
    spelled = [form.format(digits) for digits in cases for form in HEX_SPELLINGS]
    longest = [THOUSAND, "0x" + THOUSAND + "ffff", "0x+" + THOUSAND + "10000", THOUSAND + "x41",
               "0x" * 500 + "41"]
    return spelled + padded(["", "0x", "0x+"], ["", "41", "x41", "ffff", "10000"]) + longest


def padded(fronts, ends):
    return [front + zeros + end for front in fronts for zeros in ZEROS for end in ends]


def random_decimals(random, count):
    signs = ["", "", "", "+", "-"]
    return [random.of(signs) + random.text("0123456789", 11) for _ in range(count)]


def random_hexes(random, count):
    fronts = ["", "0x", "0x", "0x0x", "+", "0x+"]
    return [random.of(fronts) + random.text("0123456789abcdefABCDEF", 6) for _ in range(count)]


def random_noise(random, count):
    return [random.text("+-0x19afAFgG .é１", 8) for _ in range(count)]


def ucs2_numbers():
    edges = [0, 0x80, 0x800, 0xD800, 0xDC00, 0xE000, 0xFEFF, 0x10000]
    near = {number for edge in edges for number in range(edge - 12, edge + 13)}
    steps = set(range(0, 0x10000, 0x101))
    return sorted(number for number in near | steps if 0 <= number < 0x10000)


def numeral_requests():
    random = Random(SEED)
    every = ASCII + PAIRS + TRIPLES + ODD + FOREIGN
    texts = {kind: every + decimals() + random_decimals(random, 120) + random_noise(random, 40)
             for kind in "ui"}
    texts["h"] = every + hexes() + random_hexes(random, 140) + random_noise(random, 40)
    requests = [f"{kind} {word(text)}" for kind in "uih" for text in texts[kind]]
    requests += [f"c {number:04x}" for number in ucs2_numbers()]
    return list(dict.fromkeys(requests))


def make_numerals():
    requests = numeral_requests()
    write("numerals.txt", [" ".join(pair) for pair in zip(requests, ask(requests))])


# white_space.txt


def make_white_space():
    runs = [run.upper().split("-") for run in ask(["white"])[0].split(",")]
    lines = [f"{first.zfill(4)} {last.zfill(4)}" for first, last in runs]
    said = [run.split("-") for run in WHITE_SPACE.split()]
    assert lines == [f"{run[0]} {run[-1]}" for run in said], "document 01's list"
    write("white_space.txt", lines)


# utf8.txt and utf8_runs.txt

# RFC 3629, section 7.
RFC_EXAMPLES = ["41E289A2CE912E", "ED959CEAB5ADEC96B4", "E697A5E69CACE8AA9E", "EFBBBFF0A38EB4"]
ILL_FORMED = ["80", "BF", "C080", "C0AF", "C1BF", "C1", "C2", "C27F", "C2C0", "E08080", "E09FBF",
              "E0A0", "E0A07F", "E0A0C0", "ED9F", "EDA080", "EDAFBF", "EDB080", "EDBFBF",
              "EDA081EDB081", "EFBF", "EFBFC0", "F0808080", "F08FBFBF", "F090", "F09080",
              "F090807F", "F09080C0", "F0907F80", "F48FBF", "F4908080", "F4BFBFBF", "F5808080",
              "F6", "F7BFBFBF", "F888808080", "FB", "FC8480808080", "FD", "FE", "FF", "FEFF",
              "FFFE", "8080", "80808080", "C2E0A080", "E0A0C280", "F09080E0A080", "C2C2A0",
              "E282", "E28241", "F09F98", "F09F9841"]
AROUND = [("", ""), ("41", ""), ("", "41"), ("41C3A9E697A5F0A38EB4", ""), ("C3A9", "E697A5"),
          ("F48FBFBF", "80")]
EDGES = [0, 0x7F, 0x80, 0x7FF, 0x800, 0xFFF, 0x1000, 0xCFFF, 0xD000, 0xD7FF, 0xE000, 0xFDD0, 0xFEFF,
         0xFFFD, 0xFFFE, 0xFFFF, 0x10000, 0x1FFFF, 0x3FFFF, 0x40000, 0xFFFFF, 0x100000, 0x10FFFF]
# What stands behind the two bytes of a run's text.
TAILS = {"b2": b"", "b3": b"\x80", "c3": b"\x41", "b4": b"\x80\x80", "c4": b"\x80\x41"}


def lead_ends():
    """The first and the last character of each lead byte, encoded."""
    ends = {}
    for code in list(range(0x80, 0xD800)) + list(range(0xE000, 0x110000)):
        encoded = chr(code).encode()
        ends.setdefault(encoded[0], [encoded, encoded])[1] = encoded
    return [encoded for pair in ends.values() for encoded in pair]


def cuts(encoded):
    """A character cut short, at the end of the text and before another one."""
    parts = [encoded[:length] for length in range(1, len(encoded))]
    return [part + behind for part in parts for behind in (b"", b"A")]


def utf8_texts():
    texts = [b""] + [bytes.fromhex(example) for example in RFC_EXAMPLES]
    texts += [bytes.fromhex(before + bad + behind)
              for bad in ILL_FORMED for before, behind in AROUND]
    whole = [chr(code).encode() for code in EDGES] + lead_ends()
    for encoded in whole:
        texts += [encoded, b"\xc3\xa9" + encoded + b"A"] + cuts(encoded)
    return list(dict.fromkeys(texts))


def prefix_lengths(texts):
    """The Rust's answers, held against Python's own decoder."""
    lengths = [int(answer) for answer in ask(f"utf8 {word(text)}" for text in texts)]
    for text, length in zip(texts, lengths):
        assert length == python_prefix(text), text.hex()
    return lengths


def python_prefix(text):
    try:
        return len(text.decode("utf-8", "strict").encode())
    except UnicodeDecodeError as bad:
        return bad.start


def make_utf8():
    texts = utf8_texts()
    write("utf8.txt", [f"{word(text)} {n}" for text, n in zip(texts, prefix_lengths(texts))])


def make_utf8_runs():
    lines = []
    for tag, tail in TAILS.items():
        texts = [bytes([first, second]) + tail for first in range(256) for second in range(256)]
        lengths = prefix_lengths(texts)
        for first in range(256):
            lines += runs(f"{tag} {first:02x}", lengths[256 * first:256 * first + 256])
    write("utf8_runs.txt", lines)


def runs(front, lengths):
    """Each run as long as it can be."""
    starts = [at for at in range(256) if at == 0 or lengths[at] != lengths[at - 1]]
    return [f"{front} {start:02x} {end - 1:02x} {lengths[start]}"
            for start, end in zip(starts, starts[1:] + [256])]


if __name__ == "__main__":
    make_numerals()
    make_white_space()
    make_utf8()
    make_utf8_runs()
