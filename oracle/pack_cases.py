"""Packs for lists/packs.txt: document 01's, every rule broken at every kind of field, each limit and one more, random ones, and damage.

A case is a pack and, where the writer's side knows it, the answer that the reader must give."""

from itertools import product
from typing import NamedTuple

import check_paper
import paper
from ask import FOLDER
from packs import Field, fields, head, name_fields, packed, range_fields, starts


class Case(NamedTuple):
    data: bytes
    wanted: object = None


def reading(names=(), definitions=(), ranges=()):
    made = paper.Reading()
    made.names, made.definitions, made.ranges = list(names), list(definitions), [(low, high, list(row)) for low, high, row in ranges]
    return made


def good(*lists):
    made = reading(*lists)
    return Case(packed(fields(made)), made)


def broken(parts, at, number=20):
    """The field at a place is the first broken one; at the end, the padding."""
    return Case(packed(parts), f"refused {number} {starts(parts)[at]}")


def having(parts, at, value):
    return [*parts[:at], parts[at]._replace(value=value), *parts[at + 1:]]


def pad_of(parts):
    """How many bits fill the last byte."""
    return -starts(parts)[-1] % 8


def pad_set(parts):
    """Every pad bit set."""
    data = packed(parts)
    return data[:-1] + bytes([data[-1] | 2**pad_of(parts) - 1])


def counted(names, definitions, ranges, references, *parts):
    """Fields behind a head that says what it likes."""
    return head(names, definitions, ranges, references) + [field for part in parts for field in part]


# Small packs.

LETTERS = ["A", "é", "漢"]
LINES = [(1, 0, 2), (0, 1, 2**32 - 1)]
SMALL = reading(LETTERS, LINES, [(0x41, 0x5A, [0]), (0x4E00, 0x9FFF, [2, 1, 0]), (0x43, 0x41, [])])
NAMELESS = reading([], [(1, 1, 7)], [(0x20, 0x20, []), (0xFFFF, 0, [])])
EIGHT = reading(["SPACE", *"BCDEFGH"], [], [(0xD7FF, 0xE000, [7, 0])])
SMALLS = [SMALL, NAMELESS, EIGHT]


def examples():
    """Document 01's packs, byte for byte, and those of its texts that are accepted."""
    said = {"": "01 00 00 00 00 00 00", "A 1 0 2": "01 00 40 10 00 00 00 00 0A 0C 00 00 00 04"}
    for text, data in said.items():
        assert packed(fields(paper.char_def(text))) == bytes.fromhex(data), text
    texts = [text for kind, text, _ in check_paper.EXAMPLES + check_paper.READINGS if kind in ("char", "rows")]
    readings = [paper.char_def(text) for text in dict.fromkeys([*said, *texts])]
    return [Case(packed(fields(one)), one) for one in readings if not isinstance(one, str)]


def unusual():
    """Accepted, though no text says some of them."""
    odd = ["\0", " ", "\n", "A B", "#", "0x41", "\ufeff", "\ufffe", "\uffff", "\ufdd0", "\x7f", "\x80", "\u07ff", "\u0800", "\ud7ff",
           "\ue000", "\U00010000", "\U0010ffff", "DEFAULT", "e\u0301", "\u3000"]
    packs = [good([name]) for name in odd] + [good(odd), good(odd, [(1, 1, 1)] * 40), good(odd, [], [(0, 0xFFFF, [*range(len(odd)), 0])])]
    lengths = [0, 1, 2, 255, 256, 65535, 65536, 2**31 - 1, 2**31, 2**32 - 2, 2**32 - 1]
    packs += [good([], [(invoke, group, length)]) for invoke in (0, 1) for group in (0, 1) for length in lengths]
    rows = [[], [0], [1], [0, 0], [1, 0, 1, 0], [0] * 100, [0, 1] * 150]
    return packs + [good(["A", "B"], [], [(low, high, row)]) for row in rows for low, high in ((0x41, 0x43), (0x43, 0x41))]


# Each rule, at each kind of field.

LIMITS = {"categories": paper.CATEGORIES, "lines": paper.CATEGORY_LINES, "ranges": paper.RANGES, "references": paper.REFERENCES}
NO_BOUNDS = [0xD800, 0xD801, 0xDBFF, 0xDC00, 0xDFFE, 0xDFFF, 0xFEFF, 0xFFFE]
BESIDE = [0, 0x41, 0xD7FF, 0xE000, 0xFEFE, 0xFF00, 0xFFFD, 0xFFFF]


def wrong_values(parts, at):
    """Values that break the rule of a field whose earlier ones keep theirs."""
    kind, width, _ = parts[at]
    says = {field.kind: field.value for field in parts[:5]}
    sum_of = sum(field.value for field in parts[:at] if field.kind == kind)
    if kind == "version":
        return [0, 2, 3, 0x10, 0x80, 0x81, 0xFE, 0xFF]
    if kind in LIMITS:
        return [LIMITS[kind] + 1, LIMITS[kind] + 2, 2**width - 1]
    if kind == "size":
        return [0, paper.NAME_BYTES - sum_of + 1, 2**width - 1]
    if kind == "name":
        return wrong_names(width // 8, [field.value for field in parts[:at] if field.kind == kind and field.width == width])
    if kind in ("lower", "upper"):
        return NO_BOUNDS
    if kind == "count":
        return [says["references"] - sum_of + 1, 2**width - 1]
    return list(range(says["categories"], 2**width))[::170] if kind == "number" else []


def wrong_names(size, earlier):
    """Ill-formed names of a size, and repeated ones."""
    front, back = [b"\x80", b"\xff", b"\xc3", b"\xc0\xaf", b"\xed\xa0\x80", b"\xf4\x90\x80\x80"], [b"\xc3", b"\xe3\x81", b"\xf0\x9f\x98", b"\x80"]
    made = [bad.ljust(size, b"A") for bad in front] + [bad.rjust(size, b"A") for bad in back]
    return [int.from_bytes(name, "big") for name in dict.fromkeys(made) if len(name) == size] + earlier[-2:]


def each_field(one):
    """Every field of a reading broken in every way."""
    parts = fields(one)
    return [broken(having(parts, at, value), at, 18 if parts[at].kind == "version" else 20)
            for at in range(len(parts)) for value in wrong_values(parts, at)]


def two_fields(one):
    """The first broken field is named, not the worse one."""
    parts = fields(one)
    breakable = [(at, wrong_values(parts, at)) for at in range(1, len(parts)) if wrong_values(parts, at)]
    pairs = [(one, two) for one in breakable for two in breakable if one[0] < two[0]][::4]
    packs = [broken(having(having(parts, two[0], two[1][-1]), one[0], one[1][0]), one[0]) for one, two in pairs]
    packs += [broken(having(having(parts, at, values[0]), 0, 2), 0, 18) for at, values in breakable[::4]]
    for at, values in breakable:
        wrong = having(parts, at, values[-1])
        packs += [Case(data, broken(wrong, at).wanted) for data in (packed(wrong) + b"\0", pad_set(wrong))]
    return packs


def versions():
    return [Case(bytes([version]) + behind, "refused 18 0") for version in (0, 2, 3, 0x11, 0x41, 0x81, 0xFE, 0xFF)
            for behind in (b"", b"\0", bytes(6), b"\xff" * 6)] + [Case(b"", "refused 19 0"), Case(b"\1", "refused 19 8")]


def cuts(one):
    """Every cut: 19 at the field that holds the first bit that is not there."""
    parts = fields(one)
    whole, places = packed(parts), starts(parts)
    return [Case(whole[:size], f"refused 19 {max(place for place in places if place <= 8 * size)}") for size in range(len(whole))]


def flag_cuts():
    """Definitions at each place in a byte, so that a pack can end before a flag."""
    packs = []
    for count in range(8):
        one = reading("ABCDEFGH"[:count], [(1, 1, 2**32 - 1)] * 2)
        packs += cuts(one)[(54 + 23 * count) // 8:]
    return packs


def set_bytes(one):
    """Every byte set to several values."""
    whole = packed(fields(one))
    found = [whole[:at] + bytes([value]) + whole[at + 1:] for at, byte in enumerate(whole)
             for value in sorted({0, 0xFF, byte ^ 0x55, (byte + 1) % 256, (byte - 1) % 256} - {byte})]
    return [Case(data) for data in found]


def flipped_bits(one):
    whole = packed(fields(one))
    number = int.from_bytes(whole, "big")
    return [Case((number ^ 1 << at).to_bytes(len(whole), "big")) for at in reversed(range(8 * len(whole)))]


def heads():
    """Each count at its limit, one more and the most that its field holds, over no body and over zero bytes, which read as names of no
    length, definitions of 0 and ranges of 0 that name nothing."""
    packs = []
    for values in product(*[(limit, limit + 1, 2**width - 1) for limit, width in zip(LIMITS.values(), (10, 10, 12, 14))]):
        parts = head(*values)
        over = [at for at, limit in enumerate(LIMITS.values(), 1) if parts[at].value > limit]
        packs += [broken(parts, over[0]) if over else Case(packed(parts), "refused 19 54")]
    packs += [Case(packed(head(*counts)) + bytes(size)) for size in (1, 5, 20, 400)
              for counts in product((0, 1, 512), (0, 1, 3, 512), (0, 1, 3, 8, 2048), (0, 1)) if any(counts)][::5]
    return packs + [Case(packed(head(0, 0, 1, 0)) + bytes(size)) for size in range(9)]


def promised():
    """A head that promises more, or less, than the body has."""
    packs = []
    for one in SMALLS:
        parts = fields(one)
        for at, limit in enumerate(LIMITS.values(), 1):
            counts = {*range(max(parts[at].value - 3, 0), parts[at].value + 4), limit - 1, limit}
            packs += [Case(packed(having(parts, at, count))) for count in sorted(counts)]
    return packs


def totals():
    """Short of the head's, where it is judged before the padding; over it at a count."""
    names, packs = [name_fields(b"A"), name_fields(b"B")], []
    for rows in ([], [0], [1], [2], [0, 0], [1, 2], [2, 0, 1], [3, 3], [0, 5, 0]):
        ranges = [range_fields(0x41, 0x43, [1] * size) for size in rows]
        for total in range(sum(rows) + 3):
            parts = counted(2, 0, len(rows), total, *names, *ranges)
            over = [at for at, field in enumerate(parts) if field.kind == "count"
                    and sum(one.value for one in parts[:at + 1] if one.kind == "count") > total]
            packs.append(broken(parts, over[0]) if over else broken(parts, len(parts)) if total > sum(rows) else Case(packed(parts)))
            if total > sum(rows):
                packs += [Case(data, packs[-1].wanted) for data in (packed(parts) + b"\0", pad_set(parts))]
    full = [range_fields(0, 0, [0] * 8192)]
    for last, size in (([], 8191), ([range_fields(0, 0, [])], 8191), ([range_fields(0, 0, [0])], 8192), ([range_fields(0, 0, [0, 0])], 8193)):
        parts = counted(1, 0, 1 + len(last), size, name_fields(b"A"), *full, *last)
        at = [at for at, field in enumerate(parts) if field.kind == "count"]
        packs.append(broken(parts, 4) if size > 8192 else broken(parts, at[0]) if size < 8192 else broken(parts, at[1]))
    return packs + [broken(counted(0, lines, 0, 1, *[[Field("length", 34, 0)]] * lines), 5 + lines) for lines in (0, 1, 2, 512)]


def paddings():
    """Every pad bit, bytes left over, and packs with nothing to pad."""
    packs = []
    for count in range(8):
        parts = fields(reading(["A"], [], [(0x41, 0x41, [0] * count)]))
        whole, place = packed(parts), starts(parts)[-1]
        pad = pad_of(parts)
        tails = [whole[:-1] + bytes([whole[-1] | 1 << bit]) for bit in range(pad)] + [pad_set(parts)] * (pad > 1)
        tails += [whole + tail for tail in (b"\0", b"\1", b"\x80", b"\xff", bytes(7), bytes(8))]
        packs += [Case(whole)] + [Case(data, f"refused 21 {place}") for data in tails]
    for one in SMALLS:
        whole, place = packed(fields(one)), starts(fields(one))[-1]
        packs += [Case(whole + tail, f"refused 21 {place}") for tail in (b"\0", whole, bytes(1000))]
    return packs + [Case(bytes.fromhex("01000000000000") + bytes(size), "refused 21 54") for size in (1, 2, 100, 40519, 65529, 69993)]


def bounds():
    """Every pair of the marks, the surrogates' ends and what stands beside them."""
    packs = []
    for lower, upper in [*product(BESIDE, BESIDE + NO_BOUNDS), *product(NO_BOUNDS, BESIDE[:2] + NO_BOUNDS[2:])]:
        parts = counted(1, 0, 1, 1, name_fields(b"A"), range_fields(lower, upper, [0]))
        places = [at for at in (7, 8) if parts[at].value in NO_BOUNDS]
        packs.append(broken(parts, places[0]) if places else good(["A"], [], [(lower, upper, [0])]))
    # The second of two ranges, at another place in its byte.
    for value in BESIDE + NO_BOUNDS:
        parts = counted(1, 0, 2, 1, name_fields(b"A"), range_fields(0, 0, [0]), range_fields(value, 0x41, []))
        packs.append(broken(parts, 11) if value in NO_BOUNDS else good(["A"], [], [(0, 0, [0]), (value, 0x41, [])]))
    return packs


def numbers():
    """Known numbers are those below the head's categories."""
    packs = []
    for count in (0, 1, 2, 3, 8, 255, 256, 257):
        names = [name_fields(name.encode()) for name in many_names(count)]
        near = {count - 1, count, count + 1, 511} if count > 8 else {0, 1, count - 1, count, count + 1, 255, 256, 510, 511}
        for number in sorted(near & set(range(512))):
            parts = counted(count, 0, 1, 2, *names, range_fields(0x41, 0x41, [number, 0]))
            first = 5 + 2 * count + 3
            packs.append(broken(parts, first) if number >= count else Case(packed(parts)))
            if count:
                parts = having(having(parts, first, 0), first + 1, number)
                packs.append(broken(parts, first + 1) if number >= count else Case(packed(parts)))
    return packs


def many_names(count):
    """Distinct names of one and two bytes."""
    return [chr(0x21 + number) for number in range(count)]


# Names.


def ill_formed():
    """Rust's and RFC 3629's examples as the name, alone and behind another; cut, they are 19."""
    lines = [line.split(" ") for line in (FOLDER / "lists/utf8.txt").read_text().splitlines()]
    texts = [(bytes.fromhex(data), int(size)) for data, size in lines if data != "-"]
    bad, fine = [data for data, size in texts if size < len(data)], [data for data, size in texts if size == len(data)]
    packs = [broken(counted(1, 0, 0, 0, name_fields(data)), 6) for data in bad[::5]]
    packs += [broken(counted(2, 0, 0, 0, name_fields("é".encode()), name_fields(data)), 8) for data in bad[1::8]]
    packs += [Case(packed(counted(1, 0, 0, 0, name_fields(data)))[:-1], "refused 19 69") for data in bad[2::16]]
    # One character over two names is in neither of them.
    packs += [broken(counted(2, 0, 0, 0, name_fields(char[:1]), name_fields(char[1:])), 6) for char in ("é".encode(), "漢".encode())]
    packs += [broken(counted(2, 0, 0, 0, name_fields(b"A"), name_fields(char[1:])), 8) for char in ("é".encode(), "漢".encode())]
    return packs + [good([data.decode()]) for data in fine[::9]]


def repeats():
    packs = []
    for names in ("AA", "ABA", "ABB", "ABCDEFGHIJA", "ABCDEFGHIJJ", "ABCDEFGHIJE"):
        packs.append(repeated_last([name.encode() for name in names]))
    for name in ("é", "漢字", "\0", "\0\0", "DEFAULT", "\U0001f600", "A" * 300, "AB" * 1000, "A" * 8192):
        packs.append(repeated_last([name.encode()] * 2))
        packs.append(repeated_last([name.encode(), b"B", name.encode()]) if len(name) < 8192 else good([name, name[1:] + "B"]))
        packs.append(good([name, "B" + name[1:]]) if name[1:] else good([name, "B"]))
    many = [name.encode() for name in many_names(512)]
    packs += [repeated_last([*many[:511], many[510]])] + [repeated_last([*many[:at], many[at - 1]]) for at in (255, 256, 257)]
    # Not the same: a prefix, another order, another case, other code points that look alike, a NUL behind.
    alike = ["A", "AA", "AAA", "AB", "BA", "a", "é", "e\u0301", "Ａ", "A\0", "\0A", "\0", "\0\0", "ABC", "ACB", "BAC", "BCA", "CAB", "CBA", "A ", " A"]
    packs += [good(alike), good(alike[::-1])] + [good(pair) for pair in product(alike, repeat=2) if pair[0] != pair[1]][::6]
    longs = ["A" * 31 + end for end in "ABCDEFGH"] + [start + "A" * 31 for start in "BCDEFGH"]
    return packs + [good(longs), repeated_last([name.encode() for name in [*longs, longs[3]]])]


def repeated_last(names):
    parts = counted(len(names), 0, 0, 0, *map(name_fields, names))
    return broken(parts, len(parts) - 1)


# Each limit, and one more.


def categories():
    names = many_names(513)
    return [good(names[:511]), good(names[:512]), broken(fields(reading(names)), 1), good(names[:512], [], [(0, 0xFFFF, range(512))])]


def name_bytes():
    packs = [good(["A" * size]) for size in (16383, 16384)] + [good(["漢" * 5461, "A"]), good(["A", "漢" * 5461]), good(["\U0001f600" * 4096])]
    for sizes in ([16385], [32767], [16384, 1], [16383, 2], [1, 16384], [8192, 8191, 2], [8192, 8193], [16384, 16384]):
        parts = counted(len(sizes), 0, 0, 0, *[name_fields(bytes([0x41 + at]) * size) for at, size in enumerate(sizes)])
        packs += [broken(parts, len(parts) - 2), Case(packed(parts)[:packed_upto(parts, -1)], broken(parts, len(parts) - 2).wanted)]
    packs += [good(["A" * 16383, "B"]), good(["A" * 8192, "B" * 8191, "C"]), good([*many_names(511), "A" * (16384 - length_of(many_names(511)))])]
    return packs


def full_names():
    """512 names of 32 bytes, and what is one byte more, or a name twice."""
    names = [f"{number:032}" for number in range(512)]
    last = 5 + 2 * 511
    packs = [good(names), broken(fields(reading([*names[:511], "A" * 33])), last), good([*names[:510], "A" * 31, "B" * 33])]
    return packs + [broken(fields(reading([*names[:511], names[at]])), last + 1) for at in (0, 1, 256, 509, 510)]


def length_of(names):
    return sum(len(name.encode()) for name in names)


def packed_upto(parts, last):
    """How many bytes hold the fields up to one."""
    return (starts(parts)[last - 1] + 7) // 8


def definitions():
    lines = [(at % 2, at // 2 % 2, at * 8388607) for at in range(513)]
    packs = [good([], lines[:size]) for size in (511, 512)] + [broken(fields(reading([], lines)), 2), good(["A"], lines[:512])]
    return packs + [good([], [(1, 1, 2**32 - 1)] * 512)]


def ranges():
    one, rising = (0x41, 0x5A, []), [(31 * at % 0xD800, 0xFEFE - at, []) for at in range(2048)]
    packs = [good([], [], [one] * size) for size in (2047, 2048)] + [broken(fields(reading([], [], [one] * 2049)), 3)]
    return packs + [good([], [], rising)]


def references():
    packs = [good(["A", "B"], [], [(0, 0xFFFF, [1] * size)]) for size in (8191, 8192)]
    packs += [broken(fields(reading(["A"], [], [(0, 0, [0] * 8193)])), 4), good(["A"], [], [(0, 0, [0] * 4)] * 2048)]
    packs += [good(["A"], [], [(0, 0, [0] * 8192), *[(0, 0, [])] * 2047]), good(["A"], [], [*[(0, 0, [])] * 2047, (0, 0, [0] * 8192)])]
    for sizes in ([4] * 2047 + [5], [4] * 2047 + [16383], [8192, 1], [8193], [16383]):
        parts = counted(1, 0, len(sizes), 8192, name_fields(b"A"), *[range_fields(0x41, 0x41, [0] * size) for size in sizes])
        packs.append(broken(parts, [at for at, field in enumerate(parts) if field.kind == "count"][-1]))
    return packs


def largest():
    """Every table full: 40,519 bytes, and what is behind them or missing."""
    names = [f"{number:03}" + "N" * 29 for number in range(512)]
    whole = good(names, [(1, 1, 2**32 - 1)] * 512, [(0xFFFF, 0xFFFF, [511] * 4)] * 2048)
    assert len(whole.data) == 40_519, len(whole.data)
    end = starts(fields(whole.wanted))[-1]
    tails = [whole.data[:-1] + bytes([whole.data[-1] | bits]) for bits in (1, 2, 3)] + [whole.data + tail for tail in (b"\0", bytes(100), b"\xff")]
    return [whole, *[Case(data, f"refused 21 {end}") for data in tails], Case(whole.data[:-1], f"refused 19 {end - 9}")]


# Random readings, and damage.

PIECES = ["A", "B", "C", "é", "漢", "字", "\U0001f600", " ", "\0", "0x", "N", "\ufeff"]


def random_bound(random):
    value = random.of([random.of(BESIDE), random.below(0x10000)])
    return 0x3042 if value in NO_BOUNDS or 0xD800 <= value <= 0xDFFF else value


def random_reading(random, most):
    """Up to `most` names, definitions and ranges."""
    names = dict.fromkeys("".join(random.of(PIECES) for _ in range(1 + random.below(5))) for _ in range(random.below(most + 1)))
    lines = [(random.below(2), random.below(2), random.of([random.below(4), random.below(2**32)])) for _ in range(random.below(most + 1))]
    rows = [[random.below(len(names)) for _ in range(random.below(6))] if names else [] for _ in range(random.below(most + 1))]
    return reading(names, lines, [(random_bound(random), random_bound(random), row) for row in rows])


def full_reading(random):
    """All limits at once, with nothing that repeats."""
    names = [f"{number:03}" + "".join(random.of("ABCDEFGHIJKLMNOP") for _ in range(29)) for number in range(512)]
    lines = [(random.below(2), random.below(2), random.below(2**32)) for _ in range(512)]
    rows = [[random.below(512) for _ in range(size)] for size in (4 + shift for _ in range(512) for shift in (-4, 4, -1, 1))]
    return reading(names, lines, [(random_bound(random), random_bound(random), row) for row in rows])


def loosened(random, parts):
    """Some fields set to anything, and perhaps the end cut or bytes behind it."""
    for _ in range(random.below(3)):
        at = random.below(len(parts))
        if parts[at].kind != "name":
            bits = parts[at].width
            near = (parts[at].value + random.below(5) - 2) % 2**bits
            parts = having(parts, at, random.of([near, random.below(2**bits), random.of(wrong_values(parts, at) or [near])]))
    data = packed(parts)
    kind = random.below(8)
    return data[:random.below(len(data))] if kind == 0 else data + bytes([random.below(4)]) if kind == 1 else data


def noise(random):
    """A small head before random bytes."""
    parts = head(*[random.below(3) for _ in range(4)], version=1 if random.below(16) else random.below(256))
    parts += [Field("size", 15, 1 + random.below(3))] * (parts[1].value > 0)
    return packed(parts) + bytes(random.below(256) for _ in range(random.below(24)))


def damage(random, data):
    """As an edit: where, how many bytes go, and what comes."""
    at = random.below(len(data))
    some = min(1 + random.below(8), len(data) - at)
    come = [bytes([data[at] ^ 1 << random.below(8)]), bytes([random.below(256)]), bytes([random.of([0, 1, 0x7F, 0x80, 0xFE, 0xFF])])]
    kind = random.below(12)
    if kind < 8:
        return at, 1, come[kind % 3]
    return [(at, some, b""), (at, 0, data[at:at + some]), (at, len(data) - at, b""), (at, some, bytes(random.below(256) for _ in range(some)))][kind - 8]


def field_damage(random, parts):
    """A field broken in a way that the writer knows, wherever it stands."""
    while True:
        at = random.below(len(parts))
        values = wrong_values(parts, at)
        if values:
            return broken(having(parts, at, random.of(values)), at, 18 if at == 0 else 20)
