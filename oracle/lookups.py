"""Lookups over tables that may be damaged, from document 01's words, "Refusals by number". Every table is a list of numbers, or bytes."""

from typing import NamedTuple

NOT_SCALAR, UNKNOWN, APART = 14, 15, 26
BMP = 0x10000


class Tables(NamedTuple):
    """What a lookup of categories is lent."""
    index: list
    flat: list
    boundaries: list
    starts: list
    lengths: list
    pool: list


def is_scalar(code):
    return code <= 0x10FFFF and not 0xD800 <= code <= 0xDFFF


def located(lent, code):
    """`F` or `R` (the flat pool, the row pool), where the part begins, and the part; or `X` and the refusal's number. None where document 01
    leaves it open: boundaries out of order."""
    if not is_scalar(code):
        return "X", NOT_SCALAR, []
    if len(lent.index) not in (0, BMP):
        return "X", APART, []
    if lent.index and code < BMP:
        offset, size = divmod(lent.index[code], 256)
        return part("F", lent.flat, offset, size)
    return in_rows(lent, code)


def in_rows(lent, code):
    if not lent.boundaries or lent.boundaries[0] != 0:
        return "X", APART, []
    if any(one >= two for one, two in zip(lent.boundaries, lent.boundaries[1:])):
        return None
    row = row_number(lent.boundaries, code)
    if row >= min(len(lent.starts), len(lent.lengths)):
        return "X", APART, []
    return part("R", lent.pool, lent.starts[row], lent.lengths[row])


def row_number(boundaries, code):
    """The last boundary at or below a number."""
    return sum(boundary <= code for boundary in boundaries) - 1


def part(way, pool, start, size):
    """None for an empty part behind its pool: whether that runs past it is nobody's question."""
    if start + size > len(pool):
        return ("X", APART, []) if size else None
    return way, start, pool[start:start + size]


def packed(index, code):
    """`A`, offset and length; `N` for absent; `X` and the refusal's number."""
    if not is_scalar(code):
        return "X", NOT_SCALAR, 0
    if code >= BMP or not index:
        return "N", 0, 0
    return ("A", *divmod(index[code], 256)) if code < len(index) else ("X", APART, 0)


def flat_category(flat, at):
    return flat[at] if at < len(flat) else f"x{APART}"


def slot(categories, number):
    """Start and length of a name, None where they run past the table."""
    entry = categories[4 * number:4 * number + 4]
    return (entry[0] + 256 * entry[1], entry[2] + 256 * entry[3]) if len(entry) == 4 else None


def name(names, categories, count, number):
    """The name of a category, or the refusal."""
    if number >= count:
        return f"x{UNKNOWN}"
    place = slot(categories, number)
    if place is None or sum(place) > len(names):
        return f"x{APART}"
    return bytes(names[place[0]:sum(place)])


def definition(definitions, count, number):
    """Length in four bytes, invoke, group; a flag is true exactly at 1."""
    if number >= count:
        return f"x{UNKNOWN}"
    entry = definitions[6 * number:6 * number + 6]
    return f"x{APART}" if len(entry) < 6 else bytes([*entry[:4], entry[4] == 1, entry[5] == 1])


def number_of(names, categories, count, wanted):
    """The lowest number with a name, `-` where there is none, or the refusal."""
    if 4 * count > len(categories):
        return f"x{APART}"
    places = [slot(categories, number) for number in range(count)]
    if any(sum(place) > len(names) for place in places):
        return f"x{APART}"
    found = [bytes(names[start:start + size]) for start, size in places]
    return found.index(wanted) if wanted in found else "-"
