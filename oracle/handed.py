"""Tables that are handed in with their counts: the reading that they hold, or none (26). From document 01's words, "Refusals by number"."""

import paper
from packs import is_bound

# Bytes of an entry: names, categories, definitions, ranges, references; and which of the counts says how many there are.
WIDTHS = (1, 4, 6, 8, 2)
COUNTED_BY = (4, 0, 1, 2, 3)
LIMITS = (paper.CATEGORIES, paper.CATEGORY_LINES, paper.RANGES, paper.REFERENCES, paper.NAME_BYTES)


def handed_in(tables, counts):
    """The reading in tables with their counts (categories, definitions, ranges, references, name bytes), None where they don't hold together:
    a limit is passed, a table is shorter than its count, or what it says is no reading's."""
    if any(count > limit for count, limit in zip(counts, LIMITS)):
        return None
    if any(len(table) < width * counts[by] for table, width, by in zip(tables, WIDTHS, COUNTED_BY)):
        return None
    names, categories, definitions, ranges, references = tables
    reading = paper.Reading()
    reading.names = names_of(names, entries(categories, counts[0], (2, 2)), counts[4])
    reading.definitions = definitions_of(entries(definitions, counts[1], (4, 1, 1)))
    numbers = [number for number, in entries(references, counts[3], (2,))]
    reading.ranges = ranges_of(entries(ranges, counts[2], (2, 2, 2, 2)), numbers, counts[0])
    return None if None in (reading.names, reading.definitions, reading.ranges) else reading


def entries(table, count, widths):
    """The first entries of a table, each as its numbers, the least byte first."""
    found, at = [], 0
    for _ in range(count):
        entry = []
        for width in widths:
            entry.append(int.from_bytes(table[at:at + width], "little"))
            at += width
        found.append(tuple(entry))
    return found


def one_behind_another(slots, total):
    """Parts stand in their store one behind another from 0, in order, and are all of it."""
    at = 0
    for start, size in slots:
        if start != at:
            return False
        at += size
    return at == total


def names_of(store, slots, total):
    if not one_behind_another(slots, total) or not all(size for _, size in slots):
        return None
    try:
        names = [store[start:start + size].decode("utf-8", "strict") for start, size in slots]
    except UnicodeDecodeError:
        return None
    return names if len(set(names)) == len(names) else None


def definitions_of(found):
    """A flag is 0 or 1."""
    return [(invoke, group, length) for length, invoke, group in found] if all(max(one[1:]) <= 1 for one in found) else None


def ranges_of(found, numbers, categories):
    slots = [(first, count) for _, _, first, count in found]
    bounds = [bound for lower, upper, _, _ in found for bound in (lower, upper)]
    if not one_behind_another(slots, len(numbers)) or not all(map(is_bound, bounds)) or any(number >= categories for number in numbers):
        return None
    return [(lower, upper, numbers[first:first + count]) for lower, upper, first, count in found]
