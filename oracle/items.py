"""The items that a line of lists/char_def.txt or lists/packs.txt builds its text of. README.md has them."""

from typing import NamedTuple

from ask import word
from texts import spliced


class Item(NamedTuple):
    words: str
    data: bytes


def encoded(text):
    return text.encode() if isinstance(text, str) else bytes(text)


def plain(text):
    return Item(f"t {word(text)}", encoded(text))


def times(count, text):
    return Item(f"x {count} {word(text)}", count * encoded(text))


def numbered(first, last, head, tail):
    pieces = [encoded(head) + f"{number:05}".encode() + encoded(tail) for number in range(first, last + 1)]
    return Item(f"n {first} {last} {word(head)} {word(tail)}", b"".join(pieces))


def edited(base, change):
    at, gone, come = change
    return Item(f"e {at} {gone} {word(come)}", spliced(base, change))


class Text(NamedTuple):
    """A text as the words of its line, without the answer."""
    words: str
    data: bytes


def text(*parts):
    """A text of items; bytes and strings stand for themselves."""
    parts = [part if isinstance(part, Item) else plain(part) for part in parts]
    return Text(" ".join(part.words for part in parts), b"".join(part.data for part in parts))


# What repeats is put by one item where that saves at least so many bytes; the longest piece that is looked for.
SAVED, PIECE = 16, 48


def spelled(data):
    """Bytes as few items, with a piece that repeats put by `x`."""
    parts, done, at = [], 0, 0
    while at < len(data):
        size, count = repeated(data, at)
        if (count - 1) * size < SAVED:
            at += 1
            continue
        parts += [data[done:at]] if done < at else []
        parts.append(times(count, data[at:at + size]))
        done = at = at + count * size
    return text(*parts, *([data[done:]] if done < len(data) or not parts else []))


def repeated(data, at):
    """The piece at a place that saves most, by its size, and how often it comes there."""
    found = [(size, 1 + same(data, at, at + size) // size) for size in range(1, PIECE + 1) if data[at:at + 1] == data[at + size:at + size + 1]]
    return max(found, key=lambda one: (one[1] - 1) * one[0], default=(1, 1))


def same(data, one, two):
    """How many bytes from two places on are the same."""
    size = 0
    while two + size < len(data) and data[one + size] == data[two + size]:
        size += 1
    return size
