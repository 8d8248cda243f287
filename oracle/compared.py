"""What the two sorts of dictionaries that `compare` makes texts of have in common."""

import sys
from pathlib import Path
from typing import NamedTuple

from ask import FOLDER
from layout import le

LONGEST = 70_000
# Number and place.
HEAD = 9
SORTS = ("grammar", "mutated", "raw")


class Differs(Exception):
    pass


class Case(NamedTuple):
    # how the text was made
    sort: str
    data: bytes
    # what is looked up: code points, or numbers of categories and entries
    looked: tuple = ()
    # the char.def that an unk.def is read over
    char_def: bytes = b""


class Wanted(NamedTuple):
    """What our programs must write for a text: the number is 0 where it is accepted."""
    number: int
    answers: tuple
    # rows of docs/DIFFERENCES.md that the text shows
    listed: tuple = ()


def record(data):
    return le(len(data), 4) + data


def looked_record(case):
    return record(b"".join(le(number, 4) for number in case.looked))


def refusal(number, place):
    return bytes([number]) + le(place, 8)


def damaged(random, data, edit, spliced):
    for _ in range(random.below(4)):
        data = spliced(data, edit(random, data))
    return data[:LONGEST]


def said(answer):
    number, place = answer[0], int.from_bytes(answer[1:HEAD], "little")
    return f"refused {number} at {place}" if number else f"accepted, {answer[HEAD:].hex()}"


def program(name, folder=None):
    """The command that runs our program: where `rt run` and `rt ci` leave it, or in a folder of programs."""
    return [Path(folder) / name if folder else FOLDER.parent / "crates" / name / "out" / name]


def stand_in(name, *wrong):
    return [sys.executable, FOLDER / "stand_in.py", name, *wrong]
