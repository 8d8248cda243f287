"""How `compare` asks both sides, tells their answers apart, makes texts small, and counts."""

import subprocess
import time
from collections import Counter
from itertools import islice

from ask import FOLDER
from compared import SORTS, said

# Texts that differ: after how many of them a run ends, how many are made small and shown, where they are put, how much of each is printed.
MOST = 50
SHOWN = 3
FOUND = FOLDER.parent / "target/compare"
WIDE = 300
ROUNDS = 200
# Shorter texts are tried so many at a time.
TRIED = 40


class Compared:
    """One sort of dictionary, and the programs that read it."""

    def __init__(self, kind, commands):
        self.kind, self.commands = kind, commands

    def wrote(self, name, batch):
        data = b"".join(self.kind.records(name, case) for case in batch)
        return subprocess.run(self.commands[name], input=data, stdout=subprocess.PIPE, check=True).stdout

    def first_differing(self, name, batch, answers):
        """Where the first text stands that our program answers in another way, None if there is none: its output is all answers together."""
        wrote, at = self.wrote(name, batch), 0
        if wrote == b"".join(answers):
            return None
        for number, answer in enumerate(answers):
            if wrote[at:at + len(answer)] != answer:
                return number if number == 0 or self.wrote(name, [batch[number]]) != answer else number - 1
            at += len(answer)
        return len(batch) - 1

    def differing(self, batch, wanted, most):
        """The first texts that a program answers in another way, each with the program's name."""
        found = []
        for column, name in enumerate(self.kind.PROGRAMS):
            answers, start = [one.answers[column] for one in wanted], 0
            while len(found) < most and start < len(batch):
                number = self.first_differing(name, batch[start:], answers[start:])
                if number is None:
                    break
                found.append((batch[start + number], name))
                start += number + 1
        return found

    def smallest(self, case, name):
        """A smaller text that still differs."""
        for _ in range(ROUNDS):
            shorter = self.shorter(case, name)
            if shorter is None:
                break
            case = shorter
        return case

    def shorter(self, case, name):
        texts = sorted(dict.fromkeys(shortened(case.data)), key=len)
        tries = [case._replace(data=data) for data in texts]
        tries += [case._replace(looked=case.looked[:at] + case.looked[at + 1:]) for at in range(len(case.looked))]
        for at in range(0, len(tries), TRIED):
            batch = tries[at:at + TRIED]
            answers = [one.answers[self.kind.PROGRAMS.index(name)] for one in self.kind.wanted(batch)]
            number = self.first_differing(name, batch, answers)
            if number is not None:
                return batch[number]
        return None

    def show(self, case, name, number):
        """The smallest text goes into a file, and onto the screen as far as it is short."""
        small = self.smallest(case, name)
        have, want = self.wrote(name, [small]), self.kind.wanted([small])[0].answers[self.kind.PROGRAMS.index(name)]
        FOUND.mkdir(parents=True, exist_ok=True)
        path = FOUND / f"{number}.txt"
        path.write_bytes(small.data)
        path.with_suffix(".char.def").write_bytes(small.char_def)
        print(f"differs: {name}, {path}, {len(small.data)} bytes: {small.data[:WIDE]!r}, looked up: {small.looked}\n"
              f"  ours:   {said(have)[:WIDE]}\n  wanted: {said(want)[:WIDE]}")


def shortened(text):
    """The text without a line, and without a run of a half, a quarter .. of it."""
    lines = text.split(b"\n")
    if 1 < len(lines) <= 200:
        yield from (b"\n".join(lines[:at] + lines[at + 1:]) for at in range(len(lines)))
    size = len(text) // 2 or len(text)
    while size:
        if len(text) // size <= 400:
            yield from (text[:at] + text[at + size:] for at in range(0, len(text), size))
        size //= 2


# Figures.


class Figures:
    """For each sort of texts: how many were answered by each number, and how many show each listed difference."""

    def __init__(self, rows):
        self.rows, self.start, self.looked = rows, time.monotonic(), 0
        self.numbers = {sort: Counter() for sort in SORTS}
        self.listed = {sort: Counter() for sort in SORTS}

    def add(self, batch, wanted):
        for case, one in zip(batch, wanted, strict=True):
            self.numbers[case.sort][one.number] += 1
            self.listed[case.sort].update(one.listed)
            self.looked += len(case.looked) if one.number == 0 else 0

    def tell(self):
        total = sum(sum(counts.values()) for counts in self.numbers.values())
        print(f"{total} texts in {time.monotonic() - self.start:.0f} s, {self.looked} lookups")
        for sort in SORTS:
            counts = self.numbers[sort]
            refused = ", ".join(f"{number}: {count}" for number, count in sorted(counts.items()) if number)
            print(f"{sort}: {sum(counts.values())} texts, {counts[0]} accepted, refused: {refused}")
        for row in self.rows:
            by_sort = [self.listed[sort][row] for sort in SORTS]
            print(f"listed, {row}: {sum(by_sort)} texts ({', '.join(f'{sort} {count}' for sort, count in zip(SORTS, by_sort))})")


def compare(compared, figures, made, size):
    """Counts, and gives the texts that differ, each with the name of the program."""
    differ = []
    while len(differ) < MOST and (batch := list(islice(made, size))):
        wanted = compared.kind.wanted(batch)
        figures.add(batch, wanted)
        differ += compared.differing(batch, wanted, MOST - len(differ))
    return sorted(differ, key=lambda one: len(one[0].data))
