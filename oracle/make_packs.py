#!/usr/bin/env python3
"""Makes lists/packs.txt by document 01's words alone: the Rust has no packs. README.md has its format."""

import handed_cases as handed
import pack_cases as cases
import packs
import paper
from ask import FOLDER, Random
from items import edited, spelled, text
from make_char_def import answer_words, tell
from pack_cases import Case

SEED = 6

READINGS, LOOSENED, NOISE = 120, 300, 80
BASES, EDITS, FULL_EDITS, FULL_FIELDS = 4, 75, 130, 90
# Of the accepted small packs one in so many has its tables written out; small is up to so many bytes.
WRITTEN, SMALL = 2, 64
LONGEST, LONGEST_BASE = 70_000, 40_960


def fixed():
    groups = [cases.examples(), cases.unusual(), cases.versions(), cases.heads(), cases.flag_cuts(), cases.promised(), cases.totals(), cases.paddings(),
              cases.bounds(), cases.numbers(), cases.ill_formed(), cases.repeats()]
    groups += [cases.categories(), cases.name_bytes(), cases.definitions(), cases.ranges(), cases.references()]
    return [case for group in groups for case in group]


def of_small_packs():
    """A small pack, and what is made of it."""
    groups = [[whole(one), *cases.each_field(one), *cases.cuts(one)] for one in cases.SMALLS]
    groups[0] += [*cases.two_fields(cases.SMALL), *cases.set_bytes(cases.SMALL)]
    groups[2] += cases.flipped_bits(cases.EIGHT)
    return groups


def whole(one):
    return Case(packs.packed(packs.fields(one)), one)


def random_packs(random):
    made = [cases.random_reading(random, most) for most in (2, 4, 9) for _ in range(READINGS // 3)]
    loosened = [cases.loosened(random, packs.fields(random.of(made[:2 * READINGS // 3]))) for _ in range(LOOSENED)]
    return [*map(whole, made), *map(Case, loosened), *[Case(cases.noise(random)) for _ in range(NOISE)]]


def damaged(random, one, edits, broken):
    """A pack, damage to it anywhere, and fields of it that the writer broke."""
    base, parts = whole(one), packs.fields(one)
    found = [Case(edited(base.data, cases.damage(random, base.data)).data) for _ in range(edits)]
    return [base, *found, *[cases.field_damage(random, parts) for _ in range(broken)]]


def bases(random):
    """The sample's reading, and random ones."""
    sample = paper.sized_char_def((FOLDER.parent / "samples/char.def").read_bytes())
    return [sample] + [cases.random_reading(random, 60) for _ in range(BASES)]


def answer_to(case):
    """The reader's answer; where the writer's side knows it, they must agree."""
    answer, kind = packs.judged(case.data)
    assert case.wanted is None or same(answer, case.wanted), (case.data.hex(), answer, case.wanted)
    return answer, kind


def same(one, two):
    if isinstance(one, str) or isinstance(two, str):
        return one == two
    return (one.names, one.definitions, one.ranges) == (two.names, two.definitions, two.ranges)


def rooms():
    """1 comes before all else: a pack that is accepted, empty, or refused by each number."""
    small = packs.packed(packs.fields(cases.SMALL))
    tried = [small, b"", b"\2" + small[1:], small[:-1], small[:1] + b"\xff" + small[2:], small + b"\0"]
    return [f"o {room} {text(data).words} r 1 0" for room in range(5) for data in tried]


class List:
    """Lines, each pack once."""

    def __init__(self):
        self.lines, self.seen, self.accepted, self.reached, self.base = [], set(), 0, {}, b""

    def add(self, words, case):
        answer, kind = answer_to(case)
        number = int(answer.split(" ")[1]) if isinstance(answer, str) else 0
        self.reached[number, kind] = self.reached.get((number, kind), 0) + 1
        self.accepted += not isinstance(answer, str)
        self.lines.append(f"{words} {answer_words(answer, len(case.data) <= SMALL and self.accepted % WRITTEN == 0)}")
        self.seen.add(case.data)

    def fresh(self, group):
        assert max(len(case.data) for case in group) <= LONGEST
        return [case for case in {case.data: case for case in group}.values() if case.data not in self.seen]

    def plain(self, group):
        for case in self.fresh(group):
            self.add(spelled(case.data).words, case)

    def based(self, group):
        """The first is the base, and the others are edits of it."""
        base = self.base = group[0].data
        assert len(base) <= LONGEST_BASE
        self.lines.append(spelled(base).words + " b")
        for case in self.fresh(group):
            self.add(edited(base, difference(base, case.data)).words, case)


    def handed(self, one, group):
        """Damage to the tables of the base, which the writer is handed."""
        assert self.base == packs.packed(packs.fields(one))
        self.lines += [f"{edited(self.base, (0, 0, b'')).words} {handed.line(one, changes)}" for changes in group]


def difference(base, data):
    """The smallest edit that makes the one of the other."""
    shorter = min(len(base), len(data))
    front = next((at for at in range(shorter) if base[at] != data[at]), shorter)
    back = next((at for at in range(shorter - front) if base[-1 - at] != data[-1 - at]), shorter - front)
    return front, len(base) - back - front, data[front:len(data) - back]


def check_fields(random):
    """Every way to break every field of more readings than the list has, and every cut of them."""
    for most in (1, 2, 3, 5) * 8:
        one = cases.random_reading(random, most)
        for case in [whole(one), *cases.each_field(one), *cases.cuts(one)]:
            answer_to(case)


def make():
    random, made = Random(SEED), List()
    made.plain(fixed())
    made.plain(random_packs(random))
    made.lines += rooms()
    small, *others = of_small_packs()
    made.based(small)
    one = cases.SMALL
    made.handed(one, [*handed.set_bytes(one), *handed.bounds(), *handed.counts(one), *handed.sizes(one), *handed.together()])
    for group in [*others, cases.full_names(), cases.largest()]:
        made.based(group)
    made.handed(group[0].wanted, handed.full(group[0].wanted))
    for one in bases(random):
        made.based(damaged(random, one, EDITS, EDITS // 3))
    made.based(damaged(random, cases.full_reading(random), FULL_EDITS, FULL_FIELDS))
    check_fields(random)
    tell("packs.txt", made.lines)
    tell_reached(made.reached)
    (FOLDER / "lists/packs.txt").write_text("".join(line + "\n" for line in made.lines))


def tell_reached(reached):
    """How often each kind of field is the refused one; there is none that a pack can't end inside."""
    kinds = ["version", "categories", "lines", "ranges", "references", "size", "name", "invoke", "group", "length", "lower", "upper", "count",
             "number", "total", "padding"]
    for number in (18, 19, 20, 21):
        print(f"  {number}: " + ", ".join(f"{kind} {reached[number, kind]}" for kind in kinds if (number, kind) in reached))
    assert all((19, kind) in reached for kind in kinds[:-2])


if __name__ == "__main__":
    make()
