#!/usr/bin/env python3
"""Makes lists/unk.txt from the built oracle. README.md has its format."""

import layout
import paper
import unk_cases as cases
import unk_handed
from ask import FOLDER, Random, ask, word
from items import edited, plain, text, times
from texts import long_unk_text, unk_bases, unk_edit, unk_noise, unk_text

SEED = 8

SHORT, NOISE, LONG, BASES, EDITS = 300, 100, 30, 4, 90
DAMAGES = 60
# Of the first texts that are accepted one in so many has its tables written out, one in so many is looked up.
WRITTEN, LOOKED = 6, 9
LONGEST, LONGEST_BASE = 70_000, 4096

# Where only document 01 has the refusal, or has another one.
LONG_TEXT, SHORT_LINE, ENTRIES_FULL = 2, 23, 25


# Answers.


def expected(names, texts):
    """The Rust's answers, and document 01's where only it has the refusal."""
    rust = ask(f"{request('unk', names)} {word(data)}" for data in texts)
    return [judged(names, data, *pair) for data, *pair in zip(texts, rust, [paper.sized_unk(names, data) for data in texts])]


def request(kind, names):
    return f"{kind} {paper.listed(map(word, names))}"


def judged(names, data, rust, said):
    """`ok ..` or `refused NUMBER PLACE`. Where both have the answer they must agree."""
    kind, number, place, *_ = said.split(" ") + [""]
    if kind == "refused" and int(number) in (LONG_TEXT, SHORT_LINE, ENTRIES_FULL):
        assert only_ours(names, data, rust, int(number), int(place)), (data, rust, said)
        return said
    answer = "refused 3 " + rust.split(" ")[1] if rust.startswith("text ") else rust
    answer = answer if answer.startswith("ok ") else " ".join(answer.split(" ")[:3])
    assert answer == said, (data, rust, said)
    return said


def only_ours(names, data, rust, number, place):
    """The Rust has no sizes. A short line makes it panic, or it reads a number first; the line is the same."""
    if number == LONG_TEXT:
        return len(data) > paper.TEXT_BYTES
    if number == SHORT_LINE:
        return rust.startswith((f"panic {place} ", f"refused 24 {place} "))
    lines = data.split(b"\n")
    before = [b"".join(line + b"\n" for line in lines[:end]) for end in (place - 1, place)]
    answers = ask(f"{request('unk', names)} {word(part)}" for part in before)
    return place == paper.UNK_ENTRIES + 1 and all(answer.startswith("ok ") for answer in answers)


def answer_words(answer, written=False):
    if answer.startswith("refused "):
        return answer.replace("refused", "r")
    used = layout.unk_tables(answer)
    words = [*map(str, layout.unk_counts(used)), f"{layout.checksum(used, layout.UNK_ROOMS):08x}"]
    return " ".join(["w", *words, *map(word, used)] if written else ["a", *words])


# Lookups.


def looked_up(names, data):
    """Lookups at every number that the text has, and at some that it hasn't; then over tables that are cut."""
    used = layout.unk_tables(ask([f"{request('unk', names)} {word(data)}"])[0])
    numbers = asked_numbers(len(names), layout.unk_counts(used)[0])
    rust = ask([f"{request('words', names)} {word(data)} {paper.listed(numbers)}"])[0].split(" ")[1].split(",")
    tables = [table.ljust(room, b"\0") for table, room in zip(used, layout.UNK_ROOMS)]
    found = [looks(names, used, tables, number) for number in numbers]
    assert [rust_looks(one) for one in rust] == found, (data, rust, found)
    return [f"l {number} {' '.join(one)}" for number, one in zip(numbers, found)] + cut_lookups(names, used, tables)


def asked_numbers(categories, entries):
    near = [*range(min(entries, 12) + 1), entries - 1, entries, entries + 1, categories - 1, categories, categories + 1, 511, 512, 4095, 4096, 65535, 65536]
    return [number for number in dict.fromkeys([*near, 2**32 - 1]) if number >= 0]


def rust_looks(found):
    ids, entry, details = found.split("/")
    ids = "x15" if ids == "x" else word(b"".join(layout.le(number, 2) for number in layout.row_of(ids)))
    entry = "x15" if entry == "x" else word(b"".join(layout.le(int(number) % 0x10000, 2) for number in entry.split(":")))
    return ids, entry, "x15" if details == "x" else details


def looks(names, used, tables, number):
    """Document 01: 15 for a number that is unknown, 26 where the answer runs past its table."""
    entries, offsets, details, places, references = tables
    unknown = number >= layout.unk_counts(used)[0]
    first, count = number_at(places, 4 * number, 2), number_at(places, 4 * number + 2, 2)
    offset = number_at(offsets, 4 * number, 4)
    size = None if offset is None else number_at(details, offset, 4)
    ids = "x15" if number >= len(names) else "x26" if count is None else part(references, 2 * first, 2 * count)
    entry = "x15" if unknown else part(entries, 8 * number, 8)[:12]
    return ids, entry, "x15" if unknown else "x26" if size is None else part(details, offset + 4, size)


def number_at(table, at, width):
    return int.from_bytes(table[at:at + width], "little") if at + width <= len(table) else None


def part(table, at, size):
    return word(table[at:at + size]) if at + size <= len(table) else "x26"


def cut_lookups(names, used, tables):
    """Each table as long as it is used, then short of its last entry: by a byte of it and by all of it, then gone."""
    words = []
    for table, (data, width) in enumerate(zip(used, (8, 4, 1, 4, 2))):
        for length in dict.fromkeys([len(data), len(data) - width // 2 - 1, len(data) - width, 0]):
            if length >= 0:
                words += [f"f {table} {length}", *cut_lookup(names, used, tables, table, length)]
        words.append(f"f {table} {len(tables[table])}")
    return words


def cut_lookup(names, used, tables, table, length):
    cut = [data[:length] if at == table else data for at, data in enumerate(tables)]
    last = layout.unk_counts(used)[0] - 1
    # Whether an empty part can lie past its table is nobody's question.
    counts = paper.numbers_of(used[3], 2)[1::2]
    listed = [category for category, count in enumerate(counts) if count]
    numbers = [number for number in (0, last, *listed[-1:]) if number in listed or number >= len(names)]
    return [f"l {number} {' '.join(looks(names, used, cut, number))}" for number in dict.fromkeys(numbers)]


# The list.


class List:
    """Lines, over the categories of one char.def after another."""

    def __init__(self):
        self.lines, self.whole, self.names, self.accepted = [], None, [], 0

    def over(self, char_def):
        reading = paper.sized_char_def(char_def.data)
        assert not isinstance(reading, str), reading
        self.lines.append(char_def.words + " c")
        self.whole, self.names = unk_handed.handed(reading), reading.names

    def texts(self, some, written=0, looked=0):
        """Of those that are accepted one in `written` has its tables written out, one in `looked` is looked up; 0: none."""
        assert max(len(case.data) for case in some) <= LONGEST
        for case, answer in zip(some, expected(self.names, [case.data for case in some])):
            accepted = answer.startswith("ok ")
            self.accepted += accepted
            self.lines.append(f"{case.words} {answer_words(answer, written and self.accepted % written == 0)}")
            if accepted and looked and self.accepted % looked == 0:
                self.lines[-1] += " " + " ".join(looked_up(self.names, case.data))

    def base(self, data):
        assert len(data) <= LONGEST_BASE
        self.lines.append(plain(data).words + " b")

    def damaged(self, random):
        for data in unk_bases(random, BASES, self.names):
            self.base(data)
            self.texts([edited(data, unk_edit(random, data)) for _ in range(EDITS)])

    def handed(self, case, tables):
        """The text over tables that may not hold together."""
        answers = ["refused 26 0" if some.names() is None else expected(some.names(), [case.data])[0] for some in tables]
        self.lines += [f"{case.words} {some.words}{answer_words(answer)}" for some, answer in zip(tables, answers)]

    def handed_often(self, case, tables):
        """The text is the base, so that each line is short."""
        self.base(case.data)
        self.handed(edited(case.data, (0, 0, b"")), tables)

    def rooms(self, some, tables):
        """1 comes before all else."""
        self.lines += [f"o {room} {case.words} {each.words}r 1 0" for room in range(5) for case in some for each in tables]


def random_texts(random):
    short = [unk_text(random) for _ in range(SHORT)]
    return [text(case) for case in short + [unk_noise(random) for _ in range(NOISE)] + [long_unk_text(random) for _ in range(LONG)]]


# A text that is accepted, and one for each refusal that comes later.
OF_SMALL = text("B,1,2,3,x\nA,4,5,6\n漢,7,8,9\nA,1,1,1,y\né,2,2,2\nA\r,1,1,1")
LATER = [OF_SMALL, text(""), text(times(65537, "A")), text(b"A,1,2,3\n\xff"), text("A,1"), text("A,x,2,3"), text(times(4097, "A,1,2,3\n"))]


def handed_in(made, random):
    """26: tables and counts that don't hold together, and some that do though no char.def says them."""
    made.over(cases.SMALL)
    small = made.whole
    broken = small.put(unk_handed.RANGES, 0, b"\xff\xfe")
    made.rooms(LATER, [small])
    made.rooms(LATER[:3], [broken])
    for case in LATER:
        made.handed(case, [small, broken, small.counted(unk_handed.OF_CATEGORIES, 5)])
    tables = [*unk_handed.each_byte(small), *unk_handed.each_count(small), *unk_handed.each_cut(small), *unk_handed.apart(small), *unk_handed.renamed(small),
              *unk_handed.unknown_numbers(small), *unk_handed.each_bound(small, 0), *unk_handed.each_bound(small, 3)]
    made.handed_often(OF_SMALL, tables + [unk_handed.random_damage(random, small) for _ in range(DAMAGES)])
    made.over(cases.BARE)
    made.handed(text("B,1,2,3"), [*unk_handed.each_count(made.whole), *unk_handed.each_cut(made.whole)])
    made.over(cases.NONE)
    made.handed(text("A,1,2,3"), [*unk_handed.each_count(made.whole), *unk_handed.each_cut(made.whole)])


def over_full(made, random):
    """Every table of the reading full: its last entries, and damage anywhere."""
    made.over(cases.FULL)
    made.texts(cases.over_full())
    ends = [(table, room - width) for table, (room, width) in enumerate(zip(layout.ROOMS, unk_handed.WIDTHS))]
    tables = unk_handed.past_limits(made.whole)
    tables += [made.whole.put(table, at, bytes([made.whole.tables[table][at] ^ 1])) for table, at in ends]
    tables += [*unk_handed.each_cut(made.whole), *unk_handed.each_count(made.whole), *unk_handed.each_bound(made.whole, 2047), *unk_handed.unknown_numbers(made.whole)]
    made.handed(text("A,1,2,3"), tables + [unk_handed.random_damage(random, made.whole) for _ in range(DAMAGES)])


def make():
    random, made = Random(SEED), List()
    made.over(cases.MIXED)
    made.texts(list(dict.fromkeys(cases.fixed() + random_texts(random))), WRITTEN, LOOKED)
    made.texts(cases.limits())
    made.damaged(random)
    handed_in(made, random)
    few, many, long, marks = cases.over_few(), cases.over_many(), cases.over_long(), cases.over_marks()
    for char_def, some in ((cases.NONE, few), (cases.BARE, few), (cases.MANY, many), (cases.LONG, long), (cases.MARKS, marks)):
        made.over(char_def)
        made.texts(some)
    made.over(cases.MANY)
    made.texts(cases.looked_up_many(), looked=1)
    over_full(made, random)
    made.over(cases.SAMPLE)
    sample = text((FOLDER.parent / "samples/unk.def").read_bytes())
    made.texts([sample], written=1, looked=1)
    made.handed_often(sample, [unk_handed.random_damage(random, made.whole) for _ in range(DAMAGES)])
    made.damaged(random)
    tell(made.lines)
    (FOLDER / "lists/unk.txt").write_text("".join(line + "\n" for line in made.lines))


def tell(lines):
    """How often each answer comes."""
    kinds = {}
    for line in lines:
        words = line.split(" l ")[0].split(" ")
        ends = [at for at, item in enumerate(words) if item in ("a", "w", "r", "b", "c")]
        kind = "r " + words[ends[-1] + 1] if words[ends[-1]] == "r" else words[ends[-1]]
        kinds[kind] = kinds.get(kind, 0) + 1
    print(f"unk.txt: {len(lines)} lines, {sum(line.count(' l ') for line in lines)} lookups: "
          + ", ".join(f"{kind}: {count}" for kind, count in sorted(kinds.items())))


if __name__ == "__main__":
    make()
