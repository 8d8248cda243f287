#!/usr/bin/env python3
"""program.py COMMAND ARGUMENT..: what ./twinebeetle writes to standard output, by paper.py and packs.py; its status too.

The words of the refusals are docs/FORMAT.md's.
"""

import re
import sys
from pathlib import Path

import packs
import paper

FORMAT = Path(__file__).resolve().parent.parent / "docs" / "FORMAT.md"
LINES, BITS = {*range(4, 14), *range(23, 26)}, range(18, 22)
NOT_SCALAR, LAST_SCALAR, SURROGATES = 14, 0x10FFFF, range(0xD800, 0xE000)


class Stop(Exception):
    """A refusal, as the program writes it."""


def meanings():
    """The second column of the table of refusals."""
    rows = re.findall(r"^\| (\d+) \| ([^|]+) \|", FORMAT.read_text(encoding="utf-8"), re.M)
    return {int(number): words for number, words in rows}


def refused(path, number, place=0, data=b""):
    line = data[:place].count(b"\n") + 1 if number == 3 else place
    where = {3: f":{line}: byte {place}"}.get(number, f":{line}" if number in LINES else f": bit {place}" if number in BITS else "")
    shown = data.split(b"\n")[line - 1] + b"\n" if number in LINES or number == 3 else b""
    return f"{path}{where}: refused {number}: {meanings()[number]}\n".encode() + shown


def content(path):
    return sys.stdin.buffer.read() if path == "-" else Path(path).read_bytes()


def judged(path, data, answer):
    if isinstance(answer, str) and answer.startswith("refused"):
        raise Stop(refused(path, *map(int, answer.split()[1:]), data))
    return answer


def reading_of(path):
    data = content(path)
    return judged(path, data, paper.sized_char_def(data))


def unpacked(path):
    data = content(path)
    return judged(path, data, packs.read(data))


def spelled(text):
    """Control characters and backslashes by their number."""
    return re.sub(r"[\x00-\x1f\\\x7f]", lambda found: f"\\x{ord(found[0]):02X}", text)


def numbers(row):
    return "".join(f" {number}" for number in row)


def check(path):
    r = reading_of(path)
    counts = f"{len(r.names)} categories, {len(r.definitions)} definitions, {len(r.ranges)} ranges"
    return f"{path}: accepted: {counts}, {r.references()} references, {r.name_bytes()} name bytes\n"


def shown(r):
    lines = [f"category {number} {spelled(name)}" for number, name in enumerate(r.names)]
    lines += [f"definition {number}{numbers(definition)}" for number, definition in enumerate(r.definitions)]
    lines += [f"range {low:04X} {high:04X}{numbers(row)}" for low, high, row in r.ranges]
    lines += [f"row {boundary:04X}{numbers(r.at(boundary))}" for boundary in r.boundaries()]
    return "".join(line + "\n" for line in lines)


def show(path):
    return shown(reading_of(path))


def unpack(path):
    return shown(unpacked(path))


def code_of(word):
    return int(re.sub(r"^(U\+|0x)", "", word, flags=re.I), 16)


def is_scalar(code):
    return code <= LAST_SCALAR and code not in SURROGATES


def at_code(r, word):
    code = code_of(word)
    if not is_scalar(code):
        return refused(word, NOT_SCALAR)
    return f"U+{code:04X} {' '.join(spelled(r.names[number]) for number in r.at(code)) or '-'}\n".encode()


def at(path, *words):
    """A code that is no scalar value is refused by itself: the others are answered."""
    r = reading_of(path)
    written = b"".join(at_code(r, word) for word in words)
    if not all(is_scalar(code_of(word)) for word in words):
        raise Stop(written)
    return written.decode()


def pack(path, to):
    """The pack itself is written beside what is said: to standard output nothing else."""
    data = packs.packed(packs.fields(reading_of(path)))
    if to == "-":
        return data
    Path(to).write_bytes(data)
    return f"{to}: packed: {len(data)} bytes\n"


def entry_line(number, names, line):
    name, values, details = paper.unk_entry(line)
    known = spelled(name) if name in names else "-"
    shown_details = ",".join(map(spelled, details.decode().split("\0")))
    return f"entry {number} {known} {values.replace(':', ' ')}{' ' if details else ''}{shown_details}\n"


def unk(path, unk_path):
    names = reading_of(path).names
    data = content(unk_path)
    judged(unk_path, data, paper.sized_unk(names, data))
    return "".join(entry_line(number, names, line) for number, line in enumerate(paper.unk_lines(data.decode())))


COMMANDS = {"check": check, "show": show, "at": at, "pack": pack, "unpack": unpack, "unk": unk}


def main():
    command, *arguments = sys.argv[1:]
    try:
        written = COMMANDS[command](*arguments)
        sys.stdout.buffer.write(written if isinstance(written, bytes) else written.encode())
    except Stop as stop:
        sys.stdout.buffer.write(stop.args[0])
        return 1
    return 0


if __name__ == "__main__":
    sys.exit(main())
