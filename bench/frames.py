#!/usr/bin/env python3
"""frames.py ARCHIVE..: the deepest stack of each exported function by its code: the frames along the longest path of calls, from objdump's listing.

A frame is the return address, what is pushed and what is taken from the stack pointer. Calls of C's library (memset, memcpy) count as named, with
their own frame left out. A call through a pointer, or a cycle of calls, would make the sum wrong and is reported."""

import collections
import re
import subprocess
import sys

EXPORTED = re.compile(r"^(twinebeetle|bench)_")


def functions(archive):
    listing = subprocess.run(["objdump", "-dr", "--no-show-raw-insn", archive], capture_output=True, text=True, check=True).stdout
    frame, calls, name, called = collections.Counter(), collections.defaultdict(set), None, False
    for line in listing.splitlines():
        if moved := re.search(r"R_X86_64_\w+\s+([^\s+-]+)", line):
            if called:
                calls[name].add(moved[1].removeprefix(".text."))
            continue
        called = bool(re.search(r"\t(call|jmp) ", line))
        if head := re.match(r"^[0-9a-f]+ <(.+)>:$", line):
            name = head[1]
            frame[name] += 8
        elif re.search(r"\tpush +%", line):
            frame[name] += 8
        elif grown := re.search(r"\tsub +\$0x([0-9a-f]+),%rsp", line):
            frame[name] += int(grown[1], 16)
        elif re.search(r"\tcall +\*", line):
            calls[name].add("(a pointer)")
    return frame, calls


def deepest(name, frame, calls, above=()):
    if name in above:
        return 0, (name, "(a cycle)")
    below = [deepest(one, frame, calls, (*above, name)) for one in calls[name] - {name}]
    depth, path = max(below, default=(0, ()))
    return frame[name] + depth, (name, *path)


def main():
    for archive in sys.argv[1:]:
        frame, calls = functions(archive)
        for name in sorted(filter(EXPORTED.match, frame)):
            depth, path = deepest(name, frame, calls)
            print(f"{name}\t{depth}\t{' > '.join(f'{one} {frame[one]}' for one in path)}")


main()
