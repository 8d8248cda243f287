#!/usr/bin/env python3
"""Puts a wrong rule into the stand-in for our programs, one after another: `compare` must find each, and says the smallest text that shows it.

  oracle/check_compare.py [--unk] [--seed N] [--batches N]"""

import argparse
import sys
from itertools import islice

import compare_char_def
import compare_unk
import wrong_rules
from ask import Random
from compared import stand_in
from comparing import Compared, said

# Random texts at a time, and texts at the limits.
SIZE, FEW = 500, 20
# Longer texts aren't made small here: that takes minutes.
LONG = 4_000


def arguments():
    parser = argparse.ArgumentParser(description="Holds compare against rules that are wrong in one place.")
    parser.add_argument("--unk", action="store_true", help="unk.def in place of char.def")
    parser.add_argument("--seed", type=int, default=6)
    parser.add_argument("--batches", type=int, default=4, help="of random texts; then come those at the limits")
    return parser.parse_args()


def batches(kind, seed, count):
    random = Random(seed)
    made, at_limits = kind.cases(random, SIZE * count), kind.limit_cases(random)
    for texts, size in ((made, SIZE), (at_limits, FEW)):
        while batch := list(islice(texts, size)):
            yield batch


def shown(compared, rule, texts, case, name):
    small = compared.smallest(case, name) if len(case.data) <= LONG else case
    have, want = compared.wrote(name, [small]), compared.kind.wanted([small])[0].answers[compared.kind.PROGRAMS.index(name)]
    looked = f", looked up: {', '.join(map(str, small.looked))}" if small.looked else ""
    print(f"{rule}: within {texts} texts, {small.data[:80]!r}{'..' if len(small.data) > 80 else ''}{looked}: "
          f"{said(have)[:60]}, not {said(want)[:60]}", flush=True)


def main():
    given = arguments()
    kind, rules = (compare_unk, wrong_rules.UNK) if given.unk else (compare_char_def, wrong_rules.CHAR_DEF)
    left = {rule: Compared(kind, {name: stand_in(name, rule) for name in kind.PROGRAMS}) for rule in rules}
    seen = 0
    for batch in batches(kind, given.seed, given.batches):
        if not left:
            break
        seen += len(batch)
        wanted = kind.wanted(batch)
        for rule, compared in list(left.items()):
            for case, name in compared.differing(batch, wanted, 1):
                shown(compared, rule, seen, case, name)
                del left[rule]
    print(f"{len(rules) - len(left)} of {len(rules)} wrong rules found" + (f", not found: {', '.join(left)}" if left else ""))
    return 1 if left else 0


if __name__ == "__main__":
    sys.exit(main())
