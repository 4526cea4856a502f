#!/usr/bin/env python3
"""Compares the built program with a second reading of docs/DEFINITIONS.md, written in Python, on random batches and on `gen`.

    compare_readings.py [--program PATH] [BATCHES [SEED]]

A proof shows that the program does what its definitions state; this looks for definitions that state another thing than the document says.
It prints each difference, how often each answer came, and at last `N passed, M failed`. The exit status is 0 if none failed. The program must be
built before; without PATH it is that of crates/rowmain. Without numbers there are 4000 batches, of the seed 1. The same numbers make the same batches.
"""
import collections
import os
import random
import subprocess
import sys

TOP = os.path.join(os.path.dirname(os.path.abspath(__file__)), "..")
PROGRAM = os.path.join(TOP, "crates", "rowmain", "out", "rowmain")
sys.dont_write_bytecode = True
sys.path.insert(0, os.path.join(TOP, "tools", "second_reading"))

from answers import answers, summary  # noqa: E402
from batches import Batches  # noqa: E402


def name_of(status, written):
    return written.decode().split()[1] if status == 3 else {0: "a column", 2: "form", 8: "unbuilt"}.get(status, str(status))


def differs(program, words, data, allowed):
    """What the program answered, and whether that is none of the allowed answers."""
    done = subprocess.run([program, *words], input=data, capture_output=True, timeout=60)
    answer = (done.returncode, done.stdout)
    if answer in allowed and not done.stderr:
        return answer, False
    print(f"{words} {data!r}: {answer} and {done.stderr!r}, but {allowed}")
    return answer, True


def main():
    args = sys.argv[1:]
    program = PROGRAM
    if args[:1] == ["--program"]:
        program, args = os.path.abspath(args[1]), args[2:]
    words = [int(word) for word in args]
    count, seed = (words + [4000, 1][len(words):])[:2]
    batches = Batches(random.Random(seed))
    differences, came = [], collections.Counter()
    for _ in range(count):
        data = batches.data()
        answer, is_other = differs(program, ["run"], data, answers(data))
        came[name_of(*answer)] += 1
        differences.append(is_other)
    for rows in [*range(100), 123456, 1000000]:
        differences.append(differs(program, ["gen", str(rows)], b"", summary(rows))[1])
    print(", ".join(f"{number} times {name}" for name, number in came.most_common()))
    print(f"{len(differences) - sum(differences)} passed, {sum(differences)} failed")
    sys.exit(any(differences))


main()
