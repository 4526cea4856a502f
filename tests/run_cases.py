#!/usr/bin/env python3
"""Runs a built program on all cases, and compares what it writes and its exit status.

    run_cases.py PROGRAM

Cases stand in cases/*.txt, those that are made (each prefix of a batch, nesting, lengths) in this file, and each NAME.json of ../examples is
one, whose output is NAME.txt. Only differences are printed, and at last `N passed, M failed`. The exit status is 0 if none failed. Anything on standard error is a difference.

A case begins with `case NAME`, and has lines of these words, each with the rest of the line behind one blank:

    words   the words after the program's name, as a JSON array; without it the one word `run`
    in      a line of standard input; several lines are joined by line feeds, and none stands behind the last
    hex     the bytes of standard input, in place of `in`
    status  the exit status; without it 0
    out     a line of standard output, which ends with a line feed

Lines that begin with `#`, and blank lines, say nothing.
"""
import glob
import json
import os
import subprocess
import sys

HERE = os.path.dirname(os.path.abspath(__file__))
FIRST = (
    '{"call":"wrapping_add","options":{},"rows":3,"columns":[{"layout":"primitive","type":"i64?","values":[1,null,3]},'
    '{"layout":"primitive","type":"i64","values":[10,20,30]}]}'
)


class Case:
    def __init__(self, name, words=("run",), data=b"", status=0, out=b""):
        self.name, self.words, self.data, self.status, self.out = name, list(words), data, status, out


def written(path):
    """The cases of a file."""
    cases, lines = [], []
    for number, line in enumerate(open(path, encoding="utf-8").read().split("\n"), 1):
        word, _, rest = line.partition(" ")
        if word == "case":
            cases.append(Case(f"{os.path.basename(path)}: {rest}"))
            lines = []
        elif word == "words":
            cases[-1].words = json.loads(rest)
        elif word == "in":
            lines.append(rest)
            cases[-1].data = "\n".join(lines).encode()
        elif word == "hex":
            cases[-1].data = bytes.fromhex(rest)
        elif word == "status":
            cases[-1].status = int(rest)
        elif word == "out":
            cases[-1].out += rest.encode() + b"\n"
        elif word and not word.startswith("#"):
            sys.exit(f"{path}:{number}: no such word: {word}")
    return cases


def examples():
    for path in sorted(glob.glob(os.path.join(HERE, "..", "examples", "*.json"))):
        with open(path, "rb") as batch, open(path.removesuffix("json") + "txt", "rb") as text:
            data, out = batch.read(), text.read()
        yield Case(f"examples/{os.path.basename(path)}", data=data, status=3 if out.startswith(b"fault ") else 0, out=out)


def with_one(column):
    """`wrapping_add` of one row of a column and 1."""
    one = '{"layout":"primitive","type":"i64","values":[1]}'
    return f'{{"call":"wrapping_add","options":{{}},"rows":1,"columns":[{column},{one}]}}'.encode()


def masks(count):
    """A constant under so many masks."""
    return '{"layout":"masked","child":' * count + '{"layout":"constant","type":"i64","value":4,"len":1}' + "}" * count


def extensions(count):
    """A constant of so many extensions around a type."""
    around = '{"ext":"vortex.timestamp","unit":"s","zone":null,"storage":'
    return '{"layout":"constant","type":' + around * count + '"i8"' + "}" * count + ',"value":4,"len":1}'


def made():
    for length in range(len(FIRST)):
        yield Case(f"the first {length} bytes of a batch", data=FIRST[:length].encode(), status=2, out=b"form\n")
    # Besides them a batch, its array of columns and the constant nest, up to 127.
    yield Case("the most masks", data=with_one(masks(124)), out=b"i64?\n5\n")
    yield Case("more masks", data=with_one(masks(125)), status=2, out=b"form\n")
    yield Case("the most extensions", data=with_one(extensions(124)), status=3, out=b"fault Dtype 0\n")
    yield Case("more extensions", data=with_one(extensions(125)), status=2, out=b"form\n")
    yield Case("the most bytes", data=b" " * 67108864, status=2, out=b"form\n")
    yield Case("one byte more", data=b" " * 67108865, status=7, out=b"long\n")


def passes(program, case):
    try:
        done = subprocess.run([program, *case.words], input=case.data, capture_output=True, timeout=60)
    except subprocess.TimeoutExpired:
        print(f"{case.name}: no answer in a minute")
        return False
    if (done.returncode, done.stdout, done.stderr) == (case.status, case.out, b""):
        return True
    print(f"{case.name}: status {done.returncode} and {done.stdout[:300]!r}{done.stderr[:300]!r}, not {case.status} and {case.out[:300]!r}")
    return False


def main():
    if len(sys.argv) != 2:
        sys.exit("usage: run_cases.py PROGRAM")
    program = os.path.abspath(sys.argv[1])
    cases = [case for path in sorted(glob.glob(os.path.join(HERE, "cases", "*.txt"))) for case in written(path)]
    results = [passes(program, case) for case in [*cases, *examples(), *made()]]
    print(f"{sum(results)} passed, {len(results) - sum(results)} failed")
    sys.exit(not all(results))


main()
