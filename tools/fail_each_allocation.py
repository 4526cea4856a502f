#!/usr/bin/env python3
"""Runs the program over each example once for each allocation that it makes, with that allocation failing.

    fail_each_allocation.py [--try]

Each run must end with status 4 and write nothing, or end as the example does. The built program is run under a small library
that counts allocations (needs a C compiler). With --try the toolchain's own `rt try --fail-alloc N` is used in its place, which
compiles the program anew for each N and takes most of a minute each. Not part of the gate.
"""
import glob
import os
import subprocess
import sys
import tempfile

TOP = os.path.join(os.path.dirname(os.path.abspath(__file__)), "..")
FOLDER = os.path.join(TOP, "crates", "rowmain")
PROGRAM = os.path.join(FOLDER, "out", "rowmain")


def run(example, **environment):
    with open(example, "rb") as stdin:
        return subprocess.run([PROGRAM, "run"], stdin=stdin, capture_output=True, env={**os.environ, **environment})


def tried(example, number):
    """The statuses of a run by the toolchain's interpreter and by its checked build, and what the run wrote."""
    with open(example, "rb") as stdin:
        words = ["rt", "try", "--fail-alloc", str(number), "--", "run"]
        done = subprocess.run(words, stdin=stdin, capture_output=True, cwd=FOLDER, text=True)
    told = [line for line in done.stderr.splitlines() if line.startswith(("interpreter:", "checked:"))]
    return {line.rpartition("status=")[2] for line in told}, done.stdout


def main():
    bad = runs = without_memory = 0
    with tempfile.TemporaryDirectory() as folder:
        library, counted = os.path.join(folder, "fail.so"), os.path.join(folder, "count")
        source = os.path.join(TOP, "tools", "fail_allocation.c")
        subprocess.run(["cc", "-O2", "-shared", "-fPIC", "-o", library, source, "-ldl"], check=True)
        for example in sorted(glob.glob(os.path.join(TOP, "examples", "*.json"))):
            wanted = run(example)
            run(example, LD_PRELOAD=library, COUNT_TO=counted)
            with open(counted) as file:
                allocations = int(file.read())
            for number in range(1, allocations + 1):
                runs += 1
                if "--try" in sys.argv[1:]:
                    statuses, written = tried(example, number)
                    empty = statuses == {"4"} and written == ""
                    good = empty or (statuses == {str(wanted.returncode)} and written == wanted.stdout.decode())
                else:
                    done = run(example, LD_PRELOAD=library, FAIL_AT=str(number))
                    empty = done.returncode == 4 and done.stdout == b"" and done.stderr == b""
                    good = empty or (done.returncode, done.stdout, done.stderr) == (wanted.returncode, wanted.stdout, wanted.stderr)
                without_memory += empty
                if not good:
                    bad += 1
                    print(f"{os.path.basename(example)}: allocation {number} ends otherwise")
    print(f"{runs} runs: {without_memory} ended with status 4 and nothing written, {runs - without_memory - bad} as the example, {bad} otherwise")
    sys.exit(bad != 0)


main()
