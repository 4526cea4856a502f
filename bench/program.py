#!/usr/bin/env python3
"""Compares the proved program with the same job in Python, over one batch, in one run.

    program.py ROWS [--nulls] [--times N]

Both run N times (5 unless told), one after the other, whole process, input from a file and output to a file. Printed are the
best times, their ratio, and the program's peak memory as a multiple of the input. The outputs must be equal.
"""
import os
import subprocess
import sys
import tempfile
import time

HERE = os.path.dirname(os.path.abspath(__file__))
PROGRAM = os.path.join(HERE, "..", "crates", "rowmain", "out", "rowmain")


def timed(words, source, target):
    with open(source, "rb") as stdin, open(target, "wb") as stdout:
        start = time.perf_counter()
        child = subprocess.Popen(words, stdin=stdin, stdout=stdout)
        _, status, usage = os.wait4(child.pid, 0)
        taken = time.perf_counter() - start
    child.returncode = status
    if status != 0:
        sys.exit(f"{words[0]} ended with {status}")
    return taken, usage.ru_maxrss * 1024


def main():
    args = sys.argv[1:]
    times = int(args[args.index("--times") + 1]) if "--times" in args else 5
    with tempfile.TemporaryDirectory() as folder:
        batch = os.path.join(folder, "batch.json")
        ours, theirs = os.path.join(folder, "ours"), os.path.join(folder, "theirs")
        with open(batch, "wb") as file:
            flags = ["--nulls"] if "--nulls" in args else []
            subprocess.run([sys.executable, os.path.join(HERE, "make_batch.py"), args[0], *flags], stdout=file, check=True)
        best, best_python, peak = None, None, 0
        for _ in range(times):
            taken, memory = timed([PROGRAM, "run"], batch, ours)
            best, peak = min(taken, best or taken), max(peak, memory)
            taken, _ = timed([sys.executable, os.path.join(HERE, "wrapping_add.py")], batch, theirs)
            best_python = min(taken, best_python or taken)
        with open(ours, "rb") as a, open(theirs, "rb") as b:
            if a.read() != b.read():
                sys.exit("the outputs differ")
        size = os.path.getsize(batch)
        print(f"input {size} bytes; program {best:.3f} s; python {best_python:.3f} s; ratio {best / best_python:.2f}; "
              f"peak memory {peak / size:.1f} times the input")


main()
