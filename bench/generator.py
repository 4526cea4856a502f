#!/usr/bin/env python3
"""Compares `gen ROWS` of the proved program with the same columns and the bare loop in Rust, in one run.

    generator.py ROWS [--times N]

Both run N times (21 unless told), one after the other, whole process. Printed are the best times and their ratio. The outputs must be equal.
"""
import os
import subprocess
import sys
import tempfile
import time

HERE = os.path.dirname(os.path.abspath(__file__))
PROGRAM = os.path.join(HERE, "..", "crates", "rowmain", "out", "rowmain")


def timed(words):
    start = time.perf_counter()
    done = subprocess.run(words, stdin=subprocess.DEVNULL, capture_output=True)
    taken = time.perf_counter() - start
    if done.returncode != 0:
        sys.exit(f"{words[0]} ended with {done.returncode}")
    return taken, done.stdout


def main():
    args = sys.argv[1:]
    times = int(args[args.index("--times") + 1]) if "--times" in args else 21
    with tempfile.TemporaryDirectory() as folder:
        plain = os.path.join(folder, "generator")
        subprocess.run(["rustc", "--edition", "2024", "-C", "opt-level=3", "-C", "target-cpu=x86-64-v2",
                        os.path.join(HERE, "generator.rs"), "-o", plain], check=True)
        best, best_plain = None, None
        for _ in range(times):
            taken, ours = timed([PROGRAM, "gen", args[0]])
            best = min(taken, best or taken)
            taken, theirs = timed([plain, args[0]])
            best_plain = min(taken, best_plain or taken)
            if ours != theirs:
                sys.exit("the outputs differ")
        print(f"program {best:.4f} s; rust {best_plain:.4f} s; ratio {best / best_plain:.2f}")


main()
