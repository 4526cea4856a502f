#!/usr/bin/env python3
"""Writes a batch of two i64 columns for `wrapping_add` to standard output.

    make_batch.py ROWS [--nulls]

The numbers have nine digits, so that 1,000,000 rows are about 20 MB. With --nulls the first column is nullable, and every
tenth value is null.
"""
import sys

rows = int(sys.argv[1])
nulls = "--nulls" in sys.argv[2:]


def values(factor, start, null_every):
    for i in range(rows):
        if null_every and i % null_every == null_every - 1:
            yield "null"
        else:
            yield str(100_000_000 + (start + factor * i) % 900_000_000)


first = ",".join(values(7_919, 11, 10 if nulls else 0))
second = ",".join(values(104_729, 97, 0))
first_type = "i64?" if nulls else "i64"
sys.stdout.write(
    f'{{"call":"wrapping_add","options":{{}},"rows":{rows},"columns":['
    f'{{"layout":"primitive","type":"{first_type}","values":[{first}]}},'
    f'{{"layout":"primitive","type":"i64","values":[{second}]}}]}}\n'
)
