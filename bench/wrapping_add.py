#!/usr/bin/env python3
"""The job of `vetchphase run` for `wrapping_add`, in Python with the standard json module alone: the measure to compare with."""
import json
import sys

batch = json.loads(sys.stdin.buffer.read())
lhs, rhs = batch["columns"]
nullable = lhs["type"].endswith("?") or rhs["type"].endswith("?")
lines = ["i64?" if nullable else "i64"]
for a, b in zip(lhs["values"], rhs["values"]):
    if a is None or b is None:
        lines.append("null")
    else:
        lines.append(str((a + b + 2**63) % 2**64 - 2**63))
sys.stdout.write("\n".join(lines) + "\n")
