#!/usr/bin/env python3
"""Writes rows to measure with: make_rows.py [ROWS [KEYS]]

Records of KEYS keys (k0, k1, ..) with nearly rising times, and a watermark every 100 rows.
The same numbers give the same rows.
"""
import random
import sys

rows = int(sys.argv[1]) if len(sys.argv) > 1 else 1_000_000
keys = int(sys.argv[2]) if len(sys.argv) > 2 else 100
pick = random.Random(7)
lines = []
for i in range(rows):
    if i % 100 == 99:
        lines.append(f"w,{max(1, i // 10 - 15)}\n")
    else:
        time = max(0, i // 10 + pick.randint(-20, 60))
        lines.append(f"r,k{pick.randrange(keys)},{time},{pick.randrange(100)}\n")
sys.stdout.write("".join(lines))
