#!/usr/bin/env python3
"""Nearest codes of IMA ADPCM, found by trying all sixteen.

It shares nothing with the crates. What it prints stands in crates/decoder_tests/src/ima/boxes.rt.
"""

import random

import ima
from brr import clamp


def rows(count):
    """Rows that differ in whether the least cost comes twice, in the sides of the target and of the code, and in clamping."""
    rng = random.Random(11)
    seen, found_rows = {}, set()
    for _ in range(400000):
        last, index = rng.choice([rng.randrange(-32768, 32768), 32767, -32768, 32700, -32700]), rng.randrange(89)
        target = rng.choice([rng.randrange(-32768, 32768), clamp(last + rng.randrange(-200, 200)), last])
        raws = [last + ima.difference(index, code) for code in range(16)]
        costs = [(clamp(raw) - target) ** 2 for raw in raws]
        code = costs.index(min(costs))
        kind = (costs.count(min(costs)) > 1, target > last, code > 7, clamp(raws[code]) != raws[code])
        row = (last, index, target, code)
        if seen.get(kind, 0) < count and row not in found_rows:
            seen[kind] = seen.get(kind, 0) + 1
            found_rows.add(row)
    return sorted(found_rows)


if __name__ == "__main__":
    for row in rows(2):
        print("    %r," % (row,))
