#!/usr/bin/env python3
"""Nearest codes of BRR, and floors under the error of BRR blocks, found by trying everything.

It shares nothing with the crates. What it prints stands in crates/decoder_tests/src/brr/boxes.rt. The decoder's rules
are those of fullsnes, "BRR samples"; the windows of the floors are this project's own choice (docs/FORMATS.md).
"""

import random

import brr
from brr_floors import own_floors


def raws(head, last, older):
    """The sums of sample and prediction of all codes."""
    predicted = brr.prediction(head % 4, last, older)
    return [sample + predicted for sample in brr.samples(head // 4)]


def costs(head, last, older, target):
    """The costs of all codes."""
    return [brr.cost(brr.output(raw), target) for raw in raws(head, last, older)]


def nearest(head, last, older, target):
    """The first code of least cost."""
    found = costs(head, last, older, target)
    return found.index(min(found))


def block_floor(first, targets):
    """The least floor over the heads that a block may have, the first of a segment or a later one."""
    return min(sum(own_floors(head, targets)) for head in brr.HEADS if head % 4 == 0 or not first)


def rests(loop_block, targets):
    """The sums of the blocks' floors from each block on."""
    blocks = len(targets) // 16
    floors = [block_floor(b in (0, loop_block), targets[16 * b : 16 * b + 16]) for b in range(blocks)]
    return [sum(floors[b:]) for b in range(blocks + 1)]


def nearest_rows(count):
    """Rows that differ in whether the least cost comes twice, an output wraps, or one is clamped."""
    rng = random.Random(7)
    seen, rows = {}, []
    for _ in range(200000):
        head, size = rng.randrange(64), rng.choice([50, 1500, 16384])
        last, older = rng.randrange(-size, size), rng.randrange(-size, size)
        targets = [rng.randrange(-32768, 32768), rng.randrange(-300, 300), brr.clamp(2 * last + rng.randrange(-200, 200))]
        target = rng.choice(targets)
        sums, found = raws(head, last, older), costs(head, last, older, target)
        twice, wraps = found.count(min(found)) > 1, any(not -16384 <= raw < 16384 for raw in sums)
        kind = (twice, wraps, any(brr.clamp(raw) != raw for raw in sums))
        if seen.get(kind, 0) < count:
            seen[kind] = seen.get(kind, 0) + 1
            rows.append((head, last, older, target, nearest(head, last, older, target)))
    return sorted(rows)


if __name__ == "__main__":
    slope = [(i * 977 % 5000) * (1 if i % 3 else -1) for i in range(48)]
    print("targets", slope)
    for loop_block in (None, 1, 2):
        print("rests, loop block", loop_block, rests(loop_block, slope))
    print("rests", rests(None, [0] * 16 + [2, 6144] * 8 + [1] * 16), "of zeros, of 2 and 6144 in turn, and of ones")
    for row in nearest_rows(6):
        print("    %r," % (row,))
