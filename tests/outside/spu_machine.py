#!/usr/bin/env python3
"""Nearest codes of SPU-ADPCM, and floors under the error of one block, found by trying everything.

It shares nothing with the crates. What it prints stands in crates/decoder_tests/src/spu/boxes.rt. The decoder's rules are
those of PSX-SPX, "SPU ADPCM Samples"; the windows of the floors are this project's own choice (docs/FORMATS.md).
"""

import random

import spu
from brr import clamp
from window_floor import SPU, floor_of_window, spu_samples


def own_floors(head, targets):
    """For each place the floor of the window that begins there; places that are left over have none."""
    number, shift = divmod(head, 16)
    samples = spu_samples(shift)
    size = [1, 2, 3, 3, 3][number]
    floors = [0] * 28
    for first in range(0, 28 - 28 % size, size):
        window = targets[first : first + size]
        if number == 0:
            floors[first] = min((sample - window[0]) ** 2 for sample in samples)
        else:
            r, o, x = [0] * (3 - size) + window
            floors[first] = floor_of_window(SPU[number], samples, (32767, -32768), (0,), (r, o, x))
    return floors


def block_floor(first, targets):
    """The least floor over the heads that a block may have, the first of a segment or a later one."""
    return min(sum(own_floors(head, targets)) for head in range(16 if first else 80))


def raws(head, last, older):
    """The sums of sample and prediction of all codes."""
    number, shift = divmod(head, 16)
    predicted = spu.prediction(number, last, older)
    return [spu.sample(shift, code) + predicted for code in range(16)]


def nearest_rows(count):
    """Rows that differ in whether the least cost comes twice, and in whether the nearest output is clamped, or another."""
    rng = random.Random(7)
    seen, rows = {}, []
    for _ in range(200000):
        head, size = rng.randrange(80), rng.choice([50, 3000, 32768])
        last, older = rng.randrange(-size, size), rng.randrange(-size, size)
        target = rng.choice([rng.randrange(-32768, 32768), rng.randrange(-300, 300), clamp(last + rng.randrange(-200, 200))])
        sums = raws(head, last, older)
        found = [(clamp(raw) - target) ** 2 for raw in sums]
        code = found.index(min(found))
        kind = (found.count(min(found)) > 1, clamp(sums[code]) != sums[code], any(clamp(raw) != raw for raw in sums))
        if seen.get(kind, 0) < count:
            seen[kind] = seen.get(kind, 0) + 1
            rows.append((head, last, older, target, code))
    return sorted(rows)


if __name__ == "__main__":
    slope = [(i * 1977 % 9000) * (1 if i % 3 else -1) for i in range(28)]
    print("targets", slope)
    for head in (3, 13, 20, 38, 55, 76):
        floors = own_floors(head, slope)
        print(head, [sum(floors[place:]) for place in (0, 1, 2, 3, 26, 27)])
    print("of a later block", block_floor(False, slope), "of a first one", block_floor(True, slope))
    print("of 28 of 32767", block_floor(True, [32767] * 28))
    for row in nearest_rows(5):
        print("    %r," % (row,))
