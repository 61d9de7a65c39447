"""Floors of windows, worked out by trying every sample, rounding and wrap.

Prints seeded cases for all seven filters, under shift 6 of BRR and shift 4 of SPU-ADPCM: the filter, the targets in
order, and the floor. The numbers of the filters and the rule are those of docs/FORMATS.md; nothing here is shared with the
program.
"""

import random

import brr

# D, A, B, bias, M, scale
BRR = {1: (16, 15, 0, 0, 15, 2), 2: (32, 61, -30, 0, 61, 2), 3: (64, 115, -52, 0, 123, 2)}
SPU = {1: (64, 60, 0, 32, 63, 1), 2: (64, 115, -52, 32, 63, 1), 3: (64, 98, -55, 32, 63, 1), 4: (64, 122, -60, 32, 63, 1)}
NIBBLES = list(range(8)) + list(range(-8, 0))


def spu_samples(shift):
    """What the codes of SPU-ADPCM stand for under a shift, in order."""
    return [n * 4096 // 2 ** (shift if shift <= 12 else 9) for n in NIBBLES]


def floor_of_window(row, samples, ends, wraps, targets):
    """The floor of one window of three targets, the oldest first."""
    d, a, b, bias, most, scale = row
    r, o, x = targets
    rho = d * x - a * o - b * r
    miss = min(
        abs(rho - scale * (d * sample + bias - e - d * 32768 * w))
        for sample in samples
        for e in range(most + 1)
        for w in wraps
    )
    norm = d * d + a * a + b * b
    shared = -(-miss * miss // norm)
    return min([shared] + [(scale * end - x) ** 2 for end in ends])


def show(random_numbers, name, filters, samples, ends, wraps):
    """Prints two cases of each filter."""
    for number, row in filters.items():
        for spread in (1000, 32768):
            r, o, x = (random_numbers.randrange(-spread, spread) for _ in range(3))
            targets = (0 if row[2] == 0 else r, o, x)
            floor = floor_of_window(row, samples, ends, wraps, targets)
            print(f"{name} {number} {targets[0]} {targets[1]} {targets[2]} {floor}")


if __name__ == "__main__":
    numbers = random.Random(20)
    show(numbers, "brr", BRR, brr.samples(6), (-1, 0), (-1, 0, 1))
    show(numbers, "spu", SPU, spu_samples(4), (32767, -32768), (0,))
    # one output of clamping is the target itself
    print(floor_of_window(BRR[2], brr.samples(6), (-1, 0), (-1, 0, 1), (-30000, -200, -2)))
    print(floor_of_window(BRR[2], brr.samples(6), (-1, 0), (-1, 0, 1), (-30000, -200, 0)))
    print(floor_of_window(SPU[1], spu_samples(4), (32767, -32768), (0,), (0, 5, 32766)))
    print(floor_of_window(SPU[1], spu_samples(4), (32767, -32768), (0,), (0, 5, -32768)))
    assert floor_of_window(BRR[1], brr.samples(11), (-1, 0), (-1, 0, 1), (0, 2, 6144)) == 0
    assert floor_of_window(BRR[1], brr.samples(13), (-1, 0), (-1, 0, 1), (0, 0, 100)) == 5323
