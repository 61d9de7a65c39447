#!/usr/bin/env python3
"""Floors under the error of an IMA ADPCM block: the least sum of its pairs' floors over all lists of codes.

It shares nothing with the crates. What it prints stands in crates/decoder_tests/src/ima/floors.rt. The pairs are this
project's own choice (docs/FORMATS.md): places 0 and 1, 2 and 3, and so on; the last place has none.
"""

import random

import ima
from brr import clamp

CODES = range(16)


def pair(before, here, index, code):
    """The floor of two places, the second with this step index and code."""
    miss = ima.difference(index, code) - (here - before)
    return min(-(-miss * miss // 2), ((-32768 if code & 8 else 32767) - here) ** 2)


def paid(targets, place, index, later):
    """The least over the codes of the pair's floor at its second place and of what comes later."""
    return min(pair(targets[place - 1], targets[place], index, code) + later[ima.next_index(index, code)] for code in CODES)


def table(targets):
    """For each place and index the least sum over the pairs that begin there or later."""
    count, indices = len(targets), range(89)
    rows = [None] * (count + 1)
    rows[count - 1] = rows[count] = [0] * 89
    for place in range(count - 3, -1, -2):
        whole = [paid(targets, place + 1, index, rows[place + 2]) for index in indices]
        # At a later place than the first a code comes before the pair's second place; at an odd place the pair began before.
        rows[place] = [min(whole[ima.next_index(index, code)] for code in CODES) for index in indices] if place else whole
        rows[place + 1] = [min(rows[place + 2][ima.next_index(index, code)] for code in CODES) for index in indices]
    return rows


def walk(count):
    """A walk of small random steps."""
    state, value, out = 1, 0, []
    for _ in range(count):
        state = (state * 1664525 + 1013904223) % 2**32
        value = clamp(value + state // 4194304 - 512)
        out.append(value)
    return out


def check(targets, rows, rng, tries):
    """No continuation from a random state costs less than the floor."""
    for _ in range(tries):
        place = rng.randrange(1, len(targets))
        last, index = rng.randrange(-32768, 32768), rng.randrange(89)
        floor, cost = rows[place][index], 0
        for target in targets[place:]:
            code = min(CODES, key=lambda code: (clamp(last + ima.difference(index, code)) - target) ** 2) if rng.random() < 0.9 else rng.randrange(16)
            last, index = clamp(last + ima.difference(index, code)), ima.next_index(index, code)
            cost += (last - target) ** 2
        assert floor <= cost, (place, floor, cost)


if __name__ == "__main__":
    targets = walk(505)
    rows = table(targets)
    check(targets, rows, random.Random(5), 300)
    for place, index in [(0, 0), (0, 30), (0, 88), (1, 40), (2, 40), (250, 50), (251, 50)]:
        print("place", place, "index", index, "floor", rows[place][index])
    print("of the block", min(rows[0]))
