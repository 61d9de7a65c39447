#!/usr/bin/env python3
"""Beams over BRR: which blocks stay when only so many prefixes are kept, found in the plainest way.

It shares nothing with the crates. What it prints stands in crates/search_tests/src/beams.rt. Prefixes are whole lists
here, and each block's extensions are sorted at once.
"""

import brr

# A saw whose best blocks a beam of width 1 does not find.
SAW = [601 * i % 5000 - 2500 for i in range(48)]


def block_of(head, targets, last, older):
    """The codes that are nearest to each target, the first on a tie, with their cost and the two last outputs."""
    codes, total = [], 0
    shift, filter_ = divmod(head, 4)
    for target in targets:
        predicted = brr.prediction(filter_, last, older)
        outputs = [brr.output(sample + predicted) for sample in brr.samples(shift)]
        costs = [brr.cost(out, target) for out in outputs]
        code = costs.index(min(costs))
        codes.append(code)
        total += costs[code]
        last, older = outputs[code], last
    return codes, total, last, older


def beam(targets, width):
    """The sum, the heads and the codes of the beam's choice."""
    kept = [(0, [], [], 0, 0)]
    for first in range(0, len(targets), 16):
        made = []
        for total, heads, codes, last, older in kept:
            for head in brr.HEADS:
                if first > 0 or head % 4 == 0:
                    more, cost, after, before = block_of(head, targets[first : first + 16], last, older)
                    made.append((total + cost, heads + [head], codes + more, after, before))
        kept = sorted(made, key=lambda prefix: prefix[0])[:width]
    return kept[0][:3]


if __name__ == "__main__":
    print("targets", SAW)
    for width in (1, 4):
        print("width", width, "sum, heads and codes", *beam(SAW, width))
