#!/usr/bin/env python3
"""A table of the SNES's BRR blocks with the outputs that a plain decoder gives.

It shares nothing with the crates. Its rows stand in crates/decoder_tests/src/brr/table.rt; run it to print them again.
"""

from collections import Counter

import brr


def count(seen, block, last, older):
    """Counts by filter what the samples of a block meet."""
    head, codes, _ = brr.parse(block)
    filter_ = head % 4
    for code, (raw, output) in zip(codes, brr.steps(head, codes, last, older)):
        seen[filter_, "negative" if code >= 8 else "positive"] += 1
        if raw > 32767:
            seen[filter_, "clamped high"] += 1
        if raw < -32768:
            seen[filter_, "clamped low"] += 1
        if output != brr.clamp(raw):
            seen[filter_, "wrapped"] += 1


class Numbers:
    """A linear congruential generator."""

    def __init__(self):
        self.x = 1

    def below(self, n):
        """The next number below n."""
        self.x = (self.x * 1664525 + 1013904223) % 2**32
        return (self.x >> 16) % n


def rows():
    """Blocks of each filter and of shifts at the edges, with the two outputs before them."""
    numbers = Numbers()
    for filter_ in range(4):
        for row, shift in enumerate((0, 1, 4, 8, 10, 11, 12, 12, 13, 14, 15)):
            last, older = ((0, 0), (16383, -16384), (-16384, 16383))[row] if row < 3 else (
                numbers.below(32768) - 16384, numbers.below(32768) - 16384)
            low, high = ((0, 16), (0, 8), (8, 16))[row % 3]
            codes = [low + numbers.below(high - low) for _ in range(16)]
            yield brr.spell(4 * shift + filter_, codes, numbers.below(4)), last, older


def main():
    """Prints the rows, which must meet every case."""
    seen = Counter()
    for block, last, older in rows():
        count(seen, block, last, older)
    for filter_ in range(4):
        wanted = ["positive", "negative"]
        wanted += ["wrapped"] if filter_ else []
        wanted += ["clamped high", "clamped low"] if filter_ > 1 else []
        for event in wanted:
            assert seen[filter_, event], (filter_, event)
    for block, last, older in rows():
        data = ", ".join("0x%02X" % byte for byte in block)
        print("    ([%s], %d, %d, [%s])," % (data, last, older, ", ".join(map(str, brr.decode(block, last, older)))))


if __name__ == "__main__":
    main()
