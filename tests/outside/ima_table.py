#!/usr/bin/env python3
"""A table of IMA ADPCM blocks with the outputs that a plain decoder gives.

It shares nothing with the crates. Its rows stand in crates/decoder_tests/src/ima/table.rt; run it to print them again.
"""

from collections import Counter

import ima
from brr_table import Numbers


def count(seen, block):
    """Counts what the samples of a block meet."""
    first, before, codes = ima.parse(block)
    for code, (raw, _, after) in zip(codes, ima.steps(first, before, codes)):
        seen["clamped high"] += raw > 32767
        seen["clamped low"] += raw < -32768
        seen["least index"] += before == 0 and after == 0
        seen["greatest index"] += before == 88 and after == 88
        seen["code", code] += 1
        before = after


def rows():
    """Blocks of 12 bytes that begin at small, middle and great step indices."""
    numbers = Numbers()
    for index in (0, 1, 20, 40, 60, 75, 87, 88):
        codes = [numbers.below(16) for _ in range(16)]
        yield ima.spell(numbers.below(65536) - 32768, index, codes)


def main():
    """Prints the rows, which must meet every case."""
    seen = Counter()
    for block in rows():
        count(seen, block)
    for event in ["clamped high", "clamped low", "least index", "greatest index"] + [("code", code) for code in range(16)]:
        assert seen[event], event
    for block in rows():
        data = ", ".join("0x%02X" % byte for byte in block)
        print("    ([%s], [%s])," % (data, ", ".join(map(str, ima.decode(block)))))


if __name__ == "__main__":
    main()
