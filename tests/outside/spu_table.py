#!/usr/bin/env python3
"""A table of SPU-ADPCM blocks with the outputs that a plain decoder gives.

It shares nothing with the crates. Its rows stand in crates/decoder_tests/src/spu/table.rt; run it to print them again.
"""

from collections import Counter

import spu
from brr_table import Numbers


def count(seen, block, last, older):
    """Counts by filter what the samples of a block meet."""
    head, codes, _ = spu.parse(block)
    for raw, _ in spu.steps(head, codes, last, older):
        seen[head // 16, "clamped high"] += raw > 32767
        seen[head // 16, "clamped low"] += raw < -32768
        seen[head // 16, "negative"] += -32768 < raw < 0


def rows():
    """Blocks of each filter, of the smallest shift and of one from 12 on, with the two outputs before them."""
    numbers = Numbers()
    for filter_ in range(5):
        for shift in (0, 12 + filter_ % 4):
            last, older = numbers.below(65536) - 32768, numbers.below(65536) - 32768
            codes = [numbers.below(16) for _ in range(28)]
            yield spu.spell(16 * filter_ + shift, codes, numbers.below(8)), last, older


def main():
    """Prints the rows, which must meet every case."""
    seen = Counter()
    for block, last, older in rows():
        count(seen, block, last, older)
    for filter_ in range(5):
        assert seen[filter_, "negative"], filter_
        for event in ("clamped high", "clamped low") if filter_ else ():
            assert seen[filter_, event], (filter_, event)
    for block, last, older in rows():
        data = ", ".join("0x%02X" % byte for byte in block)
        print("    ([%s], %d, %d, [%s])," % (data, last, older, ", ".join(map(str, spu.decode(block, last, older)))))


if __name__ == "__main__":
    main()
