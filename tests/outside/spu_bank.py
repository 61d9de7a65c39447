"""Banks of SPU-ADPCM, plainly: the blocks of a sample, their floors, and its VAG file.

The rules are those of docs/FORMATS.md; nothing here is shared with the program. plain_compiler.py makes banks with it.
"""

import bisect
import functools
import math
import random
import struct

import spu
from window_floor import SPU, floor_of_window

# Samples in a block, and what an output is multiplied by.
SIZE, SCALE = 28, 1
# A loop lies on whole blocks, and all their outputs are played.
IN_FRAMES = False


def cost(output, target):
    """What an output costs beside a target."""
    return (output - target) ** 2


# Blocks


@functools.lru_cache(maxsize=None)
def samples(shift):
    """What the codes stand for under a shift."""
    return [spu.sample(shift, code) for code in range(16)]


def spelled(heads, symbols, loop_block):
    """The blocks of a sample with these heads and symbols, and its outputs."""
    blocks, outputs = [], [0, 0]
    for block, head in enumerate(heads):
        older, last = outputs[-2:]
        flags = 0 if block + 1 < len(heads) else 1 if loop_block is None else 3
        flags += 4 if block == loop_block else 0
        blocks.append(spu.spell(head, symbols[SIZE * block : SIZE * (block + 1)], flags))
        outputs += spu.decode(blocks[-1], last, older)
    return b"".join(blocks), outputs[2:]


# Floors


@functools.lru_cache(maxsize=None)
def scaled(shift):
    """In order, 64 times the samples under a shift."""
    return sorted({64 * sample for sample in samples(shift)})


def window_floor(shift, filter_, targets):
    """The floor of one window of filters 1 to 4: its miss is beside the nearest sums below and above."""
    d, a, b, bias, most, _ = SPU[filter_]
    older, last, x = targets
    rho = d * x - a * last - b * older - bias
    sums = scaled(shift)
    at = bisect.bisect(sums, rho)
    below = rho - sums[at - 1] if at else math.inf
    above = max(sums[at] - rho - most, 0) if at < len(sums) else math.inf
    miss = min(below, above)
    shared = -(-miss * miss // (d * d + a * a + b * b))
    return min(shared, cost(32767, x), cost(-32768, x))


def check_floors():
    """The floors found beside the nearest sums are those found by trying everything."""
    numbers = random.Random(4)
    for spread in (3, 300, 9000, 32768):
        for filter_ in SPU:
            window = [numbers.randrange(-spread, spread) for _ in range(3)]
            if filter_ == 1:
                window[0] = 0
            for shift in numbers.sample(range(16), 4):
                tried = floor_of_window(SPU[filter_], samples(shift), (32767, -32768), (0,), window)
                assert window_floor(shift, filter_, window) == tried, (shift, filter_, window)


# VAG files


def refuse_full(_manifest, _found):
    """Sound memory is not laid out, so no bank is too large."""


def vag(sample, body):
    """The VAG file of a sample, which has these blocks."""
    return b"VAGp" + struct.pack(">7I16s", 32, 0, len(body), sample.rate, 0, 0, 0, sample.name.encode()) + body


def block_files(manifest, found, bodies):
    """The files that hold the blocks, by name."""
    return {f"{manifest['bank']}.{sample.name}.vag": vag(sample, body) for sample, body in zip(found, bodies)}
