"""Banks of BRR, plainly: the blocks of a sample, their floors, and the image of a bank.

The rules are those of docs/FORMATS.md; nothing here is shared with the program. plain_compiler.py makes banks with it.
"""

import bisect
import functools
import math
import random
import struct

import brr
from brr_floors import own_floors
from wave_file import Refused
from window_floor import BRR

# Samples in a block, what an output is multiplied by, and what an output costs beside a target.
SIZE, SCALE, cost = 16, 2, brr.cost
# A loop lies on whole blocks, and all their outputs are played.
IN_FRAMES = False


# Blocks


@functools.lru_cache(maxsize=None)
def samples(shift):
    """What the codes stand for under a shift."""
    return brr.samples(shift)


def spelled(heads, symbols, loop_block):
    """The blocks of a sample with these heads and symbols, and its outputs."""
    blocks, outputs = [], [0, 0]
    for block, head in enumerate(heads):
        older, last = outputs[-2:]
        end = 0 if block + 1 < len(heads) else 1 if loop_block is None else 3
        blocks.append(brr.spell(head, symbols[SIZE * block : SIZE * (block + 1)], end))
        outputs += brr.decode(blocks[-1], last, older)
    return b"".join(blocks), outputs[2:]


# Floors


@functools.lru_cache(maxsize=None)
def scaled(shift, filter_):
    """In order, the samples under a shift less each wrap, times the filter's D."""
    d = BRR[filter_][0]
    return sorted({d * (sample - 32768 * wrap) for sample in samples(shift) for wrap in (-1, 0, 1)})


def window_floor(shift, filter_, targets):
    """The floor of one window of filter 1, 2 or 3: its miss is beside the nearest sums below and above."""
    d, a, b, _, most, _ = BRR[filter_]
    older, last, x = targets
    rho = d * x - a * last - b * older
    sums = scaled(shift, filter_)
    at = bisect.bisect(sums, rho // 2)
    below = rho - 2 * sums[at - 1] if at else math.inf
    above = max(2 * sums[at] - rho - 2 * most, rho % 2) if at < len(sums) else math.inf
    miss = min(below, above)
    shared = -(-miss * miss // (d * d + a * a + b * b))
    return min(shared, brr.cost(-1, x), brr.cost(0, x))


def head_floor(head, targets):
    """The floor under a block with a head."""
    shift, filter_ = divmod(head, 4)
    if filter_ == 0:
        return sum(min(brr.cost(out, target) for out in samples(shift)) for target in targets)
    size = min(filter_, 2) + 1
    floor = sum(target % 2 for target in targets[16 - 16 % size :])
    for first in range(0, 16 - 16 % size, size):
        window = targets[first : first + size]
        odd = sum(target % 2 for target in window)
        floor += max(odd, window_floor(shift, filter_, [0] * (3 - size) + window))
    return floor


def check_floors():
    """The floors found beside the nearest sums are those found by trying everything."""
    numbers = random.Random(3)
    for spread in (3, 300, 9000, 32768):
        targets = [numbers.randrange(-spread, spread) for _ in range(16)]
        for head in numbers.sample(brr.HEADS, 24):
            assert head_floor(head, targets) == sum(own_floors(head, targets)), (head, targets)


# The image


def refuse_full(manifest, found):
    """Refuses a bank that passes the memory's end."""
    at = manifest["base"] + 4 * len(found) + 9 * sum(len(sample.targets) // SIZE for sample in found)
    if at > 65536:
        raise Refused("ImageFull", at)


def image(base, found, bodies):
    """The image of some samples, which have these blocks."""
    memory, start = b"", base + 4 * len(found)
    for sample, body in zip(found, bodies):
        memory += struct.pack("<HH", start, start + 9 * (sample.loop_block or 0))
        start += len(body)
    memory += b"".join(bodies)
    header = b"SNBI" + struct.pack("<HHII", 1, len(found), base, len(memory))
    return header + struct.pack("<%dI" % len(found), *(sample.rate for sample in found)) + memory


def block_files(manifest, found, bodies):
    """The files that hold the blocks, by name."""
    return {manifest["bank"]: image(manifest["base"], found, bodies)}
