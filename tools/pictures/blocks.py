"""The error of each block of a sample, on a scale in dB, beside how loud the block is."""

import math

from bank import decibels
from svg import Picture, Scale

LEFT, RIGHT, TOP, BOTTOM = 64, 776, 70, 330
MOST_BARS = 300
FULL = 16 * 32768**2


def level(squares):
    """A block's sum of squares in dB of full scale, which is every sample at 32768; None for 0."""
    return decibels(squares / FULL) if squares else None


def loudness(sample, block):
    """The sum of squares of a block's targets."""
    return sum(target * target for target in sample.targets[16 * block : 16 * block + 16])


def told(first, last, error):
    """What a bar says: the block, or the blocks of which it shows the worst."""
    which = f"block {first}: error" if first == last else f"blocks {first} to {last}: error at most"
    return f"{which} {error}" + (f", {level(error):.1f} dB" if error else "")


def columns(sample):
    """The first block and the last, the greatest error and the greatest loudness of each bar."""
    size = -(-sample.blocks // MOST_BARS)
    for first in range(0, sample.blocks, size):
        group = range(first, min(first + size, sample.blocks))
        errors = max(sample.block_error(block) for block in group)
        yield first, group[-1], errors, max(loudness(sample, block) for block in group)


def axes(drawn, sample, down, across, lowest, highest):
    """The loop, the grid and the scales."""
    if sample.loop_block is not None:
        drawn.box(across(sample.loop_block), TOP, RIGHT - across(sample.loop_block), BOTTOM - TOP, "loop")
    step = 10 if highest - lowest <= 90 else 20
    for tick in range(lowest, highest + 1, step):
        drawn.line(LEFT, down(tick), RIGHT, down(tick), "grid")
        drawn.text(LEFT - 8, down(tick) + 4, str(tick), "faint", "end")
    step = next(size for size in (1, 2, 5, 10, 20, 50, 100, 200, 500, 1000) if sample.blocks <= 12 * size)
    for tick in range(0, sample.blocks + 1, step):
        drawn.line(across(tick), BOTTOM, across(tick), BOTTOM + 5, "axis")
        drawn.text(across(tick), BOTTOM + 19, str(tick), "faint", "middle")
    drawn.text(RIGHT, BOTTOM + 38, "block", "faint", "end")
    drawn.text(LEFT, BOTTOM + 38, "dB of full scale: 10·log10(sum of squares / (16·32768²)) of each block", "faint")


def picture(sample):
    """The picture of a sample."""
    bars = list(columns(sample))
    levels = [level(squares) for _, _, *both in bars for squares in both if squares]
    highest = 10 * math.ceil(max(levels, default=0) / 10)
    lowest = min(highest - 30, 10 * math.floor(min(levels, default=0) / 10) - 10)
    down, across = Scale(highest, lowest, TOP, BOTTOM), Scale(0, sample.blocks, LEFT, RIGHT)
    drawn = Picture(800, 384, f"{sample.name}: error of each block")
    marks = [("error-area", "error"), ("source-area", "source")]
    drawn.legend(LEFT, 52, marks + ([("loop", "loop")] if sample.loop_block is not None else []))
    axes(drawn, sample, down, across, lowest, highest)
    loud = []
    for first, last, error, squares in bars:
        x, wide = across(first), across(last + 1) - across(first)
        top = down(level(error)) if error else BOTTOM
        drawn.box(x, top, max(wide - 0.4, 0.4 * wide), BOTTOM - top, "error-area", told(first, last, error))
        y = down(level(squares)) if squares else BOTTOM
        loud += [(x, y), (x + wide, y)]
    drawn.path(loud, "source")
    exact = sum(sample.block_error(block) == 0 for block in range(sample.blocks))
    if exact:
        drawn.text(RIGHT, 52, f"blocks without an error: {exact} of {sample.blocks}", "faint", "end")
    drawn.line(LEFT, BOTTOM, RIGHT, BOTTOM, "axis")
    return str(drawn)
