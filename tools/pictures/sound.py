"""The whole first pass of a sample with its error, and a part of it near: source and decoded sound over each other."""

from svg import Picture, Scale, round_up

LEFT, RIGHT = 64, 776
WHOLE, NEAR, ERROR = (72, 182), (232, 372), (414, 474)
FRAMES, COLUMNS = 192, 480


def near(sample):
    """The frames that are seen near: the loop's begin, or without a loop those around the block of greatest error."""
    end = len(sample.targets)
    if sample.loop_block is not None:
        first = 16 * sample.loop_block - 48
    else:
        first = 16 * max(range(sample.blocks), key=sample.block_error) - FRAMES // 2
    first = max(0, min(first, end - FRAMES))
    return first, min(first + FRAMES, end)


def area(values, across, down):
    """The points around all that lies in each column."""
    size = -(-len(values) // COLUMNS)
    groups = [(first, values[first : first + size + 1]) for first in range(0, len(values), size)]
    above = [(across(first), down(max(group))) for first, group in groups]
    below = [(across(first), down(min(group))) for first, group in groups]
    return above + below[::-1]


def heights(drawn, band, most):
    """The scale of a band for values up to `most`, with its grid."""
    top, bottom = band
    down = Scale(most, -most, top, bottom)
    for tick in (most, 0, -most):
        drawn.line(LEFT, down(tick), RIGHT, down(tick), "grid")
        drawn.text(LEFT - 8, down(tick) + 4, f"{tick:g}", "faint", "end")
    return down


def rounds(drawn, sample, first, last, across, band):
    """Shades the loop, and its rounds behind the first pass."""
    if sample.loop_block is None:
        return
    begin, end = 16 * sample.loop_block, 16 * sample.blocks
    top, bottom = band
    for kind, start, stop in (("loop", begin, end), ("again", end, last)):
        start, stop = max(start, first), min(stop, last)
        if start < stop:
            drawn.box(across(start), top, across(stop) - across(start), bottom - top, kind)
    for start in range(begin, last, end - begin):
        if start >= first:
            drawn.line(across(start), top, across(start), bottom, "axis")


def frames_below(drawn, first, last, across, y):
    """Numbers of frames below a band."""
    step = next(size for size in (16, 32, 160, 320, 800, 1600, 3200, 8000) if last - first <= 12 * size)
    for tick in range(-(-first // step) * step, last + 1, step):
        drawn.line(across(tick), y, across(tick), y + 4, "axis")
        drawn.text(across(tick), y + 17, str(tick), "faint", "middle")


def whole(drawn, sample, most):
    """The band of the whole first pass: the source, and over it what the decoded sound differs by."""
    last = 16 * sample.blocks
    across = Scale(0, last, LEFT, RIGHT)
    rounds(drawn, sample, 0, last, across, WHOLE)
    down = heights(drawn, WHOLE, most)
    drawn.path(area(sample.targets[:last], across, down), "source-area soft", True)
    errors = [played - target for target, played in zip(sample.targets[:last], sample.played)]
    drawn.path(area(errors, across, down), "error-area", True)
    frames_below(drawn, 0, last, across, WHOLE[1])


def picture(sample):
    """The picture of a sample."""
    drawn = Picture(800, 526, f"{sample.name}: source and decoded sound")
    marks = [("source-area soft", "source"), ("decoded-area", "decoded"), ("error-area", "decoded less source")]
    first, last = near(sample)
    marks += [("loop", "loop")] if sample.loop else []
    marks += [("again", "loop again")] if last > 16 * sample.blocks else []
    drawn.legend(LEFT, 52, marks)
    parts = sample.targets[first:last], sample.played[first:last]
    whole(drawn, sample, round_up(max(map(abs, sample.targets + sample.played))))
    across = Scale(first, last, LEFT, RIGHT)
    which = ", at the loop" if sample.loop else ", with the block of greatest error" if sample.error else ""
    drawn.text(LEFT, NEAR[0] - 10, f"frames {first} to {last - 1}{which}", "faint")
    down = {}
    errors = [played - target for target, played in zip(*parts)]
    for band, values in ((NEAR, parts[0] + parts[1]), (ERROR, errors)):
        rounds(drawn, sample, first, last, across, band)
        for block in range(-(-first // 16) * 16, last + 1, 16):
            drawn.line(across(block), band[0], across(block), band[1], "grid")
        down[band] = heights(drawn, band, round_up(max(map(abs, values))))
    for values, kind, band in ((parts[0], "source soft wide", NEAR), (parts[1], "decoded", NEAR), (errors, "error", ERROR)):
        drawn.path([(across(first + i), down[band](value)) for i, value in enumerate(values)], kind)
    drawn.text(LEFT, ERROR[0] - 10, "decoded less source, larger", "faint")
    frames_below(drawn, first, last, across, ERROR[1])
    drawn.text(RIGHT, ERROR[1] + 38, "frame; a grid line is a block", "faint", "end")
    drawn.text(LEFT, ERROR[1] + 38, "height: 16-bit steps", "faint")
    return str(drawn)
