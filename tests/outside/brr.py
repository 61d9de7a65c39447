"""BRR: what a code, a filter and the nine bytes of a block stand for.

The programs of this folder share it; it shares nothing with the crates. The rules are those of fullsnes, "BRR samples";
that shifts 13 to 15 keep only the sign, and that twice an output is compared with a target, is this project's own choice.
A head is four times the shift and the filter, a code is a nibble from 0 to 15.
"""

CODES = range(16)
HEADS = range(64)


def sample(shift, code):
    """What a code stands for under a shift."""
    nibble = code - 16 if code >= 8 else code
    if shift <= 12:
        return (nibble << shift) >> 1
    return -2048 if nibble < 0 else 0


def samples(shift):
    """What the codes stand for under a shift, in order."""
    return [sample(shift, code) for code in CODES]


def prediction(filter_, last, older):
    """What a filter makes of the last output and of the one before it."""
    if filter_ == 0:
        return 0
    if filter_ == 1:
        return last + (-last >> 4)
    if filter_ == 2:
        return 2 * last + (-3 * last >> 5) - older + (older >> 4)
    return 2 * last + (-13 * last >> 6) - older + (3 * older >> 4)


def clamp(value):
    """The nearest number of 16 bits."""
    return max(-32768, min(32767, value))


def wrap(value):
    """The number of 15 bits that differs by a multiple of 32768."""
    return (value + 16384) % 32768 - 16384


def output(raw):
    """What comes out for the sum of a sample and its prediction."""
    return wrap(clamp(raw))


def cost(out, target):
    """The squared error of an output."""
    return (2 * out - target) ** 2


def steps(head, codes, last, older):
    """For each code the sum of its sample and its prediction, and the output."""
    shift, filter_ = divmod(head, 4)
    for code in codes:
        raw = sample(shift, code) + prediction(filter_, last, older)
        last, older = output(raw), last
        yield raw, last


def parse(block):
    """The head, the codes and the flags in nine bytes."""
    return block[0] >> 2, [code for byte in block[1:] for code in (byte >> 4, byte & 15)], block[0] & 3


def spell(head, codes, flags):
    """The nine bytes of a head, sixteen codes and flags."""
    return bytes([head << 2 | flags] + [high << 4 | low for high, low in zip(codes[::2], codes[1::2])])


def decode(block, last, older):
    """The outputs of nine bytes after the last output and the one before it."""
    head, codes, _ = parse(block)
    return [out for _, out in steps(head, codes, last, older)]
