"""SPU-ADPCM: what a code, a filter and the sixteen bytes of a block stand for.

The programs of this folder share it; it shares nothing with the crates. The rules are those of PSX-SPX, "SPU ADPCM
Samples"; that shifts 13 to 15 act as 9, and that a negative prediction is floored, is this project's own choice. A head is
the shift and sixteen times the filter, a code is a nibble from 0 to 15.
"""

from brr import clamp

WEIGHTS = [(0, 0), (60, 0), (115, -52), (98, -55), (122, -60)]


def sample(shift, code):
    """What a code stands for under a shift."""
    nibble = code - 16 if code >= 8 else code
    return (nibble << 12) >> (shift if shift <= 12 else 9)


def prediction(filter_, last, older):
    """What a filter makes of the last output and of the one before it."""
    first, second = WEIGHTS[filter_]
    return (first * last + second * older + 32) >> 6


def steps(head, codes, last, older):
    """For each code the sum of its sample and its prediction, and the output."""
    filter_, shift = divmod(head, 16)
    for code in codes:
        raw = sample(shift, code) + prediction(filter_, last, older)
        last, older = clamp(raw), last
        yield raw, last


def parse(block):
    """The head, the codes and the flags in sixteen bytes."""
    return block[0] & 127, [code for byte in block[2:] for code in (byte & 15, byte >> 4)], block[1] & 7


def spell(head, codes, flags):
    """The sixteen bytes of a head, 28 codes and flags."""
    return bytes([head, flags] + [high << 4 | low for low, high in zip(codes[::2], codes[1::2])])


def decode(block, last, older):
    """The outputs of sixteen bytes after the last output and the one before it."""
    head, codes, _ = parse(block)
    return [out for _, out in steps(head, codes, last, older)]
