"""IMA ADPCM: what a code and the bytes of a block stand for.

The programs of this folder share it; it shares nothing with the crates. The rules are those of the IMA recommended
practices of 1992 and of WAVE files with the tag 0x0011. A head is the step index of a block, a code is a nibble.
"""

from brr import clamp

STEPS = [
    7, 8, 9, 10, 11, 12, 13, 14, 16, 17, 19, 21, 23, 25, 28, 31, 34, 37, 41, 45, 50, 55, 60, 66, 73, 80, 88, 97, 107, 118,
    130, 143, 157, 173, 190, 209, 230, 253, 279, 307, 337, 371, 408, 449, 494, 544, 598, 658, 724, 796, 876, 963, 1060,
    1166, 1282, 1411, 1552, 1707, 1878, 2066, 2272, 2499, 2749, 3024, 3327, 3660, 4026, 4428, 4871, 5358, 5894, 6484, 7132,
    7845, 8630, 9493, 10442, 11487, 12635, 13899, 15289, 16818, 18500, 20350, 22385, 24623, 27086, 29794, 32767,
]
MOVES = [-1, -1, -1, -1, 2, 4, 6, 8]


def difference(index, code):
    """What a code adds to the output at a step index."""
    step = STEPS[index]
    distance = step >> 3
    if code & 4:
        distance += step
    if code & 2:
        distance += step >> 1
    if code & 1:
        distance += step >> 2
    return -distance if code & 8 else distance


def next_index(index, code):
    """The step index after a code."""
    return min(88, max(0, index + MOVES[code & 7]))


def steps(last, index, codes):
    """For each code the output before it is clamped, the output, and the next step index."""
    for code in codes:
        raw = last + difference(index, code)
        last, index = clamp(raw), next_index(index, code)
        yield raw, last, index


def samples(align):
    """How many samples a block of so many bytes has."""
    return 2 * (align - 4) + 1


def spell(first, index, codes):
    """The bytes of a first output, a step index and codes."""
    return (first & 0xFFFF).to_bytes(2, "little") + bytes([index, 0] + [high << 4 | low for low, high in zip(codes[::2], codes[1::2])])


def parse(block):
    """The first output, the step index and the codes in the bytes of a block."""
    first = int.from_bytes(block[:2], "little", signed=True)
    return first, block[2], [code for byte in block[4:] for code in (byte & 15, byte >> 4)]


def decode(block):
    """The outputs of a block."""
    first, index, codes = parse(block)
    return [first] + [last for _, last, _ in steps(first, index, codes)]
