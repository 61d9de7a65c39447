"""Banks of IMA ADPCM, plainly: the blocks of a sample, and its WAVE file.

The rules are those of docs/FORMATS.md; nothing here is shared with the program. plain_compiler.py makes banks with it.
"""

import struct

import ima
from wave_file import chunk, riff, smpl

class Blocks:
    """Blocks of so many bytes."""

    SCALE = 1
    # A loop stays at its frames, and so many outputs are played as the source has frames.
    IN_FRAMES = True

    def __init__(self, align):
        self.align, self.SIZE = align, ima.samples(align)

    def cut(self, symbols):
        """The symbols of each block."""
        return [symbols[at : at + self.SIZE] for at in range(0, len(symbols), self.SIZE)]

    def cost(self, output, target):
        """What an output costs beside a target."""
        return (output - target) ** 2

    def spelled(self, heads, symbols, _loop_block):
        """The blocks of a sample with these step indices and symbols, and its outputs."""
        parts = self.cut(symbols)
        blocks = [ima.spell(part[0] - 32768, head, part[1:]) for head, part in zip(heads, parts)]
        return b"".join(blocks), [out for block in blocks for out in ima.decode(block)]

    def refuse_full(self, _manifest, _found):
        """Sound memory is not laid out, so no bank is too large."""

    def wave(self, sample, body):
        """The WAVE file of a sample, which has these blocks."""
        second = sample.rate * self.align // self.SIZE
        layout = struct.pack("<HHIIHHHH", 17, 1, sample.rate, second, self.align, 4, 2, self.SIZE)
        chunks = [chunk(b"fmt ", layout), chunk(b"fact", struct.pack("<I", sample.played)), chunk(b"data", body)]
        return riff(chunks + ([smpl(sample.rate, *sample.loop)] if sample.loop else []))

    def block_files(self, manifest, found, bodies):
        """The files that hold the blocks, by name."""
        return {f"{manifest['bank']}.{sample.name}.wav": self.wave(sample, body) for sample, body in zip(found, bodies)}
