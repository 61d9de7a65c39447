#!/usr/bin/env python3
"""VAG files beside a packaged decoder.

    test_spu_decoders.py [PROGRAM]

ffmpeg decodes filter 0 with shifts 0 to 12 by the same arithmetic, so it must give every sample that `play vag` says of
such blocks. In the other filters it rounds otherwise; how far it is from what is played is printed for compiled sounds.
Without ffmpeg, which Debian has in the package of that name, all is left out with a message.
"""

import math
import pathlib
import random
import shutil
import struct
import tempfile
import unittest

import wave_file
from built_program import adbank, compile_files, run

RATE = 22050


def vag(blocks):
    """A VAG file of some blocks of sixteen bytes."""
    head = b"VAGp" + struct.pack(">IIII", 32, 0, 16 * len(blocks), RATE) + bytes(12) + b"sound".ljust(16, b"\0")
    return head + b"".join(blocks)


def plain_blocks(chance, count):
    """Blocks of filter 0 with any codes, the last of which ends the sample."""
    for block in range(count):
        flags = 1 if block + 1 == count else 0
        yield bytes([chance.randint(0, 12), flags]) + chance.randbytes(14)


def sounds():
    """Sounds that take every filter."""
    chance = random.Random(1994)
    yield "noise", [chance.randint(-32768, 32767) for _ in range(2800)]
    yield "sine", [round(12000 * math.sin(i / 9)) for i in range(2800)]
    yield "slow", [round(30000 * math.sin(i / 200)) for i in range(2800)]


@unittest.skipUnless(shutil.which("ffmpeg"), "ffmpeg is not installed: Debian's package ffmpeg has it")
class Decoder(unittest.TestCase):
    """One test for equal arithmetic, and one that tells how far the rest is away."""

    def setUp(self):
        self.folder = self.enterContext(tempfile.TemporaryDirectory())

    def decoded(self, file):
        """What ffmpeg gives of a VAG file."""
        done = run(["ffmpeg", "-v", "error", "-y", "-f", "vag", "-i", file, "-f", "s16le", "out.pcm"], self.folder)
        self.assertEqual(done.returncode, 0, done.stderr)
        data = pathlib.Path(self.folder, "out.pcm").read_bytes()
        return list(struct.unpack(f"<{len(data) // 2}h", data))

    def played(self, file, count):
        """What the program says of it."""
        return list(map(int, adbank(self.folder, "play", "vag", file, 0, count).stdout.split()))

    def test_filter_zero(self):
        """Blocks of filter 0 decode alike."""
        chance = random.Random(2)
        for number in range(40):
            blocks = list(plain_blocks(chance, chance.randint(1, 30)))
            pathlib.Path(self.folder, "plain.vag").write_bytes(vag(blocks))
            want = self.decoded("plain.vag")
            self.assertEqual(len(want), 28 * len(blocks))
            self.assertEqual(self.played("plain.vag", len(want)), want, f"file {number}")

    def test_all_filters(self):
        """How far ffmpeg is from what is played of compiled sounds."""
        for name, samples in sounds():
            manifest = f'format = "spu"\nbank = "bank"\n[[sample]]\nname = "{name}"\nfile = "{name}.wav"\n'
            files = {"bank.toml": manifest.encode(), name + ".wav": wave_file.write(samples, RATE, None)}
            compile_files(self.folder, files, "bank.toml")
            want = self.decoded(f"bank.{name}.vag")
            have = self.played(f"bank.{name}.vag", len(want))
            print(f"{name}: ffmpeg is at most {max(abs(x - y) for x, y in zip(have, want))} away")


if __name__ == "__main__":
    unittest.main()
