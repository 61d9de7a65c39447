#!/usr/bin/env python3
"""`adbank compile` over sounds made by hand, each with its lines and its image.

    test_compile.py [PROGRAM]
"""

import pathlib
import struct
import tempfile
import unittest

import wave_file
from built_program import compile_files

ONE = 'format = "brr"\nbank = "b"\nbeam = 1\nbudget = 0\n[[sample]]\nname = "s"\nfile = "s.wav"\n'
TWO = (
    'format = "brr"\nbank = "b"\nbase = 1024\nlength = "unroll"\n[[sample]]\nname = "s"\nfile = "s.wav"\n'
    '[[sample]]\nname = "t"\nfile = "t.wav"\nloop = "none"\n'
)


def image(base, entries, blocks):
    """An image of entries, each with its rate and its two addresses."""
    head = struct.pack("<4sBBHHHI", b"SNBI", 1, 0, len(entries), base, 0, 4 * len(entries) + len(blocks))
    rates = b"".join(struct.pack("<I", rate) for rate, _, _ in entries)
    return head + rates + b"".join(struct.pack("<HH", start, again) for _, start, again in entries) + blocks


class Compile(unittest.TestCase):
    """Banks of few blocks."""

    def setUp(self):
        self.folder = pathlib.Path(self.enterContext(tempfile.TemporaryDirectory()))

    def said(self, manifest, **sounds):
        """What is said of a bank of these sounds."""
        files = {f"{name}.wav": wave_file.write(samples, 32000, at) for name, (samples, at) in sounds.items()}
        return compile_files(self.folder, files | {"m.toml": manifest.encode()}, "m.toml")

    def test_gap(self):
        """The floor of shift 11 and filter 1 is 0, which no block reaches."""
        said = self.said(ONE, s=([0] * 16 + [2, 6144] * 8, None))
        self.assertEqual(said, "sample s blocks 2 loop none error 32 bound 0 gap 32 levels 0 0 0 1\ndone 1 samples 3 files\n")
        blocks = bytes(9) + b"\xa1" + b"\x06" * 8
        self.assertEqual((self.folder / "b").read_bytes(), image(512, [(32000, 0x0204, 0x0204)], blocks))

    def test_two_samples(self):
        """A loop that is unrolled, and a sample without the loop of its file."""
        said = self.said(TWO, s=([0] * 24, (0, 23)), t=([1] * 16, (0, 15)))
        self.assertEqual(
            said,
            "sample s blocks 3 loop 0 error 0 bound 0 gap 0 levels 1 0 0 0 optimal\n"
            "sample t blocks 1 loop none error 16 bound 16 gap 0 levels 1 0 0 0 optimal\n"
            "done 2 samples 5 files\n",
        )
        blocks = bytes(18) + b"\x03" + bytes(8) + b"\x01" + bytes(8)
        entries = [(32000, 0x0408, 0x0408), (32000, 0x0423, 0x0423)]
        self.assertEqual((self.folder / "b").read_bytes(), image(1024, entries, blocks))


if __name__ == "__main__":
    unittest.main()
