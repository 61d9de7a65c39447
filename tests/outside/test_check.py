#!/usr/bin/env python3
"""`adbank check` over certificates made by hand, each with the line that it must say.

    test_check.py [PROGRAM]
"""

import pathlib
import struct
import tempfile
import unittest

import wave_file
from built_program import PROGRAM, run

MANIFEST = 'format = "brr"\nbank = "b"\n[[sample]]\nname = "s"\nfile = "s.wav"\n'
# Twice an output is never odd, so sixteen frames of 1 cost 16 whatever is encoded, and what is left after one costs 15.
GOOD = "sample s blocks 1 loop none error 16 bound 16 gap 0 levels 1 0 0 0 optimal\ndone 1 samples 0 files\n"


def layer(block, place, lane, cells, count=None):
    """A layer of cells, each two numbers and a value; it may tell another number of them."""
    body = b"".join(struct.pack("<hhQ", *cell) for cell in cells)
    return struct.pack("<HHHI", block, place, lane, len(cells) if count is None else count) + body


def certificate(layers, bound=16, level=0, count=None):
    """A certificate of one segment of one block."""
    head = b"ADBC" + struct.pack("<BBH", 1, 0, 1)
    return head + struct.pack("<HBBQI", 1, level, 0, bound, len(layers) if count is None else count) + b"".join(layers)


FIRST = layer(0, 0, 65535, [(0, 0, 16)])
SECOND = layer(0, 1, 0, [(0, 0, 15)])
CASES = {
    "two layers": (certificate([FIRST, SECOND]), GOOD),
    "a value one above": (certificate([FIRST, layer(0, 1, 0, [(0, 0, 16)])]), "fault 7 s CellFault 0 1 0 16 15\n"),
    "the first of two": (certificate([layer(0, 0, 65535, [(0, 0, 17)]), layer(0, 1, 0, [(0, 0, 16)])]), "fault 7 s CellFault 0 0 0 17 16\n"),
    "a lane that the first block cannot have": (certificate([FIRST, layer(0, 1, 1, [(0, 0, 0)])]), GOOD),
    "a bound one above": (certificate([FIRST], 17), "fault 7 s Bound 0 17 16\n"),
    "a bound one below": (certificate([FIRST], 15), "fault 7 s Bound 0 15 16\n"),
    "a value below": (certificate([layer(0, 0, 65535, [(0, 0, 10)])]), GOOD),
    "the greatest value": (certificate([layer(0, 0, 65535, [(0, 0, 2**60 - 1)])]), "fault 7 s CellFault 0 0 0 1152921504606846975 16\n"),
    "a value too great": (certificate([layer(0, 0, 65535, [(0, 0, 2**60)])]), "fault 7 s CellRange 34\n"),
    "cells that are not there": (certificate([layer(0, 0, 65535, [(0, 0, 16)], 2**32 - 1)]), "fault 7 s Short 46\n"),
    "layers that are not there": (certificate([FIRST], count=2**32 - 1), "fault 7 s Short 46\n"),
    "a layer of no cells": (certificate([layer(0, 0, 65535, [])]), "fault 7 s LayerRange 24\n"),
    "a block too far": (certificate([layer(1, 0, 65535, [(0, 0, 16)])]), "fault 7 s LayerRange 24\n"),
    "a place too far": (certificate([layer(0, 16, 0, [(0, 0, 0)])]), "fault 7 s LayerRange 24\n"),
    "a lane of no head": (certificate([layer(0, 1, 56, [(0, 0, 0)])]), "fault 7 s LayerRange 24\n"),
    "a lane before the head is chosen": (certificate([layer(0, 0, 0, [(0, 0, 0)])]), "fault 7 s LayerRange 24\n"),
    "a layer twice": (certificate([FIRST, FIRST]), "fault 7 s LayerOrder 46\n"),
    "layers the other way": (certificate([SECOND, FIRST]), "fault 7 s LayerOrder 46\n"),
    "a cell twice": (certificate([layer(0, 0, 65535, [(0, 0, 16), (0, 0, 16)])]), "fault 7 s CellOrder 46\n"),
    "cells the other way": (certificate([layer(0, 0, 65535, [(0, 1, 1), (0, 0, 16)])]), "fault 7 s CellOrder 46\n"),
    "a cell out of range": (certificate([layer(0, 0, 65535, [(16384, 0, 1)])]), "fault 7 s CellRange 34\n"),
    "layers without cells": (certificate([FIRST], level=255), "fault 7 s LayerRange 20\n"),
    "another level": (certificate([], level=1), "fault 7 s BadLevel 1\n"),
    "one byte more": (certificate([FIRST]) + b"\0", "fault 7 s Trailing 46\n"),
}


class Check(unittest.TestCase):
    """A bank of one sample, whose certificate is replaced."""

    def setUp(self):
        self.folder = pathlib.Path(self.enterContext(tempfile.TemporaryDirectory()))
        (self.folder / "m.toml").write_text(MANIFEST)
        (self.folder / "s.wav").write_bytes(wave_file.write([1] * 16, 32000, None))
        self.assertEqual(run([PROGRAM, "compile", "m.toml"], self.folder).returncode, 0)

    def said(self, data):
        """What is said of this certificate."""
        (self.folder / "b.s.cert").write_bytes(data)
        done = run([PROGRAM, "check", "m.toml"], self.folder)
        self.assertEqual(done.returncode, 7 if done.stdout.startswith("fault 7") else 0)
        return done.stdout

    def test_own(self):
        """The certificate that was stored is accepted."""
        self.assertEqual(self.said((self.folder / "b.s.cert").read_bytes()), GOOD)

    def test_made_by_hand(self):
        """Each certificate has its line."""
        for name, (data, line) in CASES.items():
            with self.subTest(name):
                self.assertEqual(self.said(data), line)

    def test_another_bank(self):
        """A bank of another number of blocks, and one without blocks."""
        whole = (self.folder / "b").read_bytes()
        for blocks, line in [(bytes(9) + b"\x01" + bytes(8), "fault 4 s Shape Blocks 2 1\n"), (b"", "fault 4 b BadEntry 0\n")]:
            with self.subTest(line):
                (self.folder / "b").write_bytes(whole[:12] + struct.pack("<I", 4 + len(blocks)) + whole[16:24] + blocks)
                self.assertEqual(run([PROGRAM, "check", "m.toml"], self.folder).stdout, line)

    def test_cut_short(self):
        """Each front of a certificate is cut short in the field that it tells."""
        whole = certificate([FIRST])
        fields = [4, 5, 6, 8, 10, 11, 12, 20, 24, 26, 28, 30, 34, 36, 38, 46]
        for size in range(len(whole)):
            with self.subTest(size=size):
                at = max((at for at in fields if at <= size), default=None)
                self.assertEqual(self.said(whole[:size]), "fault 7 s BadMagic\n" if size < 4 else f"fault 7 s Short {at}\n")


if __name__ == "__main__":
    unittest.main()
