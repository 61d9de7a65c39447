#!/usr/bin/env python3
"""`adbank decompile` over files made by hand, each with the line that it must say, and words that are no command.

    test_decompile.py [PROGRAM]
"""

import pathlib
import struct
import tempfile
import unittest

import wave_file
from built_program import adbank

SILENCE = bytes(16)
END = b"\x00\x01" + bytes(14)
BEHIND = b"\x00\x07" + b"\x77" * 14
FADING = b"\x50" + b"\x11" * 8 + b"\x07" + bytes(8)


def vag(blocks):
    """A VAG file at 32,000 samples a second of these bytes behind its header."""
    return struct.pack(">4sIIIII", b"VAGp", 32, 0, len(blocks), 32000, 0).ljust(48, b"\0") + blocks


def image(blocks, again):
    """An image at address 512 of one entry at 32,000 samples a second."""
    head = struct.pack("<4sBBHHHI", b"SNBI", 1, 0, 1, 512, 0, 4 + len(blocks))
    return head + struct.pack("<IHH", 32000, 0x0204, again) + blocks


FAULTS = {
    "no loop start": ("vag", vag(b"\x00\x03" + bytes(14)), "NoLoopStart 0"),
    "a header cut short": ("vag", b"VAGp" + bytes(43), "VagShort 47"),
    "no whole blocks": ("vag", vag(bytes(17)), "Ragged 17"),
    "a filter too great": ("vag", vag(b"\x50\x01" + bytes(14)), "BadFilter 0 5"),
    "a block too many": ("vag", vag(SILENCE * 4096 + END), "TooMuch 4097"),
    "a loop within a block": ("brr", image(FADING, 0x020E), "BadLoopAddress 0"),
    "no end": ("brr", image(bytes(9), 0x0204), "BadEntry 0"),
}

# Samples are outputs times the scale, and a loop that settles is the playing that is given again.
FALLING = [32] * 16 + list(range(30, -1, -2)) + [0] * 16
ENTRIES = {
    "a loop that settles": ("brr", image(FADING, 0x020D), "entry 0 frames 48 loop 32..47 settles 1 trailing 0\n", (FALLING, (32, 47))),
    "bytes behind the end": ("vag", vag(SILENCE + END + BEHIND), "entry 0 frames 56 loop none settles none trailing 16\n", ([0] * 56, None)),
}

OTHER_WORDS = [
    [],
    ["help"],
    ["help", "decompile"],
    ["--help"],
    ["-h"],
    ["--version"],
    ["-V"],
    ["decompile"],
    ["decompile", "--help"],
    ["decompile", "vag", "F"],
    ["decompile", "vag", "F", "o", "p"],
    ["decompile", "vag", "--", "F", "o"],
    ["decompile", "spu", "F", "o"],
    ["decomp", "vag", "F", "o"],
    ["Decompile", "vag", "F", "o"],
    ["decompile", "VAG", "F", "o"],
    ["decompile", "vag", "", "o"],
    ["decompile", "vag", "F", "-1"],
]


class Decompile(unittest.TestCase):
    """A file `F` that is taken apart."""

    def setUp(self):
        self.folder = pathlib.Path(self.enterContext(tempfile.TemporaryDirectory()))

    def ends(self, form, data, out="o"):
        """The code and the lines of a run."""
        (self.folder / "F").write_bytes(data)
        done = adbank(self.folder, "decompile", form, "F", out)
        return done.returncode, done.stdout

    def test_faults(self):
        """Each fault has its line, and nothing is stored."""
        for name, (form, data, fault) in FAULTS.items():
            with self.subTest(name):
                self.assertEqual(self.ends(form, data), (4, f"fault 4 F {fault}\n"))
                self.assertEqual([path.name for path in self.folder.iterdir()], ["F"])

    def test_entries(self):
        """Each entry has its line, and its file has its samples and its loop."""
        for name, (form, data, line, (samples, at)) in ENTRIES.items():
            with self.subTest(name):
                self.assertEqual(self.ends(form, data), (0, line))
                self.assertEqual((self.folder / "o.0.wav").read_bytes(), wave_file.write(samples, 32000, at))

    def test_no_place(self):
        """A name at which no file can be stored is told."""
        _, data, _, _ = ENTRIES["a loop that settles"]
        self.assertEqual(self.ends("brr", data, "none/o"), (8, "fault 8 store none/o.0.wav\n"))
        (self.folder / "o.0.wav").mkdir()
        self.assertEqual(self.ends("brr", data), (8, "fault 8 store o.0.wav\n"))

    def test_words(self):
        """Other words are no command, and what they leave is one line."""
        for words in OTHER_WORDS:
            with self.subTest(" ".join(words)):
                done = adbank(self.folder, *words)
                self.assertEqual((done.returncode, done.stdout, done.stderr), (2, "fault 2 words\n", ""))


if __name__ == "__main__":
    unittest.main()
