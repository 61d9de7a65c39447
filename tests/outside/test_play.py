#!/usr/bin/env python3
"""`adbank play` over files made by hand: the outputs and the faults, each with its lines.

    test_play.py [PROGRAM]
"""

import pathlib
import struct
import tempfile
import unittest

from built_program import adbank

# An image at address 512 of two blocks, of which the second repeats: codes 1 under shift 5, then zeros under filter 1.
FADING = struct.pack("<4sBBHHHIIHH", b"SNBI", 1, 0, 1, 512, 0, 22, 32000, 0x0204, 0x020D) + b"\x50" + b"\x11" * 8 + b"\x07" + bytes(8)
# A VAG file of one block of filter 0 and shift 0 with codes 7, which ends the sample.
LOUD = struct.pack(">4sIIIII", b"VAGp", 32, 0, 16, 32000, 0).ljust(48, b"\0") + b"\x00\x01" + b"\x77" * 14
# A WAVE file of IMA ADPCM of one block: 0, and 1 eight times.
SINGLE = (
    struct.pack("<4sI4s4sIHHIIHHHH", b"RIFF", 60, b"WAVE", b"fmt ", 20, 17, 1, 32000, 28444, 8, 4, 2, 9)
    + struct.pack("<4sII4sI", b"fact", 4, 9, b"data", 8)
    + b"\0\0\0\0\x01\0\0\0"
)


def lines(outputs):
    """The lines of some outputs."""
    return "".join(f"{output}\n" for output in outputs)


def changed(data, *places):
    """The same bytes but for some."""
    data = bytearray(data)
    for place, byte in places:
        data[place] = byte
    return bytes(data)


OUTPUTS = {
    "a loop that fades": ("brr", FADING, 20, [16] * 16 + [15, 14, 13, 12]),
    "codes below zero": ("brr", changed(FADING, (25, 0xFE)), 3, [-16, -32, 16]),
    "silence behind the end": ("vag", LOUD, 29, [28672] * 28 + [0]),
    "silence behind the frames": ("ima", SINGLE, 11, [0] + [1] * 8 + [0, 0]),
    "nothing": ("brr", FADING, 0, []),
}

LONG = FADING[:12] + struct.pack("<I", 4 + 9 * 4097) + FADING[16:24] + bytes(9 * 4096) + b"\x01" + bytes(8)
# The entry that is asked for is 1, which no file has: that is the last test.
FAULTS = [
    ("brr", b"", "NotImage"),
    ("brr", changed(FADING, (3, ord("J"))), "NotImage"),
    ("brr", changed(FADING, (4, 2)), "BadVersion 2"),
    ("brr", changed(FADING, (6, 0)), "BadEntries 0"),
    ("brr", changed(FADING, (6, 65)), "BadEntries 65"),
    ("brr", changed(FADING, (8, 1)), "BadBase 513"),
    ("brr", changed(FADING, (14, 1)), "ImageFull 66070"),
    ("brr", changed(FADING, (12, 23)), "ImageLength 42 43"),
    ("brr", changed(FADING, (19, 1)), "BadRate 0 16809216"),
    ("brr", changed(FADING, (21, 1)), "BadEntry 0"),
    ("brr", changed(FADING, (33, 6)), "BadEntry 0"),
    ("brr", changed(FADING, (22, 5)), "BadLoopAddress 0"),
    ("brr", LONG, "TooMuch 4097"),
    ("brr", FADING, "NoEntry 1 1"),
    ("vag", b"VAGp", "VagShort 4"),
    ("vag", changed(LOUD, (3, ord("q"))), "NotVag"),
    ("vag", changed(LOUD, (18, 0), (19, 0)), "BadRate 0"),
    ("vag", changed(LOUD, (15, 15)), "Ragged 15"),
    ("vag", changed(LOUD, (49, 0)), "NoEnd"),
    ("vag", changed(LOUD, (49, 3)), "NoLoopStart 0"),
    ("vag", changed(LOUD, (48, 0x50)), "BadFilter 0 5"),
    ("vag", LOUD, "NoEntry 1 1"),
    ("ima", changed(SINGLE, (20, 1)), "NotIma 1"),
    ("ima", changed(SINGLE, (3, ord("f"))), "NotRiff"),
    ("ima", changed(SINGLE, (62, 89)), "BadHead 0 BadIndex 89"),
    ("ima", SINGLE, "NoEntry 1 1"),
]

OTHER_WORDS = ["brr F 00 5", "brr F 0 05", "brr F 64 5", "brr F 0 1000001", "brr F 0 99999999999999999999", "brr F +0 5", "wav F 0 5", "brr F 0", "brr F 0 5 6"]


class Play(unittest.TestCase):
    """A file `F` that is played."""

    def setUp(self):
        self.folder = pathlib.Path(self.enterContext(tempfile.TemporaryDirectory()))

    def ends(self, form, data, entry, count):
        """The code and the lines of a run."""
        (self.folder / "F").write_bytes(data)
        done = adbank(self.folder, "play", form, "F", entry, count)
        return done.returncode, done.stdout

    def test_outputs(self):
        """Each file has its outputs."""
        for name, (form, data, count, outputs) in OUTPUTS.items():
            with self.subTest(name):
                self.assertEqual(self.ends(form, data, 0, count), (0, lines(outputs)))

    def test_faults(self):
        """Each fault has its line."""
        for form, data, fault in FAULTS:
            with self.subTest(fault):
                self.assertEqual(self.ends(form, data, 1, 5), (4, f"fault 4 F {fault}\n"))

    def test_words(self):
        """Other words are no command."""
        for words in OTHER_WORDS:
            with self.subTest(words):
                self.assertEqual(adbank(self.folder, "play", *words.split()).stdout, "fault 2 words\n")


if __name__ == "__main__":
    unittest.main()
