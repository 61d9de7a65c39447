#!/usr/bin/env python3
"""`adbank bound` beside the plain program strong_bound.cpp, on ten sounds in BRR and in SPU-ADPCM.

    test_strong_bound.py [PROGRAM]

Its bounds must come as near to the error as those of the plain program, up to a hundredth of the error, and pass the error of
no encoding at hand: beams of two widths, and several paths through each block. A table of both is printed at the end. Where
there is no C++ compiler the test is passed over.
"""

import pathlib
import re
import shutil
import subprocess
import tempfile
import time
import unittest

import seeded_banks
from built_program import adbank, compile_files
from ten_sounds import sounds

OWN, FRAMES, EFFORT = "m.toml", 2205, 500
HERE = pathlib.Path(__file__).resolve().parent
COMPILER = shutil.which("g++") or shutil.which("clang++")
LINE = re.compile(r"bound s blocks \d+ loop none error (\d+) bound (\d+) gap \d+( optimal)?\ndone 1 samples 0 files\n")
TABLE = []


def files_of(form, sound, beam):
    """The files of a bank of one sound."""
    keys = {"format": form, "bank": "b", "beam": beam, "budget": 0}
    return {"s.wav": seeded_banks.wave([sound]), OWN: seeded_banks.manifest([{"name": "s", "file": "s.wav"}], **keys)}


@unittest.skipUnless(COMPILER, "no C++ compiler: the plain program is not built")
class StrongBound(unittest.TestCase):
    """Each sound in each of the two formats."""

    @classmethod
    def setUpClass(cls):
        cls.place = tempfile.TemporaryDirectory()
        cls.addClassCleanup(cls.place.cleanup)
        cls.folder = pathlib.Path(cls.place.name)
        cls.plain = cls.folder / "strong_bound"
        subprocess.run([COMPILER, "-O2", "-std=c++17", "-o", cls.plain, HERE / "strong_bound.cpp"], check=True)

    def plainly(self, form, sound, *words):
        """What the plain program finds, and how long it takes."""
        begin = time.monotonic()
        done = subprocess.run([self.plain, form, *map(str, words)], input=" ".join(map(str, sound)), stdout=subprocess.PIPE, text=True, check=True)
        return int(done.stdout), time.monotonic() - begin

    def told(self, form, sound, beam):
        """The error and the bound that the program tells, and how long it takes."""
        compile_files(self.folder, files_of(form, sound, beam), OWN)
        begin = time.monotonic()
        done = adbank(self.folder, "bound", OWN, EFFORT)
        found = LINE.fullmatch(done.stdout)
        self.assertTrue(found, done.stdout)
        return int(found[1]), int(found[2]), time.monotonic() - begin

    def test_sounds(self):
        """As near as the plain program, and above no encoding."""
        for form in ("brr", "spu"):
            for name, sound in sounds(FRAMES).items():
                with self.subTest(form=form, name=name):
                    self.sound(form, name, sound)

    def sound(self, form, name, sound):
        """One sound in one format."""
        error, bound, took = self.told(form, sound, 1)
        plain, plainly = self.plainly(form, sound, "bound", EFFORT)
        wider, _, _ = self.told(form, sound, 16)
        paths, _ = self.plainly(form, sound, "encode", 4, 4)
        TABLE.append((form, name, error, min(error, wider, paths), bound, plain, took, plainly))
        self.assertLessEqual(max(bound, plain), min(error, wider, paths))
        self.assertGreaterEqual(100 * bound + error, 100 * plain)

    @classmethod
    def tearDownClass(cls):
        for form, name, error, least, bound, plain, took, plainly in TABLE:
            shares = " ".join(f"{value / error if error else 1:.3f}" for value in (bound, plain, least))
            print(f"{form} {name:8} error {error:11}: bound, plain bound and least error over it {shares}; {took:.2f} s, plainly {plainly:.2f} s")


if __name__ == "__main__":
    unittest.main()
