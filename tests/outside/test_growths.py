#!/usr/bin/env python3
"""Every growth of memory refused, one in each run: what the program then says, stores and answers.

    test_growths.py [PROGRAM]

refuse_growth.c is preloaded into the program; it counts growths and refuses one. A run with a growth refused ends with
status 9 or as it ends with all memory; it sets no file where that growth comes before the first store, else the files of a
front of the store order, of which the last may be unknown; what it says is a front of what is said with all memory, or of
the line of its status.
"""

import math
import os
import pathlib
import shutil
import subprocess
import tempfile
import unittest

import seeded_banks
from built_program import PROGRAM

SHIM = pathlib.Path(__file__).with_name("refuse_growth.c")
# Banks with more growths are tried at so many places at most, evenly.
MOST_TRIED = 1500


def ramp(i):
    """Frame i of a sound of 32 frames up and down, as an editor writes it."""
    return 48000 * i * (32 - i) // 1024 if i < 32 else -ramp(i - 32)


def bank(form, sounds, **keys):
    """The files of a bank of sounds, each its frames and its loop."""
    files, entries = {}, []
    for number, (frames, loop) in enumerate(sounds):
        files[f"s{number}.wav"] = seeded_banks.wave([frames], loop=loop)
        entries.append({"name": f"s{number}", "file": f"s{number}.wav"})
    return {**files, "m.toml": seeded_banks.manifest(entries, format=form, **keys)}


SOUNDS = (([0] * 16, (0, 15)), ([ramp(i) for i in range(64)], (0, 63)), ([i * i % 700 - 350 for i in range(50)], None))
BANKS = {
    "zeros": bank("brr", SOUNDS[:1], budget=1000),
    "a wave": bank("brr", SOUNDS[1:2], beam=8, budget=2000),
    "three sounds of BRR": bank("brr", SOUNDS, budget=500, length="unroll"),
    "three sounds of SPU-ADPCM": bank("spu", SOUNDS, budget=500, length="unroll"),
    "three sounds of IMA ADPCM": bank("ima", SOUNDS, budget=20, block=36),
}


class Growths(unittest.TestCase):
    """A run for each growth of some commands."""

    @classmethod
    def setUpClass(cls):
        if not shutil.which("cc"):
            raise unittest.SkipTest("no C compiler")
        cls.place = tempfile.TemporaryDirectory()
        cls.shim = os.path.join(cls.place.name, "refuse_growth.so")
        subprocess.run(["cc", "-O2", "-shared", "-fPIC", "-o", cls.shim, str(SHIM), "-ldl"], check=True)

    @classmethod
    def tearDownClass(cls):
        cls.place.cleanup()

    def run_with(self, files, words, refused):
        """How a run over these files ends with one growth refused, and how many there were, in all and before a store."""
        with tempfile.TemporaryDirectory() as folder:
            for name, data in files.items():
                pathlib.Path(folder, name).write_bytes(data)
            counted = os.path.join(self.place.name, "counted")
            given = {"LD_PRELOAD": self.shim, "REFUSED": str(refused), "COUNTED": counted}
            done = subprocess.run([PROGRAM, *words], cwd=folder, env=given, stdout=subprocess.PIPE, check=False)
            after = {path.name: path.read_bytes() for path in pathlib.Path(folder).iterdir()}
        numbers = tuple(map(int, pathlib.Path(counted).read_text(encoding="ascii").split()))
        return done.returncode, done.stdout, {name: after[name] for name in after if after[name] != files.get(name)}, numbers

    def try_all(self, files, words, most=MOST_TRIED):
        """Runs once with all memory, and then with each growth refused, or with so many; gives the files that are stored."""
        status, said, stored, (count, first) = self.run_with(files, words, 0)
        self.assertEqual(status, 0, said)
        for number in range(1, count + 1, math.ceil(count / most)):
            with self.subTest(words=words, growth=number, of=count):
                ended, line, left, _ = self.run_with(files, words, number)
                self.assertIn(ended, (0, 9))
                if ended == 0:
                    self.assertEqual((line, left), (said, stored))
                    continue
                self.assertTrue(said.startswith(line), line)
                if first < 0 or number <= first:
                    self.assertEqual(left, {})
                wrong = [name for name in left if left[name] != stored.get(name)]
                self.assertLessEqual(len(wrong), 1)
        return {**files, **stored}

    def test_banks(self):
        """Every bank is compiled, checked and bounded, and one of its files taken apart and played."""
        for name, files in BANKS.items():
            with self.subTest(bank=name):
                after = self.try_all(files, ["compile", "m.toml"])
                self.try_all(after, ["check", "m.toml"])
                self.try_all(after, ["bound", "m.toml", "20"])
                form, file = {"b": ("brr", "x.img"), "s": ("vag", "x.img.s0.vag"), "i": ("ima", "x.img.s0.wav")}[self.form_of(files)]
                self.try_all(after, ["decompile", form, file, "out"])
                self.try_all(after, ["play", form, file, "0", "40"])

    @staticmethod
    def form_of(files):
        """The first letter of a bank's format."""
        return files["m.toml"].decode().split('format = "')[1][0]

    def test_make(self):
        """A number's sounds are compiled."""
        self.try_all({}, ["make", "0"], 60)

    def test_block(self):
        """One block is made."""
        self.try_all({"raw": bytes(range(32))}, ["block", "raw", "out"])


if __name__ == "__main__":
    unittest.main()
