#!/usr/bin/env python3
"""`adbank bound` over banks of several sounds: its lines, and bounds that no encoding at hand passes.

    test_bound.py [PROGRAM]

A table of error and bound is printed at the end.
"""

import pathlib
import random
import re
import tempfile
import unittest

import seeded_banks
from built_program import adbank, compile_files
from plain_bound import bound_bank

OWN, FRAMES = "m.toml", 480
BEAMS, EFFORTS = (1, 8, 32), (0, 20, 500)
TABLE = []


def faded(rng, count):
    """A square wave that fades: loud and clipped at first, quiet at the end."""
    return [value * (count - at) // count for at, value in enumerate(seeded_banks.square(rng, count))]


SOUNDS = {
    "silence": seeded_banks.silence,
    "noise": seeded_banks.noise,
    "hiss": seeded_banks.hiss,
    "square": seeded_banks.square,
    "faded": faded,
}
LINE = re.compile(r"bound s blocks \d+ loop \S+ error (\d+) bound (\d+) gap (\d+)( optimal)?\ndone 1 samples 0 files\n")


def files_of(form, sound, loop, beam):
    """The files of a bank of one sound."""
    entry = {"name": "s", "file": "s.wav", "loop": None if loop else "none"}
    keys = {"format": form, "bank": "b", "length": "unroll", "beam": beam, "budget": 0}
    at = (FRAMES // 2, FRAMES - 1) if loop else None
    return {"s.wav": seeded_banks.wave([sound], loop=at), OWN: seeded_banks.manifest([entry], **keys)}


class Bound(unittest.TestCase):
    """Each sound in each format, with a loop and without."""

    def setUp(self):
        place = tempfile.TemporaryDirectory()
        self.addCleanup(place.cleanup)
        self.folder = pathlib.Path(place.name)

    def told(self, effort):
        """The error and the bound that are told of the stored bank, as all else must be."""
        done = adbank(self.folder, "bound", OWN, effort)
        files = {path.name: path.read_bytes() for path in self.folder.iterdir()}
        self.assertEqual(done.stdout.encode(), bound_bank(files, OWN, done.stdout.encode()).said)
        self.assertEqual(done.returncode, 0)
        found = LINE.fullmatch(done.stdout)
        return int(found[1]), int(found[2])

    def test_sounds(self):
        """No bound passes the error of an encoding, whatever the beam."""
        for number, (name, make) in enumerate(SOUNDS.items()):
            sound = make(random.Random(number), FRAMES)
            for form in ("brr", "spu", "ima"):
                for loop in (False, True):
                    with self.subTest(name=name, form=form, loop=loop):
                        self.sound(name, form, sound, loop)

    def sound(self, name, form, sound, loop):
        """One sound: the bounds of each effort, under the errors of each beam."""
        errors = []
        for beam in BEAMS:
            compile_files(self.folder, files_of(form, sound, loop, beam), OWN)
            errors.append(self.told(0)[0])
        bounds = [self.told(effort)[1] for effort in EFFORTS]
        self.assertLessEqual(max(bounds), min(errors))
        TABLE.append((name, form, "loop" if loop else "once", errors[0], min(errors), bounds))

    @classmethod
    def tearDownClass(cls):
        for name, form, loop, first, least, bounds in TABLE:
            shares = " ".join(f"{bound / first if first else 1:.3f}" for bound in bounds)
            print(f"{name:8} {form} {loop}: error {first} (least {least}), bound over error at {EFFORTS}: {shares}")


if __name__ == "__main__":
    unittest.main()
