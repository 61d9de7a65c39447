#!/usr/bin/env python3
"""Banks of IMA ADPCM beside packaged decoders.

    test_ima_decoders.py [PROGRAM]

Generated sounds are compiled with blocks of several sizes. sox and libsndfile follow the practices of 1992 and must give
every sample that `play ima` says. ffmpeg rounds a step's product in place of a sum of shifted steps; how far it drifts is
printed. A decoder that is not installed is left out with a message; Debian has them in the packages sox, sndfile-programs
and ffmpeg.
"""

import math
import pathlib
import random
import shutil
import struct
import tempfile
import unittest

import wave_file
from built_program import adbank, run

BLOCKS = (8, 36, 256, 1024)
RATE = 22050
PACKAGES = {"sox": "sox", "sndfile-convert": "sndfile-programs", "ffmpeg": "ffmpeg"}


def sounds():
    """Sounds that take every size of step: noise, a sine, steps from end to end, and a few frames."""
    chance = random.Random(1992)
    yield "noise", [chance.randint(-32768, 32767) for _ in range(3000)]
    yield "sine", [round(12000 * math.sin(i / 9)) for i in range(3000)]
    yield "square", [32767 if i // 40 % 2 else -32768 for i in range(1500)]
    yield "click", [0] * 40 + [30000] + [0] * 60
    yield "short", [5, -7, 11]


def manifest(block):
    """A bank of all sounds with blocks of so many bytes."""
    lines = ['format = "ima"', 'bank = "bank"', f"block = {block}"]
    for name, _ in sounds():
        lines += ["[[sample]]", f'name = "{name}"', f'file = "{name}.wav"']
    return "\n".join(lines) + "\n"


def samples_of(data):
    """Signed numbers of 16 bits, low byte first."""
    return list(struct.unpack(f"<{len(data) // 2}h", data[: len(data) // 2 * 2]))


def by_sox(folder, file):
    """What sox decodes, without its noise."""
    run(["sox", "-D", file, "-t", "s16", "-L", "out.raw"], folder)
    return samples_of(pathlib.Path(folder, "out.raw").read_bytes())


def by_sndfile(folder, file):
    """What libsndfile decodes."""
    run(["sndfile-convert", "-pcm16", file, "out.wav"], folder)
    return wave_file.read(pathlib.Path(folder, "out.wav").read_bytes(), None)[1]


def by_ffmpeg(folder, file):
    """What ffmpeg decodes."""
    run(["ffmpeg", "-v", "error", "-y", "-i", file, "-f", "s16le", "out.pcm"], folder)
    return samples_of(pathlib.Path(folder, "out.pcm").read_bytes())


class Decoders(unittest.TestCase):
    """One test for each decoder."""

    @classmethod
    def setUpClass(cls):
        cls.folder = cls.enterClassContext(tempfile.TemporaryDirectory())
        cls.banks = []
        for name, samples in sounds():
            pathlib.Path(cls.folder, name + ".wav").write_bytes(wave_file.write(samples, RATE, None))
        for block in BLOCKS:
            pathlib.Path(cls.folder, "bank.toml").write_text(manifest(block))
            done = adbank(cls.folder, "compile", "bank.toml")
            assert done.returncode == 0, done.stdout
            for name, samples in sounds():
                file = f"{block}.{name}.wav"
                pathlib.Path(cls.folder, f"bank.{name}.wav").rename(pathlib.Path(cls.folder, file))
                played = adbank(cls.folder, "play", "ima", file, 0, len(samples)).stdout
                cls.banks.append((file, list(map(int, played.split()))))

    def decoded(self, decoder, decode):
        """Each file with what is played of it and what a decoder gives."""
        if shutil.which(decoder) is None:
            self.skipTest(f"{decoder} is not installed: Debian's package {PACKAGES[decoder]} has it")
        for file, played in self.banks:
            yield file, played, decode(self.folder, file)[: len(played)]

    def test_sox(self):
        """sox gives every sample."""
        for file, played, have in self.decoded("sox", by_sox):
            self.assertEqual(have, played, file)

    def test_libsndfile(self):
        """libsndfile gives every sample."""
        for file, played, have in self.decoded("sndfile-convert", by_sndfile):
            self.assertEqual(have, played, file)

    def test_ffmpeg(self):
        """How far ffmpeg is from what is played."""
        for file, played, have in self.decoded("ffmpeg", by_ffmpeg):
            self.assertEqual(len(have), len(played), file)
            print(f"{file}: ffmpeg is at most {max(abs(x - y) for x, y in zip(have, played))} away")


if __name__ == "__main__":
    unittest.main()
