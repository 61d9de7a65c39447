#!/usr/bin/env python3
"""tools/brr_split.py: what it takes apart plays as the program plays it, and comes back byte for byte.

    test_brr_split.py [PROGRAM]
"""

import contextlib
import io
import os
import pathlib
import random
import subprocess
import sys
import tempfile
import unittest

import brr
import seeded_banks
from built_program import ROOT, adbank, compile_files, tool

sys.path.append(str(ROOT / "tools"))
import brr_split

EXAMPLES = ROOT / "examples"
BANKS = 12
DAMAGED = 300


def example(name):
    """The files of the examples, and a manifest's name."""
    files = {path.name: path.read_bytes() for path in EXAMPLES.iterdir() if path.is_file()}
    return seeded_banks.Bank(name, files, name, "")


def played(data, count):
    """The first outputs of a .brr file."""
    offset, blocks = int.from_bytes(data[:2], "little"), data[2:]
    outputs, at = [0, 0], 0
    while len(outputs) < count + 2:
        if at == len(blocks):
            if blocks[-9] & 3 == 1:
                return outputs[2:] + [0] * (count + 2 - len(outputs))
            at = offset
        outputs += brr.decode(blocks[at : at + 9], outputs[-1], outputs[-2])
        at += 9
    return outputs[2 : count + 2]


class Split(unittest.TestCase):
    """Each test has a folder of its own."""

    def setUp(self):
        self.folder = pathlib.Path(self.enterContext(tempfile.TemporaryDirectory()))

    def split(self, *words):
        """How `split` ends."""
        return self.ends("split", *words)

    def join(self, *words):
        """How `join` ends."""
        return self.ends("join", *words)

    def ends(self, *words):
        """How some words end in the folder; the tool runs in this process, which is quicker."""
        before, said, told = os.getcwd(), io.StringIO(), io.StringIO()
        os.chdir(self.folder)
        try:
            with contextlib.redirect_stdout(said), contextlib.redirect_stderr(told):
                status = brr_split.main(list(map(str, words)))
        finally:
            os.chdir(before)
        return subprocess.CompletedProcess(words, status, said.getvalue(), told.getvalue())

    def assert_refused(self, done, says):
        """One line says this, and the status is 1."""
        self.assertEqual((done.returncode, done.stdout, done.stderr), (1, "", f"brr_split: {says}\n"))

    def assert_done(self, done):
        """Nothing is said, and the status is 0."""
        self.assertEqual((done.returncode, done.stdout, done.stderr), (0, "", ""))

    def small_bank(self):
        """An image with a sample that repeats and two that do not, and its name."""
        sounds = {"a": ([900 * (i % 7) for i in range(40)], (8, 39)), "b": ([i * i for i in range(30)], None), "c": ([7] * 16, None)}
        files = {name: seeded_banks.wave([sound], loop=loop) for name, (sound, loop) in sounds.items()}
        files["m.toml"] = seeded_banks.manifest([{"name": name, "file": name} for name in sounds], base=768)
        compile_files(self.folder, files, "m.toml")
        return (self.folder / "x.img").read_bytes()

    def test_banks(self):
        """Banks of the program come back, and each .brr file plays as its entry does."""
        banks = [example("bank.toml"), example("tone.toml"), *map(seeded_banks.fitting_bank, range(BANKS))]
        for bank in banks:
            with self.subTest(bank.name):
                folder = pathlib.Path(self.enterContext(tempfile.TemporaryDirectory()))
                said = compile_files(folder, bank.files, bank.own).splitlines()[:-1]
                names = [line.split()[1] for line in said]
                image = sorted(path for path in folder.iterdir() if path.read_bytes()[:4] == b"SNBI")[0]
                self.assert_done(self.split(image, folder / "parts", *names))
                self.assert_done(self.join(folder / "parts", folder / "again"))
                self.assertEqual((folder / "again").read_bytes(), image.read_bytes())
                for entry, line in enumerate(said):
                    words = line.split()
                    data = (folder / "parts" / (words[1] + ".brr")).read_bytes()
                    self.assertEqual(len(data), 2 + 9 * int(words[3]))
                    self.assertEqual(int.from_bytes(data[:2], "little"), 0 if words[5] == "none" else 9 * int(words[5]))
                    count = 40 * int(words[3]) + 5
                    heard = adbank(folder, "play", "brr", image.name, entry, count).stdout.split()
                    self.assertEqual(played(data, count), list(map(int, heard)))

    def test_order(self):
        """What order.txt says, and the names without any given."""
        self.small_bank()
        self.assert_done(self.split("x.img", "parts"))
        self.assertEqual(sorted(path.name for path in (self.folder / "parts").iterdir()), ["00.brr", "01.brr", "02.brr", "order.txt"])
        order = "base 768\nsample 32000 00.brr\nsample 32000 01.brr\nsample 32000 02.brr\n"
        self.assertEqual((self.folder / "parts" / "order.txt").read_text(), order)

    def test_damaged_images(self):
        """What the program refuses is refused with the same fault; all else comes back, or is not taken apart."""
        whole, rng = self.small_bank(), random.Random(1)
        outcomes = set()
        for turn in range(DAMAGED):
            data = bytearray(whole)
            if turn % 8 == 0:
                data = data[: rng.randrange(len(data))]
            else:
                for _ in range(rng.randrange(1, 3)):
                    data[rng.randrange(40)] = rng.choice((0, 1, 3, 9, 255, rng.randrange(256)))
                if turn % 8 == 1:
                    data[-9] &= 254
            (self.folder / "d.img").write_bytes(data)
            line = adbank(self.folder, "play", "brr", "d.img", "0", "1").stdout
            with self.subTest(data.hex()):
                if line.startswith("fault 4 d.img "):
                    self.assert_refused(self.split("d.img", "parts"), "d.img: " + line.removeprefix("fault 4 d.img ").rstrip("\n"))
                    outcomes.add(line.split()[3])
                    continue
                done = self.split("d.img", "parts")
                if done.returncode:
                    self.assert_refused(done, "d.img: its samples do not fill it in order; --loose takes it apart all the same")
                    self.assert_done(self.split("--loose", "d.img", "parts"))
                    outcomes.add("loose")
                else:
                    self.assert_done(self.join("parts", "again"))
                    self.assertEqual((self.folder / "again").read_bytes(), data)
                    outcomes.add("back")
        wanted = "NotImage BadVersion BadEntries BadBase ImageFull ImageLength BadRate BadEntry BadLoopAddress loose back"
        self.assertEqual(outcomes, set(wanted.split()))

    def test_damaged_parts(self):
        """Files that make no image are refused, and the image is not stored."""
        self.small_bank()
        self.assert_done(self.split("x.img", "parts", "a", "b", "c"))
        parts = self.folder / "parts"
        order, file = (parts / "order.txt").read_text(), (parts / "a.brr").read_bytes()
        orders = [
            ("", "it is empty"),
            ("base 100\n" + order[9:], "BadBase 100"),
            ("base 768\n", "BadEntries 0"),
            ("base 768\n" + "sample 1 a.brr\n" * 65, "BadEntries 65"),
            (order + "sample 0 a.brr\n", "line 5: BadRate 3 0"),
            (order[9:], "line 1 is not `base ADDRESS`"),
            (order + "sample 1 ../a.brr\n", "line 5 is not `sample RATE FILE`"),
            (order.replace("768", "65280") + "sample 1 a.brr\n" * 9, "ImageFull 65625"),
        ]
        for text, says in orders:
            (parts / "order.txt").write_text(text)
            self.assert_refused(self.join("parts", "again"), "parts/order.txt: " + says)
        (parts / "order.txt").write_text(order)
        ended = bytes([file[2] | 1])
        files = [
            (b"", "0 bytes are not a loop offset of 2 and blocks of 9"),
            (file[2:], f"{len(file) - 2} bytes are not a loop offset of 2 and blocks of 9"),
            (file[:-9], "no block ends the sample"),
            (file[:2] + ended + file[3:], "block 0 ends the sample, and others follow"),
            (b"\1" + file[1:], "no block begins at the loop offset 1"),
            (len(file[2:]).to_bytes(2, "little") + file[2:], f"no block begins at the loop offset {len(file) - 2}"),
        ]
        for data, says in files:
            (parts / "a.brr").write_bytes(data)
            self.assert_refused(self.join("parts", "again"), "parts/a.brr: " + says)
        (parts / "a.brr").unlink()
        self.assert_refused(self.join("parts", "again"), "parts/a.brr: No such file or directory")
        self.assertFalse((self.folder / "again").exists())

    def test_words(self):
        """Words that are wrong are told in one line; --help says what they may be."""
        self.small_bank()
        self.assert_refused(self.split("x.img", "parts", "a"), "x.img: it has 3 samples, and 1 names are given")
        self.assert_refused(self.split("x.img", "parts", "a", "b", "a"), "x.img: `a` is no name for a file, or is given twice")
        self.assert_refused(self.split("x.img", "parts", "a", "b", "../c"), "x.img: `../c` is no name for a file, or is given twice")
        self.assert_refused(self.split("gone", "parts"), "gone: No such file or directory")
        self.assertFalse((self.folder / "parts").exists())
        self.assert_refused(tool(self.folder, "brr_split.py", "split", "m.toml", "parts"), "m.toml: NotImage")
        done = tool(self.folder, "brr_split.py", "melt")
        self.assertEqual((done.returncode, done.stdout, done.stderr.count("\n")), (2, "", 1))
        self.assertIn("order.txt", tool(self.folder, "brr_split.py", "--help").stdout)


if __name__ == "__main__":
    unittest.main()
