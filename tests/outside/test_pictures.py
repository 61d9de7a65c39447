#!/usr/bin/env python3
"""The pictures of tools/pictures: well-formed, small, and their numbers those of the plain programs of this folder.

    test_pictures.py [PROGRAM]

A bank is made from a fixed seed. Its targets, errors and bounds are found again from its sources and from the stored
image; numbers in a picture are read as one reads them by eye, from the places of marks between the numbers of a scale.
"""

import math
import os
import pathlib
import random
import re
import shutil
import struct
import subprocess
import sys
import tempfile
import unittest
import xml.etree.ElementTree as tree

import bank_manifest
import brr
import plain_compiler
import plain_machines
import plain_search
import wave_file

ROOT = pathlib.Path(__file__).resolve().parents[2]
EXAMPLES, STORED = ROOT / "examples", ROOT / "docs" / "pictures"
PROGRAM = os.path.abspath(sys.argv.pop(1) if sys.argv[1:] and os.path.isfile(sys.argv[1]) else ROOT / "build" / "adbank")
SVG = "{http://www.w3.org/2000/svg}"
MOST_BYTES = 60000


def draw(folder, *words):
    """How the tool ends in a folder."""
    tool = [sys.executable, "-B", str(ROOT / "tools" / "pictures"), "--program", PROGRAM]
    return subprocess.run([*tool, *words], cwd=folder, capture_output=True, text=True, check=False)


# The bank


def walk(numbers, frames, step):
    """Small random steps."""
    value, out = 0, []
    for _ in range(frames):
        value = max(-32768, min(32767, value + numbers.randrange(-step, step + 1)))
        out.append(value)
    return out


def sources():
    """The sounds of the bank by name, and the lines of the manifest that are more than a name and a file."""
    numbers = random.Random(5)
    walked = walk(numbers, 300, 3000)
    stereo = struct.pack("<200h", *walk(numbers, 200, 900))
    round_eight = wave_file.smpl(11025, 3, 150)
    eight = bytes(128 + value // 256 for value in walk(numbers, 200, 2000))
    return {
        "round": (wave_file.write(walked, 16000, (250, 289)), ""),
        "once": (wave_file.write(walked[:300], 8000, None), ""),
        "passed": (wave_file.write(walked[:100], 8000, (16, 47)), 'loop = "none"'),
        "right": (wave_file.riff([wave_file.fmt(2, 32000, 16), wave_file.chunk(b"data", stereo)]), "channel = 1"),
        "eight": (wave_file.riff([wave_file.fmt(1, 11025, 8), wave_file.chunk(b"data", eight), round_eight]), ""),
        "silent": (wave_file.write([0] * 40, 8000, None), ""),
        "even": (wave_file.write([0, 2, -2, 4] * 8, 8000, None), ""),
        "long": (wave_file.write(walk(numbers, 6000, 40), 8000, None), ""),
    }


def manifest(names):
    """The manifest of the bank."""
    text = 'format = "brr"\nbank = "b.img"\nlength = "unroll"\nstart = "rotate"\nbeam = 1\nbudget = 200\n'
    return text + "".join(f'[[sample]]\nname = "{name}"\nfile = "{name}.wav"\n{more}\n' for name, (_, more) in names.items())


class Found:
    """A sample as this folder's programs find it: targets and doubled outputs that go on round the loop, and errors."""

    def __init__(self, folder, settings, place):
        entry = settings["samples"][place]
        _, frames, sampler = wave_file.read((folder / entry["file"]).read_bytes(), entry["channel"])
        loop = wave_file.first_loop(sampler, len(frames)) if entry["loop"] == "smpl" else None
        self.first, self.loop_block = plain_compiler.fit(frames, loop, settings["length"], settings["start"], 16)
        self.outputs = [2 * out for out in decoded(folder / settings["bank"], place, len(self.first) // 16)]
        self.errors = [(out - target) ** 2 for out, target in zip(self.outputs, self.first)]
        machine = plain_machines.machine_of(settings)
        found = plain_search.search_sample(machine, self.first, self.loop_block, settings["beam"], settings["budget"])
        self.bound = sum(part.bound for part in found)

    def at(self, values, place):
        """A value of the first pass, or of the rounds behind it."""
        begin, end = 16 * (self.loop_block or 0), len(self.first)
        return values[place if place < end else begin + (place - begin) % (end - begin)]

    def block_errors(self):
        """The errors of the blocks."""
        return [sum(self.errors[at : at + 16]) for at in range(0, len(self.errors), 16)]


def decoded(path, place, blocks):
    """The outputs of so many blocks of an entry in an image."""
    data = path.read_bytes()
    entries, base = struct.unpack("<2xHI", data[4:12])
    memory = data[16 + 4 * entries :]
    at = struct.unpack("<H", memory[4 * place : 4 * place + 2])[0] - base
    outputs = [0, 0]
    for block in range(blocks):
        outputs += brr.decode(memory[at + 9 * block : at + 9 * block + 9], outputs[-1], outputs[-2])
    return outputs[2:]


# Reading pictures


def kinds(mark):
    """The classes of a mark."""
    return mark.get("class", "").split()


def numbers_at(picture, axis):
    """The faint numbers of a picture: their values with their places across or down."""
    found = []
    for text in picture.iter(SVG + "text"):
        if "faint" in kinds(text) and re.fullmatch(r"-?\d+(\.\d+)?", text.text):
            found.append((float(text.text), float(text.get("x")), float(text.get("y")), text.get("text-anchor")))
    wanted = "middle" if axis == "x" else "end"
    return [(value, x if axis == "x" else y - 4) for value, x, y, anchor in found if anchor == wanted]


def scale(low, high):
    """From a place to a value, by two numbers of a scale with their places."""
    (first, start), (last, end) = low, high
    return lambda place: first + (place - start) * (last - first) / (end - start)


def points(path):
    """The places of a path."""
    return [tuple(map(float, pair.split(","))) for pair in path.get("d").strip("MZ").split()]


def paths(picture, *wanted):
    """The paths with exactly these classes."""
    return [points(path) for path in picture.iter(SVG + "path") if kinds(path) == list(wanted)]


class Pictures(unittest.TestCase):
    """The tests."""

    @classmethod
    def setUpClass(cls):
        cls.folder = pathlib.Path(cls.enterClassContext(tempfile.TemporaryDirectory()))
        made = sources()
        for name, (data, _) in made.items():
            (cls.folder / (name + ".wav")).write_bytes(data)
        (cls.folder / "b.toml").write_text(manifest(made), encoding="utf-8")
        cls.done = draw(cls.folder, "b.toml", "--into", "p")
        settings = bank_manifest.read((cls.folder / "b.toml").read_bytes(), "b.toml")
        cls.samples = {name: Found(cls.folder, settings, place) for place, name in enumerate(made)}

    def picture(self, name, folder=None):
        """A picture, which is well-formed, small, and for light and dark."""
        data = ((folder or self.folder / "p") / (name + ".svg")).read_bytes()
        self.assertLess(len(data), MOST_BYTES, name)
        self.assertIn(b"prefers-color-scheme:dark", data)
        picture = tree.fromstring(data)
        self.assertEqual({mark.tag.startswith(SVG) for mark in picture.iter()}, {True})
        style = picture.find(SVG + "style").text
        for mark in picture.iter():
            for kind in kinds(mark):
                self.assertIn(f".{kind}{{", style)
        return picture

    def test_names(self):
        """The pictures that are said are there, and no other."""
        names = {"bars"} | {f"{name}-{what}" for name in self.samples for what in ("sound", "blocks")}
        self.assertEqual((self.done.returncode, self.done.stdout), (0, f"{len(names)} pictures in p\n"), self.done.stderr)
        self.assertEqual({path.stem for path in (self.folder / "p").iterdir()}, names)

    def test_bars(self):
        """Each bar is as long as its dB say, and says its number."""
        picture = self.picture("bars")
        ticks = numbers_at(picture, "x")
        value_at = scale(ticks[0], ticks[1])
        bars = [mark for mark in picture.iter(SVG + "rect") if mark.find(SVG + "title") is not None]
        texts = [text.text for text in picture.iter(SVG + "text")]
        wanted = [
            (name, kind, error, sample)
            for name, sample in self.samples.items()
            for kind, error in (("error", sum(sample.errors)), ("bound", sample.bound))
        ]
        self.assertEqual(len(bars), len(wanted))
        for bar, (name, kind, error, sample) in zip(bars, wanted):
            signal = sum(target * target for target in sample.first)
            words = f"{kind} {error:,}".replace(",", "\u2009")
            reached = value_at(float(bar.get("x")) + float(bar.get("width")))
            if signal and error:
                ratio = 10 * math.log10(signal / error)
                words = f"{ratio:.1f} dB, {words}"
                self.assertAlmostEqual(reached, ratio, delta=0.1, msg=name)
            else:
                self.assertAlmostEqual(reached, ticks[-1][0], delta=0.1, msg=name)
            self.assertIn(words, texts)
            self.assertEqual(bar.find(SVG + "title").text, f"{name}: {words}")

    def test_blocks(self):
        """Each bar tells its block's error and is as high; the line is the loudness of the source."""
        for name, sample in self.samples.items():
            picture = self.picture(name + "-blocks")
            ticks = numbers_at(picture, "y")
            value_at = scale(ticks[0], ticks[1])
            errors = sample.block_errors()
            seen = []
            for bar in picture.iter(SVG + "rect"):
                if bar.find(SVG + "title") is None:
                    continue
                told = re.fullmatch(
                    r"blocks? (\d+)(?: to (\d+))?: error (?:at most )?(\d+)(?:, (-[\d.]+) dB)?", bar.find(SVG + "title").text
                )
                first = int(told[1])
                last = int(told[2] or first)
                seen += range(first, last + 1)
                error = max(errors[first : last + 1])
                self.assertEqual(int(told[3]), error, (name, first))
                if error:
                    level = 10 * math.log10(error / (16 * 32768**2))
                    self.assertEqual(told[4], f"{level:.1f}")
                    self.assertAlmostEqual(value_at(float(bar.get("y"))), level, delta=0.1)
                else:
                    self.assertEqual(float(bar.get("height")), 0)
            self.assertEqual(seen, list(range(len(errors))))
            self.loudness(picture, sample, value_at)

    def loudness(self, picture, sample, value_at):
        """The line over the bars is the loudness of the source, where each bar is one block."""
        line = paths(picture, "source")[0][::2]
        if len(line) == len(sample.first) // 16:
            for block, (_, y) in enumerate(line):
                squares = sum(target * target for target in sample.first[16 * block : 16 * block + 16])
                if squares:
                    self.assertAlmostEqual(value_at(y), 10 * math.log10(squares / (16 * 32768**2)), delta=0.1)

    def test_sound(self):
        """The lines that are seen near are targets, outputs and their difference, frame by frame."""
        for name, sample in self.samples.items():
            picture = self.picture(name + "-sound")
            title = next(text.text for text in picture.iter(SVG + "text") if text.text.startswith("frames "))
            first, last = map(int, re.match(r"frames (\d+) to (\d+)", title).groups())
            ticks = numbers_at(picture, "y")
            self.assertEqual(len(ticks), 9)
            near, under = scale(ticks[3], ticks[5]), scale(ticks[6], ticks[8])
            frames = numbers_at(picture, "x")
            frame_at = scale(frames[-2], frames[-1])
            for kind, value_at, ends in (
                (("source", "soft", "wide"), near, (ticks[3], ticks[5])),
                (("decoded",), near, (ticks[3], ticks[5])),
                (("error",), under, (ticks[6], ticks[8])),
            ):
                (line,) = paths(picture, *kind)
                self.assertEqual(len(line), last - first + 1)
                # a place has one decimal
                exact = 0.11 * abs(ends[0][0] - ends[1][0]) / abs(ends[0][1] - ends[1][1])
                for place, (x, y) in enumerate(line, first):
                    target, out = sample.at(sample.first, place), sample.at(sample.outputs, place)
                    value = {"source": target, "decoded": out, "error": out - target}[kind[0]]
                    self.assertAlmostEqual(value_at(y), value, delta=exact, msg=(name, place))
                    self.assertAlmostEqual(frame_at(x), place, delta=0.2)

    def test_loop_is_marked(self):
        """The shaded part is the loop, and there is none without a loop."""
        for name, sample in self.samples.items():
            picture = self.picture(name + "-sound")
            shades = [mark for mark in picture.iter(SVG + "rect") if kinds(mark) == ["loop"]]
            loops = [mark for mark in shades if float(mark.get("height")) > 20]
            if sample.loop_block is None:
                self.assertEqual(loops, [])
                continue
            frame_at = scale(*numbers_at(picture, "x")[:2])
            begin, wide = float(loops[0].get("x")), float(loops[0].get("width"))
            self.assertAlmostEqual(frame_at(begin), 16 * sample.loop_block, delta=0.5)
            self.assertAlmostEqual(frame_at(begin + wide), len(sample.first), delta=0.5)

    def test_loops(self):
        """The pictures of what is done to a loop are well-formed, and differ as they say."""
        done = draw(self.folder, "--loops", "--into", "l")
        self.assertEqual((done.returncode, done.stdout), (0, "4 pictures in l\n"), done.stderr)
        shown = {}
        for name in ("exact", "unroll", "front", "rotate"):
            picture = self.picture("loops-" + name, self.folder / "l")
            shown[name] = [[y for _, y in line] for kind in ("source", "decoded") for line in paths(picture, kind)]
        for name, period, begin in (("exact", 32, 16), ("unroll", 80, 16), ("front", 32, 16), ("rotate", 32, 16)):
            played = shown[name][1]
            self.assertEqual(played[begin:-period], played[begin + period :], name)
        # six zeros in front, and none
        self.assertEqual(len(set(shown["front"][1][:6])), 1)
        self.assertGreater(len(set(shown["rotate"][1][:6])), 1)
        # what plays is the source, that much lower on the paper, and under `front` six frames later
        for name, late in (("exact", 0), ("unroll", 0), ("front", 6), ("rotate", 0)):
            source, played = shown[name]
            for place, y in enumerate(source):
                self.assertAlmostEqual(played[place + late] - y, 122, delta=6, msg=(name, place))

    def test_refused(self):
        """What goes wrong is told in one line, with a status, and nothing is drawn."""
        (self.folder / "bad.toml").write_text('format = "brr"\n', encoding="utf-8")
        for words, says in (
            (["bad.toml"], "pictures: fault 3 manifest MissingKey bank\n"),
            (["none.toml"], "pictures: fault 8 fetch none.toml\n"),
            (["b.toml", "--program", "no-program"], "pictures: there is no program; run make, or name it with --program\n"),
        ):
            done = draw(self.folder, *words, "--into", "q")
            self.assertEqual((done.returncode, done.stdout, done.stderr), (1, "", says))
        self.assertFalse((self.folder / "q").exists())
        self.assertEqual(draw(self.folder).returncode, 2)
        self.assertIn("--into", draw(self.folder, "--help").stdout)

    def test_program_that_tells_another_error(self):
        """A report that is not what plays is trouble."""
        liar = self.folder / "liar"
        liar.write_text(f'#!/bin/sh\n"{PROGRAM}" "$@" | sed "s/error [0-9]*/error 7/"\n', encoding="utf-8")
        liar.chmod(0o755)
        done = draw(self.folder, "b.toml", "--program", str(liar), "--into", "q")
        self.assertEqual(done.returncode, 1)
        self.assertRegex(done.stderr, r"\Apictures: round has an error of \d+ as it is played, but the report says: .*\n\Z")

    def test_stored(self):
        """The pictures in docs are those of the examples."""
        with tempfile.TemporaryDirectory() as name:
            folder = pathlib.Path(name)
            for path in [EXAMPLES / "sounds.toml", *EXAMPLES.glob("*.wav")]:
                shutil.copy(path, folder)
            for words in (["sounds.toml"], ["--loops"]):
                self.assertEqual(draw(folder, *words).returncode, 0)
            drawn = {path.name: path.read_bytes() for path in (folder / "pictures").iterdir()}
        self.assertEqual(sorted(drawn), sorted(path.name for path in STORED.glob("*.svg")))
        for name, data in drawn.items():
            self.assertTrue(data == (STORED / name).read_bytes(), f"docs/pictures/{name} is not what make pictures draws")


if __name__ == "__main__":
    unittest.main()
