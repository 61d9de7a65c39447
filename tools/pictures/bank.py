"""A bank as the program compiles, reports and plays it, beside the sounds that it was made of."""

import math
import pathlib
import re
import subprocess
from typing import NamedTuple

import source

try:
    import tomllib
except ImportError:
    tomllib = None

# How many outputs behind the first pass are played, so that a short loop is seen more than once.
BEHIND = 192
LINE = re.compile(r"sample (\S+) blocks (\d+) loop (\S+) error (\d+) bound (\d+) gap \d+ levels .*")


class Trouble(Exception):
    """What ends the drawing, in one line."""


class Sample(NamedTuple):
    """One sample: its source, what is to be played and what is played, and what the report says.

    Played outputs are doubled, as they stand beside 16-bit targets; both go on behind the first pass.
    """

    name: str
    frames: list
    loop: tuple | None
    targets: list
    played: list
    blocks: int
    loop_block: int | None
    error: int
    bound: int

    def block_error(self, block):
        """The sum of squares of a block's errors."""
        places = range(16 * block, 16 * block + 16)
        return sum((self.played[i] - self.targets[i]) ** 2 for i in places)

    def signal(self):
        """The sum of squares of the targets of the first pass."""
        return sum(target * target for target in self.targets[: 16 * self.blocks])


def decibels(ratio):
    """Ten times the logarithm of a ratio of squares."""
    return 10 * math.log10(ratio)


def run(program, *words):
    """What the program says; its fault line is trouble."""
    done = subprocess.run([program, *words], stdout=subprocess.PIPE, text=True, check=False)
    if done.returncode:
        raise Trouble(done.stdout.strip() or f"{program} ends with {done.returncode}")
    return done.stdout.splitlines()


def compiled(program, manifest):
    """The samples of a bank that is compiled and played in this folder."""
    if tomllib is None:
        raise Trouble("Python 3.11 or later is needed to read manifests")
    report = run(program, "compile", manifest)
    settings = tomllib.loads(pathlib.Path(manifest).read_text(encoding="utf-8"))
    if settings["format"] != "brr":
        raise Trouble("pictures are drawn of banks of BRR alone so far")
    if len(report) != len(settings["sample"]) + 1 or not all(map(LINE.fullmatch, report[:-1])):
        raise Trouble(f"this is no report of a bank: {report}")
    return [sample(program, settings, entry, line) for entry, line in enumerate(report[:-1])]


def sample(program, settings, entry, line):
    """One sample, with its line of the report."""
    keys = settings["sample"][entry]
    name, blocks, loop_block, error, bound = LINE.fullmatch(line).groups()
    _, frames, loop = source.read(pathlib.Path(keys["file"]).read_bytes(), keys.get("channel"))
    if keys.get("loop") == "none":
        loop = None
    targets, begins = source.fitted(frames, loop, settings.get("start", "front"))
    size = len(targets)
    if begins is not None:
        targets += [targets[16 * begins + i % (size - 16 * begins)] for i in range(BEHIND)]
    outputs = run(program, "play", "brr", settings["bank"], str(entry), str(len(targets)))
    found = Sample(name, frames, loop, targets, [2 * int(out) for out in outputs], int(blocks), begins, int(error), int(bound))
    told = sum(found.block_error(block) for block in range(found.blocks))
    if (size, str(begins).lower(), told) != (16 * found.blocks, loop_block, found.error):
        raise Trouble(f"{name} has an error of {told} as it is played, but the report says: {line}")
    return found
