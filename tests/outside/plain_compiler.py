"""A plain compiler of banks: what a run of `adbank compile` over some files must say, store and answer.

The rules are those of docs/FORMATS.md; nothing here is shared with the program.
"""

import contextlib
import itertools
import math
from typing import NamedTuple

import bank_manifest
import brr_bank
import ima_bank
import spu_bank
import wave_file
from bank_manifest import cert_name, first_pass_name
from plain_machines import machine_of
from plain_search import certificate, search_sample
from wave_file import Refused

MOST_SOURCE, MOST_BLOCKS, MOST_TARGETS = 4194304, 4096, 262144


def form_of(manifest):
    """What makes the blocks of a bank."""
    if manifest["format"] == "ima":
        return ima_bank.Blocks(manifest["block"])
    return {"brr": brr_bank, "spu": spu_bank}[manifest["format"]]


class Outcome(NamedTuple):
    """How a run ends: its status, what it says, and files by name."""

    status: int
    said: bytes
    files: dict


class Fault(Exception):
    """What ends a compilation: the status, and the words of the line after it."""


@contextlib.contextmanager
def told_as(status, about):
    """What is refused inside ends the compilation with this status, and is about this."""
    try:
        yield
    except Refused as refused:
        raise Fault(status, about, *refused.args) from refused


# Fitting


def refuse_long(blocks, size):
    """Refuses more blocks of a size than a sample may have, or more targets."""
    if blocks > MOST_BLOCKS or blocks * size > MOST_TARGETS:
        raise Refused("TooLong", blocks)


def fit(frames, loop, length, start, size):
    """The targets of whole blocks, and the block where the loop begins or None."""
    if not frames:
        raise Refused("EmptySample")
    if loop is None:
        padding = -len(frames) % size
        refuse_long((len(frames) + padding) // size, size)
        return frames + [0] * padding, None
    first, last = loop
    period = last - first + 1
    if length == "exact" and period % size:
        raise Refused("LoopLength", period, size)
    turns = size // math.gcd(period, size)
    late = -first % size
    blocks = (first + late + turns * period) // size
    refuse_long(blocks, size)
    zeros = late if start == "front" else 0
    places = range(size * blocks - zeros)
    sound = [frames[i if i <= last else first + (i - first) % period] for i in places]
    return [0] * zeros + sound, (first + late) // size


# Banks


class Sample(NamedTuple):
    """One sample of a bank, fitted."""

    name: str
    rate: int
    targets: list
    loop_block: int | None
    # how many outputs are played, and the first and last of those that go round
    played: int
    loop: tuple | None


def fetch(files, name):
    """A file's bytes."""
    if name not in files:
        raise Fault(8, "fetch", name)
    return files[name]


def fit_sample(form, manifest, name, rate, frames, loop):
    """One sample, fitted."""
    laid = None if form.IN_FRAMES else loop
    targets, loop_block = fit(frames, laid, manifest["length"], manifest["start"], form.SIZE)
    if form.IN_FRAMES:
        return Sample(name, rate, targets, loop_block, len(frames), loop)
    loop = None if loop_block is None else (form.SIZE * loop_block, len(targets) - 1)
    return Sample(name, rate, targets, loop_block, len(targets), loop)


def read_sample(files, manifest, entry):
    """Fetches, reads and fits one sample."""
    data = fetch(files, entry["file"])
    with told_as(4, entry["name"]):
        if len(data) > MOST_SOURCE:
            raise Refused("FileLong", MOST_SOURCE)
        rate, frames, sampler = wave_file.read(data, entry["channel"])
        loop = wave_file.first_loop(sampler, len(frames)) if entry["loop"] == "smpl" else None
    with told_as(5, entry["name"]):
        return fit_sample(form_of(manifest), manifest, entry["name"], rate, frames, loop)


def loop_shown(form, sample):
    """How a sample's loop is told."""
    if form.IN_FRAMES:
        return f"{sample.loop[0]}..{sample.loop[1]}" if sample.loop else "none"
    return "none" if sample.loop_block is None else sample.loop_block


def sample_line(form, sample, error, bound, levels):
    """The line of one sample in the report."""
    counts = " ".join(str(levels.count(level)) for level in (0, 4, 8, 255))
    line = f"sample {sample.name} blocks {len(sample.targets) // form.SIZE} loop {loop_shown(form, sample)} error {error}"
    return line + f" bound {bound} gap {error - bound} levels {counts}" + (" optimal\n" if error == bound else "\n")


def first_pass(form, sample, outputs):
    """The file of a sample's first pass."""
    return wave_file.write([form.SCALE * out for out in outputs[: sample.played]], sample.rate, sample.loop)


def open_bank(files, own):
    """The manifest of a bank, what makes its blocks, and its samples, which have room."""
    data = fetch(files, own)
    with told_as(3, "manifest"):
        manifest = bank_manifest.read(data, own)
    form = form_of(manifest)
    found = [read_sample(files, manifest, entry) for entry in manifest["samples"]]
    with told_as(6, manifest["bank"]):
        form.refuse_full(manifest, found)
    return manifest, form, found


def form_bank(files, own):
    """The files that a bank stores, and its report."""
    manifest, form, found = open_bank(files, own)
    machine = machine_of(manifest)
    stored, bodies, report = {}, [], ""
    for sample in found:
        segments = search_sample(machine, sample.targets, sample.loop_block, manifest["beam"], manifest["budget"], manifest["paths"])
        heads, symbols = (list(itertools.chain(*parts)) for parts in zip(*((part.heads, part.symbols) for part in segments)))
        body, outputs = form.spelled(heads, symbols, sample.loop_block)
        bodies.append(body)
        stored[first_pass_name(manifest["bank"], sample.name)] = first_pass(form, sample, outputs)
        stored[cert_name(manifest["bank"], sample.name)] = certificate(machine, segments)
        error = sum(map(form.cost, outputs, sample.targets))
        assert error == sum(part.sum for part in segments)
        report += sample_line(form, sample, error, sum(part.bound for part in segments), [part.level for part in segments])
    stored.update(form.block_files(manifest, found, bodies))
    return stored, report + f"done {len(found)} samples {len(stored)} files\n"


def compile_bank(files, own):
    """How a compilation of the manifest `own` among these files must end."""
    try:
        stored, report = form_bank(files, own)
    except Fault as fault:
        line = " ".join(["fault", *map(str, fault.args)]) + "\n"
        return Outcome(fault.args[0], line.encode(), files)
    return Outcome(0, report.encode(), {**files, **stored})
