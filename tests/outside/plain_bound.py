"""A plain `bound`: what a run of `adbank bound` over some files must say and answer.

How near a bound comes to the error is the program's own affair; here it must lie between the floor and the error, and be the
floor in IMA ADPCM. So the bounds that a run told are looked at, and all else is as docs/FORMATS.md has it; nothing here is
shared with the program.
"""

import re

from plain_check import error_of, image_of, stored_blocks
from plain_compiler import Fault, Outcome, loop_shown, open_bank
from plain_machines import machine_of
from plain_search import Search, segments


def floor_of(machine, sample):
    """The floor under a sample: the sum of those of its segments."""
    at, floor = 0, 0
    for blocks in segments(machine, len(sample.targets) // machine.SIZE, sample.loop_block):
        size = blocks * machine.SIZE
        floor += Search(machine, sample.targets[at : at + size], 2**64).later[0]
        at += size
    return floor


def bound_line(form, sample, error, bound):
    """The line of one sample."""
    line = f"bound {sample.name} blocks {len(sample.targets) // form.SIZE} loop {loop_shown(form, sample)} error {error}"
    return line + f" bound {bound} gap {error - bound}" + (" optimal\n" if error == bound else "\n")


def report(files, own, told):
    """What is said of a bank, where a run told these bounds."""
    manifest, form, found = open_bank(files, own)
    machine, image = machine_of(manifest), image_of(files, manifest, len(found))
    errors = [error_of(machine, sample, stored_blocks(files, manifest, form, machine, sample, image, at)) for at, sample in enumerate(found)]
    lines = []
    for sample, error, bound in zip(found, errors, told + [0] * len(found)):
        floor = floor_of(machine, sample)
        most = floor if manifest["format"] == "ima" else error
        lines.append(bound_line(form, sample, error, min(max(bound, floor), most)))
    return "".join(lines) + f"done {len(found)} samples 0 files\n"


def bound_bank(files, own, said):
    """How `bound` of the manifest `own` among these files must end, where a run said this."""
    try:
        text = report(files, own, [int(bound) for bound in re.findall(rb" bound (\d+) gap ", said)])
    except Fault as fault:
        line = " ".join(["fault", *map(str, fault.args)]) + "\n"
        return Outcome(fault.args[0], line.encode(), files)
    return Outcome(0, text.encode(), files)
