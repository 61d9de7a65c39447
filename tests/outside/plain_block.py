"""One block of filter 0, plainly: what a run of `adbank block` over one file must say, store and answer.

The rules are those of docs/FORMATS.md; nothing here is shared with the program.
"""

import struct

import brr
from plain_compiler import Fault, Outcome, fetch

SHIFTS = range(16)


def nearest(shift, target):
    """The first code whose sample is nearest to a target."""
    return min(brr.CODES, key=lambda code: brr.cost(brr.sample(shift, code), target))


def error_of(shift, targets):
    """The least error under a shift."""
    return sum(brr.cost(brr.sample(shift, nearest(shift, target)), target) for target in targets)


def form_block(files, source, stored):
    """How a run for a file of sixteen samples among these must end."""
    try:
        data = fetch(files, source)
        if len(data) != 32:
            raise Fault(4, source, "BlockLength", min(len(data), 33))
    except Fault as fault:
        line = " ".join(["fault", *map(str, fault.args)]) + "\n"
        return Outcome(fault.args[0], line.encode(), files)
    targets = struct.unpack("<16h", data)
    shift = min(SHIFTS, key=lambda shift: error_of(shift, targets))
    error = error_of(shift, targets)
    said = f"error {error} bound {error} gap 0 optimal\n"
    return Outcome(0, said.encode(), {**files, stored: brr.spell(4 * shift, [nearest(shift, target) for target in targets], 1)})
