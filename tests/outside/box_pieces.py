#!/usr/bin/env python3
"""The pieces that small boxes of states go to, found by trying every state of a box.

It shares nothing with the crates. What it prints stands in the tests of crates/brr_machine and crates/spu_machine. The
rules of the decoders are those of brr.py and spu.py; that all numbers between the least and the greatest result of a box
count as its results is this project's own choice.
"""

import brr
import spu

# a head, a code, the first and the last of both numbers of the states, and a target
BRR_BOXES = [
    (50, 0, (14336, 14336), (0, 0), 300),
    (50, 7, (14336, 14336), (0, 0), 300),
    (50, 0, (8570, 8620), (-3, 12), 32000),
    (2, 15, (-9000, 9000), (0, 1), -20001),
    (63, 8, (-12100, -12000), (5, 40), -7),
    (45, 5, (300, 364), (-16384, -16380), 1999),
]
SPU_BOXES = [
    (66, 9, (-120, -40), (1000, 1031), 77),
    (64, 7, (32700, 32767), (-200, -190), 32000),
    (31, 8, (-5, 5), (0, 0), -4000),
]


def results(raw, last, older):
    """The least and the greatest clamped result of the states of a box."""
    found = [
        brr.clamp(raw(o, r)) for o in range(last[0], last[1] + 1) for r in range(older[0], older[1] + 1)
    ]
    return min(found), max(found)


def pieces(least, greatest, scale, target, come_out):
    """The numbers from the least to the greatest, by how far they are moved: the ends of each run, and its least cost."""
    runs = {}
    for result in range(least, greatest + 1):
        out = come_out(result)
        runs.setdefault(out - result, []).append(out)
    return [(min(run), max(run), min((scale * y - target) ** 2 for y in run)) for run in runs.values()]


def brr_pieces(head, code, last, older, target):
    shift, filter_ = divmod(head, 4)
    sample = brr.sample(shift, code)
    ends = results(lambda o, r: sample + brr.prediction(filter_, o, r), last, older)
    return pieces(*ends, 2, target, brr.wrap)


def spu_pieces(head, code, last, older, target):
    filter_, shift = divmod(head, 16)
    sample = spu.sample(shift, code)
    ends = results(lambda o, r: sample + spu.prediction(filter_, o, r), last, older)
    return pieces(*ends, 1, target, lambda result: result)


if __name__ == "__main__":
    for box in BRR_BOXES:
        print("BRR", *box, brr_pieces(*box))
    for box in SPU_BOXES:
        print("SPU", *box, spu_pieces(*box))
