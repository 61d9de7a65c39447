"""A plain decompiler of stored banks: what a run of `adbank decompile` over one file must say, store and answer.

The rules are those of docs/FORMATS.md; nothing here is shared with the program. Outputs are played one after another, as far
as 65 rounds of a loop, and compared.
"""

import brr
import ima
import plain_readers
import spu
import wave_file
from plain_compiler import Fault, Outcome, fetch, told_as
from wave_file import Refused

MOST_BLOCKS, MOST_SAMPLES, MOST_ROUNDS = 4096, 262144, 64
# For each form its decoder, the samples of a block, and what an output is multiplied by.
FORMS = {"brr": (brr, 16, 2), "vag": (spu, 28, 1)}


def refuse_much(blocks, size):
    """Refuses more than is played."""
    if blocks > MOST_BLOCKS or blocks * size > MOST_SAMPLES:
        raise Refused("TooMuch", blocks)


def played(decoder, blocks, state):
    """The outputs of some blocks after a state, and the state behind them."""
    outputs, (last, older) = [], state
    for head, codes in blocks:
        for _, out in decoder.steps(head, codes, last, older):
            last, older = out, last
            outputs.append(out)
    return outputs, (last, older)


def taken_apart(form, entry):
    """The samples of an entry, its loop or None, and how it settles."""
    decoder, size, scale = FORMS[form]
    outputs, state = played(decoder, entry.blocks, (0, 0))
    if entry.loop_block is None:
        return [scale * out for out in outputs], None, "none"
    start, length = size * entry.loop_block, len(outputs) - size * entry.loop_block
    rounds = [outputs[start:]]
    settles = "unsettled"
    for playing in range(MOST_ROUNDS):
        again, state = played(decoder, entry.blocks[entry.loop_block :], state)
        if again == rounds[-1]:
            settles = playing
            break
        rounds.append(again)
    kept = rounds[: settles + 1] if settles != "unsettled" else rounds[:1]
    samples = outputs[:start] + [out for playing in kept for out in playing]
    return [scale * out for out in samples], (len(samples) - length, len(samples) - 1), settles


def entries_of(form, data):
    """For each entry its rate, samples, loop, how it settles, and the bytes behind it."""
    plain_readers.refuse_long(data)
    if form == "ima":
        file = plain_readers.ima_wave(data)
        refuse_much(len(file.blocks), ima.samples(file.align))
        samples = [out for block in file.blocks for out in ima.decode(block)][: file.frames]
        return [(file.rate, samples, file.loop, "none" if file.loop is None else 0, 0)]
    entries = plain_readers.image(data) if form == "brr" else [plain_readers.vag(data)]
    for entry in entries:
        refuse_much(len(entry.blocks), FORMS[form][1])
    return [(entry.rate, *taken_apart(form, entry), entry.trailing if form == "vag" else 0) for entry in entries]


def decompile(files, form, name, out):
    """How a decompilation of a file among these must end."""
    try:
        data = fetch(files, name)
        with told_as(4, name):
            entries = entries_of(form, data)
    except Fault as fault:
        line = " ".join(["fault", *map(str, fault.args)]) + "\n"
        return Outcome(fault.args[0], line.encode(), files)
    stored, said = {}, ""
    for number, (rate, samples, loop, settles, trailing) in enumerate(entries):
        stored[f"{out}.{number}.wav"] = wave_file.write(samples, rate, loop)
        shown = f"{loop[0]}..{loop[1]}" if loop else "none"
        said += f"entry {number} frames {len(samples)} loop {shown} settles {settles} trailing {trailing}\n"
    return Outcome(0, said.encode(), {**files, **stored})
