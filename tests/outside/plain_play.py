"""A plain player of stored banks: what a run of `adbank play` over one file must say and answer.

The rules are those of docs/FORMATS.md; nothing here is shared with the program.
"""

import itertools

import ima
import plain_readers
from plain_compiler import Fault, Outcome, fetch, told_as
from plain_decompile import FORMS, played, refuse_much
from wave_file import Refused


def outputs_of(form, entry):
    """The outputs of an entry of an image or of a VAG file, without end."""
    decoder = FORMS[form][0]
    outputs, state = played(decoder, entry.blocks, (0, 0))
    yield from outputs
    while entry.loop_block is not None:
        outputs, state = played(decoder, entry.blocks[entry.loop_block :], state)
        yield from outputs
    yield from itertools.repeat(0)


def outputs_of_wave(file):
    """The outputs of a WAVE file of IMA ADPCM, without end."""
    samples = [out for block in file.blocks for out in ima.decode(block)][: file.frames]
    if file.loop is None:
        yield from samples
        yield from itertools.repeat(0)
    first, last = file.loop
    yield from samples[:first]
    yield from itertools.cycle(samples[first : last + 1])


def refuse_absent(entry, count):
    """Refuses an entry that is not there."""
    if entry >= count:
        raise Refused("NoEntry", entry, count)


def sound_of(form, data, entry):
    """The outputs of an entry of a file, without end."""
    plain_readers.refuse_long(data)
    if form == "ima":
        file = plain_readers.ima_wave(data)
        refuse_much(len(file.blocks), ima.samples(file.align))
        refuse_absent(entry, 1)
        return outputs_of_wave(file)
    entries = plain_readers.image(data) if form == "brr" else [plain_readers.vag(data)]
    for each in entries:
        refuse_much(len(each.blocks), FORMS[form][1])
    refuse_absent(entry, len(entries))
    return outputs_of(form, entries[entry])


def play(files, form, name, entry, count):
    """How a run for the first outputs of an entry of a file among these must end."""
    try:
        data = fetch(files, name)
        with told_as(4, name):
            sound = sound_of(form, data, entry)
    except Fault as fault:
        line = " ".join(["fault", *map(str, fault.args)]) + "\n"
        return Outcome(fault.args[0], line.encode(), files)
    said = "".join(f"{output}\n" for output in itertools.islice(sound, count))
    return Outcome(0, said.encode(), files)
