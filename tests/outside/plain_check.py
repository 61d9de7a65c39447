"""A plain checker of stored banks: what a run of `adbank check` over some files must say and answer.

The rules are those of docs/FORMATS.md; nothing here is shared with the program.
"""

import struct

import plain_readers
from bank_manifest import cert_name
from plain_compiler import Fault, Outcome, fetch, open_bank, sample_line, told_as
from plain_machines import machine_of
from plain_search import NO_CELLS, NO_LANE, Search, segments
from wave_file import Refused

MOST_CERT, NO_LOOP = 33554432, 4294967295


# The stored blocks


def same(part, have, need):
    """Refuses what is another than is asked for."""
    if have != need:
        raise Refused("Shape", part, have, need)


def number(loop):
    """The number of a loop, or of none."""
    return NO_LOOP if loop is None else loop


def flagged(form, machine, sample, stored):
    """The heads and symbols of blocks with flags."""
    same("Blocks", len(stored.blocks), len(sample.targets) // form.SIZE)
    same("LoopBlock", number(stored.loop_block), number(sample.loop_block))
    for block in sorted({0, sample.loop_block or 0}):
        if not machine.allows(stored.blocks[block][0], True):
            raise Refused("Shape", "Head", block, 0)
    return stored.blocks


def framed(form, sample, stored):
    """The heads and symbols of a WAVE file of IMA ADPCM."""
    same("Align", stored.align, form.align)
    same("Blocks", len(stored.blocks), len(sample.targets) // form.SIZE)
    same("Frames", stored.frames, sample.played)
    for part, at in (("LoopStart", 0), ("LoopEnd", 1)):
        same(part, *(NO_LOOP if loop is None else loop[at] for loop in (stored.loop, sample.loop)))
    return [plain_readers.ima_symbols(block) for block in stored.blocks]


def stored_blocks(files, manifest, form, machine, sample, image, at):
    """The heads and symbols of a sample's stored blocks."""
    if manifest["format"] == "brr":
        with told_as(4, sample.name):
            return flagged(form, machine, sample, image[at])
    ending = {"spu": "vag", "ima": "wav"}[manifest["format"]]
    data = fetch(files, f"{manifest['bank']}.{sample.name}.{ending}")
    with told_as(4, sample.name):
        plain_readers.refuse_long(data)
        if manifest["format"] == "spu":
            return flagged(form, machine, sample, plain_readers.vag(data))
        return framed(form, sample, plain_readers.ima_wave(data))


def error_of(machine, sample, blocks):
    """The exact error of the stored blocks."""
    state, error = (0, 0), 0
    for block, (head, symbols) in enumerate(blocks):
        for place, symbol in enumerate(symbols):
            state = machine.step(head, place, symbol, state)
            error += machine.cost(state[0], sample.targets[block * machine.SIZE + place])
    return error


# The certificate


class Bytes:
    """A certificate's bytes, read from the front."""

    def __init__(self, data):
        self.data, self.at = data, 0

    def take(self, layout):
        """The next field."""
        size = struct.calcsize("<" + layout)
        if self.at + size > len(self.data):
            raise Refused("Short", self.at)
        found = struct.unpack_from("<" + layout, self.data, self.at)
        self.at += size
        return found[0] if len(found) == 1 else found


def is_lane(machine, place, lane):
    """Whether heads have this lane at a place."""
    if place == 0:
        return lane == NO_LANE
    return lane in {machine.lane(head) for head in machine.HEADS}


def is_cell(machine, level, a, b):
    """Whether states are in a cell."""
    (low, high), (b_low, b_high) = machine.WHOLE
    cut = level if machine.CUTS_B else 0
    return low >> level <= a <= high >> level and b_low >> cut <= b <= b_high >> cut


def read_layer(machine, blocks, level, data, last):
    """The key of a layer, and its cells with their values."""
    begin = data.at
    # each field must be there before any is looked at
    block, place, lane, count = data.take("H"), data.take("H"), data.take("H"), data.take("I")
    if block >= blocks or place >= machine.SIZE or not is_lane(machine, place, lane) or count == 0:
        raise Refused("LayerRange", begin)
    if last is not None and (block, place, lane) <= last:
        raise Refused("LayerOrder", begin)
    cells, before = {}, None
    for _ in range(count):
        begin = data.at
        a, b, value = data.take("h"), data.take("h"), data.take("Q")
        if not is_cell(machine, level, a, b) or value >= 2**60:
            raise Refused("CellRange", begin)
        if before is not None and (a, b) <= before:
            raise Refused("CellOrder", begin)
        cells[a, b] = value
        before = a, b
    return (block, place, lane), cells


def read_segment(machine, blocks, data):
    """The level, the bound and the layers of a segment."""
    have = data.take("H")
    if have != blocks:
        raise Refused("ShapeDiffers", have, blocks)
    level = data.take("B")
    if level not in (0, 4, 8, NO_CELLS):
        raise Refused("BadLevel", level)
    zero = data.take("B")
    if zero:
        raise Refused("BadZero", data.at - 1)
    bound, begin = data.take("Q"), data.at
    count, layers, last = data.take("I"), [], None
    if level == NO_CELLS and count:
        raise Refused("LayerRange", begin)
    for _ in range(count):
        layers.append(read_layer(machine, blocks, level, data, last))
        last = layers[-1][0]
    return level, bound, layers


def read_cert(machine, counts, raw):
    """The segments of a certificate."""
    if raw[:4] != b"ADBC":
        raise Refused("BadMagic")
    data = Bytes(raw)
    data.at = 4
    version = data.take("B")
    if version != 1:
        raise Refused("BadVersion", version)
    for layout, need in (("B", machine.KIND), ("H", len(counts))):
        have = data.take(layout)
        if have != need:
            raise Refused("ShapeDiffers", have, need)
    found = [read_segment(machine, blocks, data) for blocks in counts]
    if data.at < len(raw):
        raise Refused("Trailing", data.at)
    return found


def check_segment(machine, targets, number_, segment):
    """The bound that a segment records, which must be what it shows."""
    level, bound, layers = segment
    work = Search(machine, targets, 2**64)
    work.level = level if level != NO_CELLS else 0
    listed = [{} for _ in range(len(targets) + 1)]
    for (block, place, lane), cells in layers:
        listed[block * machine.SIZE + place].update({(lane, cell): value for cell, value in cells.items()})
    for at, ((block, place, lane), cells) in enumerate(layers):
        i = block * machine.SIZE + place
        for place_, (cell, value) in enumerate(cells.items()):
            box = work.box(cell)
            # only symbols that may cost less than the value can bring what is found below it
            found = min(work.by_head(i, head, box, listed[i + 1], value) for head in work.heads(i, lane))
            if value > found:
                raise Refused("CellFault", number_, at, place_, value, found)
    shown = max(work.later[0], listed[0].get((NO_LANE, work.cell((0, 0))), 0))
    if bound != shown:
        raise Refused("Bound", number_, bound, shown)
    return bound


def check_cert(machine, sample, raw):
    """The bound and the levels that a certificate proves."""
    counts = segments(machine, len(sample.targets) // machine.SIZE, sample.loop_block)
    found, at, bound = read_cert(machine, counts, raw), 0, 0
    for number_, (blocks, segment) in enumerate(zip(counts, found)):
        size = blocks * machine.SIZE
        bound += check_segment(machine, sample.targets[at : at + size], number_, segment)
        at += size
    return bound, [level for level, _, _ in found]


# Banks


def check_sample(files, manifest, form, machine, sample, image, at):
    """The line of one sample."""
    blocks = stored_blocks(files, manifest, form, machine, sample, image, at)
    raw = fetch(files, cert_name(manifest["bank"], sample.name))
    with told_as(4, sample.name):
        plain_readers.refuse_long(raw, MOST_CERT)
    with told_as(7, sample.name):
        bound, levels = check_cert(machine, sample, raw)
    return sample_line(form, sample, error_of(machine, sample, blocks), bound, levels)


def image_of(files, manifest, count):
    """The image of a bank of so many samples, where its format has one."""
    if manifest["format"] != "brr":
        return None
    data = fetch(files, manifest["bank"])
    with told_as(4, manifest["bank"]):
        plain_readers.refuse_long(data)
        image = plain_readers.image(data)
        same("Entries", len(image), count)
    return image


def report(files, own):
    """What is said of a bank that is accepted."""
    manifest, form, found = open_bank(files, own)
    machine, image = machine_of(manifest), image_of(files, manifest, len(found))
    lines = [check_sample(files, manifest, form, machine, sample, image, at) for at, sample in enumerate(found)]
    return "".join(lines) + f"done {len(found)} samples 0 files\n"


def check_bank(files, own):
    """How a check of the manifest `own` among these files must end."""
    try:
        said = report(files, own)
    except Fault as fault:
        line = " ".join(["fault", *map(str, fault.args)]) + "\n"
        return Outcome(fault.args[0], line.encode(), files)
    return Outcome(0, said.encode(), files)
