"""The three decoders, plainly, as a search of their blocks wants them: steps, boxes of states, and floors.

A state is two numbers; in BRR and SPU-ADPCM the last two outputs, in IMA ADPCM the last output and the step index. A box is
the ends of both numbers. The rules are those of docs/FORMATS.md; nothing here is shared with the program.
"""

import functools
import itertools

import brr
import brr_bank
import ima
import ima_chain
import spu
import spu_bank


def least_cost(low, high, scale, target):
    """The least cost of a whole number between two ends."""
    near = target // scale
    return min((scale * min(high, max(low, y)) - target) ** 2 for y in (near, near + 1))


def suffix_sums(own):
    """For each place the sum from there on, and 0 behind the last."""
    return list(itertools.accumulate(reversed(own), initial=0))[::-1]


class TwoOutputs:
    """What BRR and SPU-ADPCM share: the state is the last two outputs, and a head is a filter and a shift."""

    CUTS_B = True

    def symbols(self, place, target, slack):
        return range(16)

    def own_floors(self, filter_, shift, targets):
        """The floor of each window where it begins, and of each place that is left over."""
        size = [1, 2, 3, 3, 3][filter_]
        own = [0] * self.SIZE
        for first in range(0, self.SIZE - self.SIZE % size, size):
            window = targets[first : first + size]
            if filter_ == 0:
                floor = min(self.cost(out, window[0]) for out in self.samples(shift))
            else:
                floor = self.window_floor(shift, filter_, [0] * (3 - size) + window)
            own[first] = max(floor, self.least(window))
        for place in range(self.SIZE - self.SIZE % size, self.SIZE):
            own[place] = self.least(targets[place : place + 1])
        return own

    def floors(self, head, targets):
        return self.floors_of(head, tuple(targets))

    @functools.lru_cache(maxsize=100000)
    def floors_of(self, head, targets):
        return suffix_sums(self.own_floors(*self.parts(head), list(targets)))

    def floor_at(self, table, place, box):
        return table[place]

    def step(self, head, place, symbol, state):
        return self.output(self.raw(head, symbol, *state)), state[0]

    def image(self, head, place, symbol, box, target):
        """The pieces of a box's image: the ends of both numbers, and the least cost."""
        (low, high), (older_low, older_high) = box
        ends = brr.clamp(self.raw(head, symbol, low, older_high)), brr.clamp(self.raw(head, symbol, high, older_low))
        return [(((first, last), box[0]), least_cost(first, last, self.SCALE, target)) for first, last in self.cut(*ends)]


class Brr(TwoOutputs):
    """Blocks of BRR."""

    SIZE, SCALE, HEADS, KIND = 16, 2, range(64), 0
    WHOLE = ((-16384, 16383), (-16384, 16383))
    cost = staticmethod(brr.cost)
    samples = staticmethod(brr_bank.samples)
    window_floor = staticmethod(brr_bank.window_floor)
    output = staticmethod(brr.output)

    def allows(self, head, first):
        return head % 4 == 0 or not first

    def lane(self, head):
        return 4 * min(head // 4, 13) + head % 4

    def parts(self, head):
        return head % 4, head // 4

    def least(self, targets):
        return sum(target % 2 for target in targets)

    def raw(self, head, code, last, older):
        return brr_bank.samples(head // 4)[code] + brr.prediction(head % 4, last, older)

    def cut(self, low, high):
        """The runs of outputs that the numbers between two ends come to."""
        for first, last, by in ((-32768, -16385, 32768), (-16384, 16383, 0), (16384, 32767, -32768)):
            if max(low, first) <= min(high, last):
                yield max(low, first) + by, min(high, last) + by


class Spu(TwoOutputs):
    """Blocks of SPU-ADPCM."""

    SIZE, SCALE, HEADS, KIND = 28, 1, range(80), 1
    WHOLE = ((-32768, 32767), (-32768, 32767))
    cost = staticmethod(spu_bank.cost)
    samples = staticmethod(spu_bank.samples)
    window_floor = staticmethod(spu_bank.window_floor)
    output = staticmethod(brr.clamp)

    def allows(self, head, first):
        return head < 16 or not first

    def lane(self, head):
        return 16 * (head // 16) + (head % 16 if head % 16 < 13 else 9)

    def parts(self, head):
        return head // 16, head % 16

    def least(self, targets):
        return 0

    def raw(self, head, code, last, older):
        return spu_bank.samples(head % 16)[code] + spu.prediction(head // 16, last, older)

    def cut(self, low, high):
        yield low, high


class Ima:
    """Blocks of IMA ADPCM of so many samples."""

    SCALE, HEADS, KIND = 1, range(89), 2
    WHOLE = ((-32768, 32767), (0, 88))
    CUTS_B = False
    cost = staticmethod(spu_bank.cost)

    def __init__(self, size):
        self.SIZE = size

    def allows(self, head, first):
        return True

    def lane(self, head):
        return 0

    def symbols(self, place, target, slack):
        """The symbols that may cost at most the slack: at the first place outputs, counted from -32768."""
        if place:
            return range(16)
        reach = 0
        while (reach + 1) ** 2 <= slack and reach < 65536:
            reach += 1
        return range(max(0, target + 32768 - reach), min(65535, target + 32768 + reach) + 1)

    def floors(self, head, targets):
        return self.table(tuple(targets))

    @functools.lru_cache(maxsize=64)
    def table(self, targets):
        return ima_chain.table(list(targets))

    def floor_at(self, table, place, box):
        return table[place][box[1][0]]

    def step(self, head, place, symbol, state):
        if place == 0:
            return symbol - 32768, head
        last, index = state
        return brr.clamp(last + ima.difference(index, symbol)), ima.next_index(index, symbol)

    def image(self, head, place, symbol, box, target):
        if place == 0:
            first, index = symbol - 32768, head
            return [(((first, first), (index, index)), self.cost(first, target))]
        index = box[1][0]
        by = ima.difference(index, symbol)
        first, last = brr.clamp(box[0][0] + by), brr.clamp(box[0][1] + by)
        after = ima.next_index(index, symbol)
        return [(((first, last), (after, after)), least_cost(first, last, 1, target))]


TWO_OUTPUTS = {"brr": Brr(), "spu": Spu()}


def machine_of(manifest):
    """The decoder of a bank."""
    if manifest["format"] == "ima":
        return Ima(ima.samples(manifest["block"]))
    return TWO_OUTPUTS[manifest["format"]]
