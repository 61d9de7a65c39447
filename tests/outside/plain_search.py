"""The choice of a sample's blocks and its certificate, plainly: a beam, the paths, and a search over cells of states.

The rules are those of docs/FORMATS.md; nothing here is shared with the program. It works with plain dictionaries, and tries
every head and symbol of every cell.
"""

import math
import struct
from typing import NamedTuple

import plain_paths

NO_LANE, NO_CELLS = 65535, 255


class Found(NamedTuple):
    """What is found for a segment."""

    heads: list
    symbols: list
    sum: int
    level: int
    bound: int
    # for each sample the listed cells by lane and cell, with their values
    listed: list


def follow(machine, head, state, targets, limit):
    """The symbols, the sum and the state when the first symbol of least cost is taken at each place; None at the limit."""
    total, symbols = 0, []
    for place, target in enumerate(targets):
        if total >= limit:
            return None
        tried = machine.symbols(place, target, 0)
        states = [machine.step(head, place, symbol, state) for symbol in tried]
        costs = [machine.cost(after[0], target) for after in states]
        at = costs.index(min(costs))
        total += costs[at]
        symbols.append(tried[at])
        state = states[at]
    return (total, symbols, state) if total < limit else None


def beam(machine, targets, width):
    """The heads, the symbols and the sum of the beam's choice."""
    kept = [(0, [], [], (0, 0))]
    for first in range(0, len(targets), machine.SIZE):
        block, made = targets[first : first + machine.SIZE], []
        for total, heads, symbols, state in kept:
            for head in machine.HEADS:
                # what costs no less than as many as are kept is behind them, since it is made later
                limit = made[width - 1][0] - total if len(made) == width else math.inf
                found = follow(machine, head, state, block, limit) if machine.allows(head, first == 0) else None
                if found:
                    made.append((total + found[0], heads + [head], symbols + found[1], found[2]))
                    made = sorted(made, key=lambda prefix: prefix[0])[:width]
        kept = made
    total, heads, symbols, _ = kept[0]
    return heads, symbols, total


class Search:
    """A search of one segment at one level, below a known sum."""

    def __init__(self, machine, targets, most):
        self.machine, self.targets, self.most = machine, targets, most
        size = machine.SIZE
        self.end = len(targets)
        self.blocks = [targets[at : at + size] for at in range(0, self.end, size)]
        self.tables = [{head: machine.floors(head, block) for head in machine.HEADS} for block in self.blocks]
        whole = [
            min(self.start_floor(tables, head) for head in machine.HEADS if machine.allows(head, number == 0))
            for number, tables in enumerate(self.tables)
        ]
        self.later = [sum(whole[number:]) for number in range(len(whole) + 1)]
        self.lanes = {}
        for head in machine.HEADS:
            self.lanes.setdefault(machine.lane(head), head)

    def start_floor(self, tables, head):
        """The floor under a block; in IMA ADPCM the head is the index."""
        return self.machine.floor_at(tables[head], 0, ((0, 0), (head, head)))

    def rest(self, i, lane, box):
        """The floor under what comes from sample i on."""
        block, place = divmod(i, self.machine.SIZE)
        if place == 0:
            return self.later[block]
        return self.machine.floor_at(self.tables[block][self.lanes[lane]], place, box) + self.later[block + 1]

    def lane_at(self, head, i):
        """The lane before sample i of a block with a head."""
        return self.machine.lane(head) if i % self.machine.SIZE else NO_LANE

    def heads(self, i, lane):
        """The heads that may be taken at sample i; those of one lane act alike behind the first place."""
        if i % self.machine.SIZE:
            return [self.lanes[lane]]
        return [head for head in self.machine.HEADS if self.machine.allows(head, i == 0)]

    def cell(self, state):
        """The cell of a state."""
        return state[0] >> self.level, state[1] >> (self.level if self.machine.CUTS_B else 0)

    def box(self, cell):
        """The box of a cell."""
        a, b = cell
        high = self.level if self.machine.CUTS_B else 0
        return ((a << self.level, (a + 1 << self.level) - 1), (b << high, (b + 1 << high) - 1))

    def cells(self, box):
        """The cells that a box meets."""
        low = self.cell((box[0][0], box[1][0]))
        high = self.cell((box[0][1], box[1][1]))
        return [(a, b) for a in range(low[0], high[0] + 1) for b in range(low[1], high[1] + 1)]

    def forward(self, level, share):
        """Before each sample the cells that open paths reach; None where there are more than the share."""
        self.level = level
        start, count = self.cell((0, 0)), 0
        front = {(NO_LANE, start): 0} if self.rest(0, NO_LANE, self.box(start)) < self.most else {}
        fronts = []
        for i in range(self.end):
            fronts.append(front)
            count += len(front)
            if count > share:
                return None
            front = self.step(i, front, share - count) if i + 1 < self.end else {}
            if front is None:
                return None
        return fronts

    def step(self, i, front, room):
        """The cells that are reached one sample on; None where there are more than there is room for."""
        machine, target, place = self.machine, self.targets[i], i % self.machine.SIZE
        after = {}
        for (lane, cell), cost in front.items():
            box = self.box(cell)
            for head in self.heads(i, lane):
                to = self.lane_at(head, i + 1)
                for symbol in machine.symbols(place, target, self.most - 1 - cost):
                    for piece, more in machine.image(head, place, symbol, box, target):
                        if cost + more >= self.most:
                            continue
                        for met in self.cells(piece):
                            total = cost + more
                            if total < after.get((to, met), math.inf) and total + self.rest(i + 1, to, self.box(met)) < self.most:
                                after[to, met] = total
                                if len(after) > room:
                                    return None
        return after

    def look(self, i, lane, box, listed):
        """The least that the cells of a box are worth."""
        if i == self.end:
            return 0
        unlisted = self.rest(i, lane, box)
        return min(listed.get((lane, cell), unlisted) for cell in self.cells(box))

    def by_symbol(self, i, head, symbol, box, listed):
        """The least way on by a symbol."""
        place, target = i % self.machine.SIZE, self.targets[i]
        pieces = self.machine.image(head, place, symbol, box, target)
        return min(cost + self.look(i + 1, self.lane_at(head, i + 1), piece, listed) for piece, cost in pieces)

    def by_head(self, i, head, box, listed, most):
        """The least way on under a head, where it is at most so much."""
        place, target = i % self.machine.SIZE, self.targets[i]
        return min((self.by_symbol(i, head, symbol, box, listed) for symbol in self.machine.symbols(place, target, most)), default=math.inf)

    def backward(self, fronts):
        """The reached cells with what they are worth, at most the known sum."""
        listed = [{} for _ in range(self.end + 1)]
        for i in range(self.end - 1, -1, -1):
            for lane, cell in fronts[i]:
                box = self.box(cell)
                found = min(self.by_head(i, head, box, listed[i + 1], self.most) for head in self.heads(i, lane))
                listed[i][lane, cell] = min(self.most, found)
        return listed

    def walk(self, listed, left):
        """The first list whose sum is what the start is worth."""
        state, heads, symbols, head = (0, 0), [], [], None
        for i, target in enumerate(self.targets):
            place, box = i % self.machine.SIZE, self.box(self.cell(state))
            if place == 0:
                head = next(head for head in self.heads(i, NO_LANE) if self.by_head(i, head, box, listed[i + 1], left) == left)
                heads.append(head)
            tried = self.machine.symbols(place, target, left)
            symbols.append(next(symbol for symbol in tried if self.by_symbol(i, head, symbol, box, listed[i + 1]) == left))
            state = self.machine.step(head, place, symbols[-1], state)
            left -= self.machine.cost(state[0], target)
        return heads, symbols


def search(machine, targets, width, share, paths=1):
    """What is found for a segment."""
    heads, symbols, most = plain_paths.paths(machine, targets, paths, beam(machine, targets, width))
    work = Search(machine, targets, most)
    floor = work.later[0]
    for level in (0, 4, 8) if len(work.blocks) <= 64 else ():
        fronts = work.forward(level, share)
        if fronts is None:
            continue
        listed = work.backward(fronts)
        bound = max([floor, *listed[0].values()])
        if level == 0 and bound < most:
            heads, symbols = work.walk(listed, bound)
            most = bound
        return Found(heads, symbols, most, level, bound, listed)
    return Found(heads, symbols, most, NO_CELLS, floor, [])


def segments(machine, count, loop_block):
    """How many blocks each run has that stands alone."""
    if machine.KIND == 2:
        return [1] * count
    return [loop_block, count - loop_block] if loop_block else [count]


def search_sample(machine, targets, loop_block, width, budget, paths=1):
    """What is found for each segment of a sample."""
    counts, at, found = segments(machine, len(targets) // machine.SIZE, loop_block), 0, []
    for count in counts:
        size = count * machine.SIZE
        found.append(search(machine, targets[at : at + size], width, budget // len(counts), paths))
        at += size
    return found


def certificate(machine, found):
    """The bytes of a sample's certificate."""
    out = b"ADBC" + struct.pack("<BBH", 1, machine.KIND, len(found))
    for segment in found:
        layers = []
        for i, listed in enumerate(segment.listed):
            block, place = divmod(i, machine.SIZE)
            for lane in sorted({lane for lane, _ in listed}):
                cells = sorted(cell for other, cell in listed if other == lane)
                rows = b"".join(struct.pack("<hhQ", *cell, listed[lane, cell]) for cell in cells)
                layers.append(struct.pack("<HHHI", block, place, lane, len(cells)) + rows)
        out += struct.pack("<HBBQI", len(segment.heads), segment.level, 0, segment.bound, len(layers)) + b"".join(layers)
    return out
