"""The choice of several lists of codes that go on in each block, plainly: the key `paths` of a manifest.

The rules are those of docs/FORMATS.md; nothing here is shared with the program. In BRR and SPU-ADPCM the best lists go on
together under every head; in IMA ADPCM each step index keeps its best outputs.
"""

import math
from typing import NamedTuple


class Path(NamedTuple):
    """A list of blocks: what it costs, its state, its parent among those kept a block earlier, its last head and codes."""

    sum: int
    state: tuple
    parent: int
    head: int
    codes: tuple


def put(kept, width, item, is_like):
    """Puts an item into a list of few in the order of sums, behind equal ones; of two that are alike the cheaper stays."""
    if len(kept) == width and item.sum >= kept[-1].sum:
        return
    like = next((at for at, other in enumerate(kept) if is_like(other, item)), None)
    if like is not None:
        if kept[like].sum <= item.sum:
            return
        del kept[like]
    elif len(kept) == width:
        del kept[-1]
    at = next((at for at, other in enumerate(kept) if other.sum > item.sum), len(kept))
    kept.insert(at, item)


def nearest(machine, head, place, state, target):
    """The first code of least cost, the state after it and its cost."""
    tried = [(machine.cost(machine.step(head, place, code, state)[0], target), code) for code in range(16)]
    cost, code = min(tried)
    return code, machine.step(head, place, code, state), cost


def next_nearest(machine, head, place, state, target, near):
    """The cheaper of the codes beside the nearest, of codes from -8 to 7, that give another output."""
    code, after, _ = near
    beside = [] if code == 7 else [(code + 1) % 16]
    beside += [] if code == 8 else [(code + 15) % 16]
    found = [(other, machine.step(head, place, other, state)) for other in beside]
    found = [(other, to, machine.cost(to[0], target)) for other, to in found if to[0] != after[0]]
    return min(found, key=lambda it: it[2], default=None)


def grain(machine, head):
    """The bits of a cell of outputs inside a block: the greatest power of two of at most a thirty-second of a step, or 1."""
    low, high = (machine.step(head, 0, code, (0, 0))[0] for code in (0, 1))
    return max(1, abs(high - low) // 32).bit_length() - 1


def through(machine, head, block, layer, width, most):
    """The paths of a layer, through a block under a head."""
    bits = grain(machine, head)
    now = [Path(path.sum, path.state, parent, head, ()) for parent, path in enumerate(layer)]
    for place, target in enumerate(block):
        after = []
        for path in now:
            near = nearest(machine, head, place, path.state, target)
            for found in (near, next_nearest(machine, head, place, path.state, target, near)):
                if found and path.sum + found[2] < most:
                    item = Path(path.sum + found[2], found[1], path.parent, head, path.codes + (found[0],))
                    put(after, width, item, lambda a, b: all(x >> bits == y >> bits for x, y in zip(a.state, b.state)))
        now = after
    return now


def ranked(machine, block, is_first, state):
    """The heads by what the nearest codes cost from a state, then by number; of heads that act alike the first."""
    found = []
    for head in machine.HEADS:
        if machine.allows(head, is_first) and machine.lane(head) == head:
            total, at = 0, state
            for place, target in enumerate(block):
                _, at, cost = nearest(machine, head, place, at, target)
                total += cost
            found.append((total, head))
    return [head for _, head in sorted(found)]


def by_codes(machine, targets, width, known):
    """Heads and symbols of the best path of sums below what is known, or None."""
    layers = [[Path(0, (0, 0), 0, 0, ())]]
    for first in range(0, len(targets), machine.SIZE):
        block, made = targets[first : first + machine.SIZE], []
        if layers[-1]:
            for head in ranked(machine, block, first == 0, layers[-1][0].state):
                most = min(known, made[-1].sum if len(made) == width else math.inf)
                for path in through(machine, head, block, layers[-1], width, most):
                    put(made, width, path, lambda a, b: a.state == b.state)
        layers.append(made)
    heads, codes, at = [], [], 0
    for layer in layers[:0:-1]:
        if at >= len(layer):
            return None
        heads.insert(0, layer[at].head)
        codes[:0] = layer[at].codes
        at = layer[at].parent
    return heads, codes


class Slot(NamedTuple):
    """A list of codes of a block: what it costs, its state, the cell of its output, and its symbols with the head before."""

    sum: int
    state: tuple
    cell: int
    head: int
    symbols: tuple


def offers(machine, place, state, target):
    """Six codes: the two cheapest that lower the index, towards the target or the least away, and those that raise it."""
    sign = 8 if target < state[0] else 0
    tried = [(machine.cost(machine.step(0, place, code, state)[0], target), order, code) for order, code in enumerate((sign, 8 - sign, sign + 1, sign + 2, sign + 3))]
    return [code for _, _, code in sorted(tried)[:2]] + [sign + size for size in (4, 5, 6, 7)]


def by_index(machine, targets, width, known):
    """The head and the symbols of a block of IMA ADPCM by the best lists of each index, or None."""
    cells = []
    for head in machine.HEADS:
        rest = (0, head)
        low, high = (machine.step(0, 1, code, rest)[0] for code in (0, 2))
        cells.append(max(1, abs(high - low) // 16))

    def offer(lists, most, before, head, symbols, symbol, state, cost):
        index = state[1]
        if before + cost < known:
            slot = Slot(before + cost, state, (state[0] + 32768) // cells[index], head, symbols + (symbol,))
            put(lists[index], most, slot, lambda a, b: a.cell == b.cell)

    now = [[] for _ in machine.HEADS]
    for head in machine.HEADS:
        offer(now, 1, 0, head, (), targets[0] + 32768, (targets[0], head), 0)
    for place in range(1, len(targets)):
        after = [[] for _ in machine.HEADS]
        for slot in (slot for slots in now for slot in slots):
            for code in offers(machine, place, slot.state, targets[place]):
                state = machine.step(0, place, code, slot.state)
                offer(after, width, slot.sum, slot.head, slot.symbols, code, state, machine.cost(state[0], targets[place]))
        now = after
    best = min((slots[0] for slots in now if slots), key=lambda slot: slot.sum, default=None)
    return ([best.head], list(best.symbols)) if best else None


def played(machine, heads, symbols, targets):
    """What a list costs, by the decoder's steps."""
    state, total = (0, 0), 0
    for i, target in enumerate(targets):
        state = machine.step(heads[i // machine.SIZE], i % machine.SIZE, symbols[i], state)
        total += machine.cost(state[0], target)
    return total


def paths(machine, targets, width, known):
    """The choice of so many paths, where it costs less than a known choice of heads, symbols and sum."""
    if width == 1:
        return known
    most = -(-width // 4)
    rounds = [few for few in (1, 4, 16) if few < most] + [most] if machine.KIND == 2 else [width]
    for few in rounds:
        found = (by_index if machine.KIND == 2 else by_codes)(machine, targets, few, known[2])
        if found:
            total = played(machine, *found, targets)
            if total < known[2]:
                known = (*found, total)
    return known
