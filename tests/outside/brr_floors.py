"""Floors under a block of BRR, worked out by trying every code, rounding and wrap.

Prints for some heads the floors from the places 0, 1, 2, 3, 14 and 15 on of one block of seeded targets. The rules are
those of docs/FORMATS.md; nothing here is shared with the program.
"""

import random

import brr
from window_floor import BRR, floor_of_window


def own_floors(head, targets):
    """For each place the floor of the window, or of the single place, that begins there."""
    shift, number = divmod(head, 4)
    samples = brr.samples(shift)
    size = [1, 2, 3, 3][number]
    floors = [0] * 16
    for first in range(0, 16 - 16 % size, size):
        window = targets[first : first + size]
        if number == 0:
            floor = min(brr.cost(brr.output(sample), window[0]) for sample in samples)
        else:
            r, o, x = [0] * (3 - size) + window
            floor = floor_of_window(BRR[number], samples, (-1, 0), (-1, 0, 1), (r, o, x))
        floors[first] = max(floor, sum(target % 2 for target in window))
    for place in range(16 - 16 % size, 16):
        floors[place] = targets[place] % 2
    return floors


if __name__ == "__main__":
    numbers = random.Random(5)
    targets = [numbers.randrange(-20000, 20000) for _ in range(15)] + [-4321]
    print("targets", targets)
    for head in (20, 37, 42, 47, 57):
        floors = own_floors(head, targets)
        print(head, [sum(floors[place:]) for place in (0, 1, 2, 3, 14, 15)])
    print(own_floors(48, [32767] * 16)[0])
