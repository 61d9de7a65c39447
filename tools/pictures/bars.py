"""The samples of a bank as bars: how far each is above its noise, and how far it could be at most."""

import math

from bank import decibels
from svg import Picture, Scale, whole

LEFT, RIGHT, TOP, ROW = 140, 520, 62, 54


def ratio(sample, error):
    """Signal to noise in dB; None where there is no noise, or no signal."""
    signal = sample.signal()
    return decibels(signal / error) if signal and error else None


def words(reached, name, error):
    """What stands behind a bar."""
    return f"{reached:.1f} dB, {name} {whole(error)}" if reached is not None else f"{name} {whole(error)}"


def picture(samples):
    """The picture of a bank."""
    rows = [(sample, ratio(sample, sample.error), ratio(sample, sample.bound)) for sample in samples]
    most = max([value for _, *both in rows for value in both if value is not None], default=0)
    most = max(10, 10 * math.ceil(most / 10))
    bottom = TOP + ROW * len(samples)
    drawn = Picture(800, bottom + 54, "Error and bound of each sample of the bank")
    drawn.legend(LEFT, 48, [("error-area", "as encoded (error)"), ("source-area soft", "no legal encoding is better (bound)")])
    across = Scale(0, most, LEFT, RIGHT)
    for tick in range(0, most + 1, 10 if most <= 90 else 20):
        drawn.line(across(tick), TOP, across(tick), bottom, "grid")
        drawn.text(across(tick), bottom + 16, str(tick), "faint", "middle")
    for place, (sample, reached, limit) in enumerate(rows):
        y = TOP + ROW * place + 8
        drawn.text(LEFT - 10, y + 23, sample.name, "ink", "end")
        for at, value, kind, name, error in (
            (y, reached, "error-area", "error", sample.error),
            (y + 20, limit, "source-area soft", "bound", sample.bound),
        ):
            full = most if error == 0 else value or 0
            drawn.box(LEFT, at, across(full) - LEFT, 17, kind, f"{sample.name}: {words(value, name, error)}")
            drawn.text(across(full) + 8, at + 13, words(value, name, error))
    drawn.line(LEFT, TOP, LEFT, bottom, "axis")
    drawn.text(LEFT, bottom + 36, "signal to noise in dB: 10·log10(sum of squares of the targets / error)", "faint")
    return str(drawn)
