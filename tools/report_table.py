#!/usr/bin/env python3
"""Compares the reports of several runs of `adbank compile` sample by sample, in numbers and in dB.

    adbank compile bank.toml >before.txt
    report_table.py before.txt after.txt

Each report is a file with what one run said; `-` is the standard input. The table has a row for each sample and run:

    noise dB    10 * log10(error / (16 * blocks * 32768^2)), the mean squared error relative to full scale
    over dB     10 * log10(error / bound), the most that another choice of blocks could gain
    change      the error less that of the first run
    change dB   10 * log10(error / that of the first run)

The change is `other` where the sample has another loop or another number of blocks, since the errors are not of the
same samples then. The last rows have the sums over the samples that all runs have with the same blocks and loop.
"""

import argparse
import math
import re
import sys
from typing import NamedTuple

FULL_SCALE = 32768
SAMPLE_LINE = re.compile(
    r"sample ([\w-]{1,16}) blocks (\d{1,9}) loop (none|\d+|\d+\.\.\d+) error (\d{1,20}) bound (\d{1,20}) gap (\d{1,20})"
    r" levels \d+ \d+ \d+ \d+( optimal)?",
    re.ASCII,
)
DONE_LINE = re.compile(r"done (\d{1,9}) samples \d+ files", re.ASCII)
HEADS = ["sample", "run", "blocks", "loop", "error", "bound", "gap", "noise dB", "over dB", "change", "change dB"]
LEFT = {"sample", "run"}


class Refused(Exception):
    """Why a report is not taken, in words."""


class Result(NamedTuple):
    """What a report says of one sample, or the sum over some."""

    blocks: int
    loop: str
    error: int
    bound: int


def read_sample(found):
    """The name and the result in a matched line of a sample; refuses numbers that do not fit together."""
    name, loop, optimal = found[1], found[3], bool(found[7])
    blocks, error, bound, gap = (int(found[at]) for at in (2, 4, 5, 6))
    if not blocks or error - bound != gap or optimal != (gap == 0):
        raise Refused(f"the numbers of `{name}` do not fit together")
    return name, Result(blocks, loop, error, bound)


def read_report(text):
    """The results by name, in order."""
    results, done = {}, None
    for number, line in enumerate(text.splitlines(), 1):
        if line.startswith("fault "):
            raise Refused(f"the run ended with `{line}`")
        found = SAMPLE_LINE.fullmatch(line)
        if found and done is None:
            name, result = read_sample(found)
            if name in results:
                raise Refused(f"line {number}: `{name}` comes twice")
            results[name] = result
        elif done is None and DONE_LINE.fullmatch(line):
            done = int(DONE_LINE.fullmatch(line)[1])
        else:
            raise Refused(f"line {number} is no line of a report")
    if done is None:
        raise Refused("the line `done` is not there: the report is cut short")
    if done != len(results) or not done:
        raise Refused(f"{done} samples are told, and {len(results)} are there")
    return results


def decibels(part, whole):
    """The ratio of two squared errors in dB, with two places."""
    if part == whole:
        return "0.00"
    if part == 0 or whole == 0:
        return "-inf" if part == 0 else "inf"
    # whole numbers of any length: each logarithm alone is in range
    return f"{10 * (math.log10(part) - math.log10(whole)):.2f}"


def changes(result, first):
    """The two texts of how a result differs from that of the first run."""
    if first is None:
        return ["", ""]
    if result[:2] != first[:2]:
        return ["other", "other"]
    return [f"{result.error - first.error:+d}", decibels(result.error, first.error)]


def row(name, run, result, first, block):
    """The texts of one row; `first` is None in the first run."""
    if result is None:
        return [name, run, "absent"] + [""] * (len(HEADS) - 3)
    full = block * result.blocks * FULL_SCALE**2
    numbers = [result.blocks, result.loop, result.error, result.bound, result.error - result.bound]
    levels = [decibels(result.error, full), decibels(result.error, result.bound)]
    return [name, run, *map(str, numbers), *levels, *changes(result, first)]


def names_in(reports):
    """The names of all samples, each at its first place."""
    return list(dict.fromkeys(name for results in reports for name in results))


def in_all(reports, name):
    """Whether all runs have a sample with the same blocks and loop."""
    kinds = {results[name][:2] if name in results else None for results in reports}
    return len(kinds) == 1 and None not in kinds


def sums(reports):
    """For each run the sum over the samples that all runs have alike; and how many these are."""
    names = [name for name in names_in(reports) if in_all(reports, name)]
    totals = []
    for results in reports:
        columns = [[getattr(results[name], field) for name in names] for field in ("blocks", "error", "bound")]
        blocks, error, bound = map(sum, columns)
        totals.append(Result(blocks, "", error, bound))
    return totals, len(names)


def rows_of(reports, block):
    """All rows of the table."""
    found = []
    for name in names_in(reports):
        first = reports[0].get(name)
        for number, results in enumerate(reports, 1):
            found.append(row(name, str(number), results.get(name), first if number > 1 else None, block))
    totals, count = sums(reports)
    if count:
        for number, total in enumerate(totals, 1):
            found.append(row(f"all {count}", str(number), total, totals[0] if number > 1 else None, block))
    return found


def table(rows):
    """The lines of a table under its heads."""
    widths = [max(map(len, column)) for column in zip(HEADS, *rows)]
    for texts in [HEADS, *rows]:
        cells = [text.ljust(width) if head in LEFT else text.rjust(width) for head, text, width in zip(HEADS, texts, widths)]
        yield "  ".join(cells).rstrip()


def fetch(path):
    """The report in a file."""
    try:
        if path == "-":
            data = sys.stdin.buffer.read()
        else:
            with open(path, "rb") as file:
                data = file.read()
        return read_report(data.decode("utf-8", "replace"))
    except Refused as why:
        raise Refused(f"{path}: {why}") from why
    except OSError as why:
        raise Refused(f"{path}: {why.strerror}") from why


class Words(argparse.ArgumentParser):
    """Reads the words; what is wrong with them is one line."""

    def error(self, message):
        self.exit(2, f"report_table: {message}; --help says more\n")


def main(given):
    """Prints the table; answers 1 where a report is refused."""
    parser = Words(prog="report_table.py", description=__doc__, formatter_class=argparse.RawDescriptionHelpFormatter)
    parser.add_argument("--block", type=int, default=16, choices=(16, 28), help="samples in a block; 16, of BRR, if not given")
    parser.add_argument("reports", metavar="REPORT", nargs="+")
    asked = parser.parse_args(given)
    try:
        reports = [fetch(path) for path in asked.reports]
    except Refused as why:
        print(f"report_table: {why}", file=sys.stderr)
        return 1
    for number, path in enumerate(asked.reports, 1):
        print(f"run {number}: {path}")
    print()
    for line in table(rows_of(reports, asked.block)):
        print(line)
    return 0


if __name__ == "__main__":
    sys.exit(main(sys.argv[1:]))
