#!/usr/bin/env python3
"""tools/report_table.py: its numbers are those of the reports, and damaged reports are refused.

    test_report_table.py [PROGRAM]
"""

import math
import pathlib
import tempfile
import unittest

import seeded_banks
from built_program import compile_files, tool

COLUMNS = "sample run blocks loop error bound gap noise over change decibels".split()
GOOD = "sample s blocks 2 loop none error 9 bound 5 gap 4 levels 0 0 0 1\n"
DONE = "done 1 samples 2 files\n"


def db(ratio):
    """A ratio in dB, as a text."""
    return f"{10 * math.log(ratio) / math.log(10):.2f}"


def rows(said):
    """The rows of a table by sample and run, each with its texts by column: all but the first two are flush right."""
    head, *lines = said.split("\n\n")[1].splitlines()
    ends = [head.index("run"), head.index("run") + 3]
    for title in ("blocks", "loop", "error", "bound", "gap", "noise dB", "over dB", "change", "change dB"):
        ends.append(head.index(title, ends[-1]) + len(title))
    cut = [[line[begin:end].strip() for begin, end in zip([0, *ends], ends)] for line in lines]
    return {(texts[0], texts[1]): dict(zip(COLUMNS, texts)) for texts in cut}


def numbers(line):
    """The numbers of a report's line of a sample, by their words."""
    words = line.split()
    return dict(zip(words[2:12:2], words[3:12:2]))


class Table(unittest.TestCase):
    """Each test has a folder of its own."""

    def setUp(self):
        self.folder = pathlib.Path(self.enterContext(tempfile.TemporaryDirectory()))

    def table(self, *words):
        """How the tool ends."""
        return tool(self.folder, "report_table.py", *words)

    def reports(self):
        """Reports of a bank, of the same with one loop left out, and of a bank with two of its three samples."""
        tone = [round(9000 * math.sin(i / 5)) for i in range(240)]
        sounds = {"hit": ([i * i % 999 for i in range(100)], None), "tone": (tone, (24, 199)), "nil": ([0] * 40, None)}
        files = {name: seeded_banks.wave([sound], loop=loop) for name, (sound, loop) in sounds.items()}
        samples = [{"name": name, "file": name} for name in sounds]
        plain = [{**sample, "loop": "none"} for sample in samples]
        said = []
        for name, listed in (("one", samples), ("two", plain), ("three", samples[:0:-1])):
            files["m.toml"] = seeded_banks.manifest(listed)
            said.append(compile_files(self.folder, files, "m.toml"))
            (self.folder / name).write_text(said[-1])
        return said

    def test_numbers(self):
        """Each row has the numbers of its report, and dB that are computed otherwise."""
        told = [{line.split()[1]: numbers(line) for line in said.splitlines()[:-1]} for said in self.reports()]
        done = self.table("one", "two", "three")
        self.assertEqual((done.returncode, done.stderr), (0, ""))
        self.assertTrue(done.stdout.startswith("run 1: one\nrun 2: two\nrun 3: three\n\nsample"))
        found = rows(done.stdout)
        self.assertEqual([key[0] for key in found], ["hit"] * 3 + ["tone"] * 3 + ["nil"] * 3 + ["all 1"] * 3)
        for (name, run), row in found.items():
            if name == "all 1":
                name = "nil"
            elif name == "hit" and run == "3":
                self.assertEqual(row["blocks"], "absent")
                continue
            want, first = told[int(run) - 1][name], told[0][name]
            for column in ("blocks", "error", "bound", "gap"):
                self.assertEqual(row[column], want[column])
            error, bound, blocks = (int(want[column]) for column in ("error", "bound", "blocks"))
            self.assertEqual(row["noise"], db(error / blocks / 16 / 2**30) if error else "-inf")
            self.assertEqual(row["over"], db(error / bound) if error else "0.00")
            if run == "1":
                self.assertEqual((row["change"], row["decibels"]), ("", ""))
            elif (want["blocks"], want["loop"]) != (first["blocks"], first["loop"]):
                self.assertEqual((row["change"], row["decibels"]), ("other", "other"))
            else:
                self.assertEqual(int(row["change"]), error - int(first["error"]))
                self.assertEqual(row["decibels"], db(error / int(first["error"])) if error else "0.00")

    def test_sums(self):
        """The last rows add up what all runs have alike; a sample of another loop is left out."""
        self.reports()
        alike = GOOD + GOOD.replace(" s ", " t ") + GOOD.replace(" s ", " u ") + DONE.replace("1", "3")
        other = alike.replace("9 bound 5 gap 4", "7 bound 5 gap 2").replace("u blocks 2", "u blocks 3")
        (self.folder / "a").write_text(alike)
        (self.folder / "b").write_text(other)
        found = rows(self.table("--block", "28", "a", "b").stdout)
        self.assertEqual(found["u", "2"]["change"], "other")
        self.assertEqual([found["all 2", run]["error"] for run in "12"], ["18", "14"])
        self.assertEqual([found["all 2", run]["blocks"] for run in "12"], ["4", "4"])
        self.assertEqual((found["all 2", "2"]["change"], found["all 2", "2"]["decibels"]), ("-4", db(14 / 18)))
        self.assertEqual(found["all 2", "2"]["noise"], db(14 / 28 / 4 / 2**30))

    def test_damaged(self):
        """A report that is damaged, cut short or of a refused run is told in one line."""
        texts = {
            "": "the line `done` is not there: the report is cut short",
            GOOD: "the line `done` is not there: the report is cut short",
            DONE: "1 samples are told, and 0 are there",
            GOOD + GOOD + DONE: "line 2: `s` comes twice",
            GOOD + DONE + DONE: "line 3 is no line of a report",
            GOOD.replace("blocks", "block") + DONE: "line 1 is no line of a report",
            GOOD.replace("9", "-9") + DONE: "line 1 is no line of a report",
            GOOD.replace("gap 4", "gap 5") + DONE: "the numbers of `s` do not fit together",
            GOOD.replace("\n", " optimal\n") + DONE: "the numbers of `s` do not fit together",
            "fault 8 fetch m.toml\n": "the run ended with `fault 8 fetch m.toml`",
            "\0\n": "line 1 is no line of a report",
        }
        for text, says in texts.items():
            (self.folder / "r").write_text(text)
            done = self.table("r")
            self.assertEqual((done.returncode, done.stdout, done.stderr), (1, "", f"report_table: r: {says}\n"))
        done = self.table("gone")
        self.assertEqual((done.returncode, done.stderr), (1, "report_table: gone: No such file or directory\n"))

    def test_words(self):
        """A report may come on the standard input; wrong words are told in one line."""
        done = tool(self.folder, "report_table.py", "-", input=GOOD + DONE)
        self.assertEqual((done.returncode, rows(done.stdout)["s", "1"]["error"]), (0, "9"))
        done = self.table()
        self.assertEqual((done.returncode, done.stdout, done.stderr.count("\n")), (2, "", 1))
        self.assertIn("noise dB", self.table("--help").stdout)


if __name__ == "__main__":
    unittest.main()
