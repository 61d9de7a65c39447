#!/usr/bin/env python3
"""The first `make`: what it says on its way, where a crate is not proved, and where the kit is missing or old.

    test_first_make.py

A script stands in place of `rt`: it says what a check says, and proves nothing.
"""

import os
import pathlib
import re
import shutil
import tempfile
import unittest

from built_program import ROOT, run

PROGRESS = ROOT / "tools" / "progress.sh"
KIT = re.search(r"^Proved with (rattle-kit-[^ ,]+)", (ROOT / "README.md").read_text(), re.MULTILINE)[1]
CRATES = "# NAME: what it stands on\nlow:\nmiddle: low\nadbank: middle\n"
PROVED = "logic=proved functions=%d sum=dac8208d650f15bf native=nat,char,string logic-built=trusted\n"
QUICK = """\
by-macro: thiserror::Error blocks=22
logic /kit/logic/antt-project.json: libraries=16 files=2756 sum=dac8208d650f15bf
only=0 proved=0
rt: the quick pass above also reads functions that this crate may not reach, so some of its errors may not fail the crate
"""
LOW = """\
== low
so far: 0 of 2 functions checked; the verdict comes last
impl low::fault::LoopFaultError: proved
fn low::report::push_error: proved
./proofs/States.antt:28:79: note: `rw` took the first instance of this equation's side in the goal
statements thiserror: modules loaded=0 checked=0
crate low: modules loaded=81 checked=1605
""" + PROVED % 41
MIDDLE = "== middle\nrt: chose --jobs 4 for middle\n" + PROVED % 7
TOP = "== adbank\nrt: adbank: begins with what a check kept in /x/crates/adbank\n" + PROVED % 3
ENDED = "== summary\nlow: ok\nmiddle: ok\nadbank: ok\n3 of 3 crates ok\n"
WENT = ["proved 1 of 3: low, 41 functions", "proved 2 of 3: middle, 7 functions", "proved 3 of 3: adbank, 3 functions"]
BROKEN = """\
== middle
./src/a.rt:7:1: error: `rises`: `grind` stopped at its own limit
fn middle::a::b: no proof: expected answers in ./proofs/a/b/Answers.antt
logic=not-proved functions=7 sum=dac8208d650f15bf
== adbank
== summary
low: ok
middle: failed (1)
adbank: not run, since middle failed
(1: not proved or not passed, 2: rattle failed, 3: antt could not tell)
1 of 3 crates ok
"""
# Does what `make` asks of rt: says a version and a check, and leaves a program.
STAND_IN = """\
#!/bin/sh
case $1 in
version) echo "$STAND_IN_VERSION" ;;
all) cat "$STAND_IN_LOG"; exit "$STAND_IN_STATUS" ;;
run) echo 'logic=proved functions=1 sum=0'; echo 'rt: running out/adbank'; echo 'error 0 bound 0 gap 0 optimal'; mkdir -p out; echo program >out/adbank ;;
esac
"""


class FirstMake(unittest.TestCase):
    """Each test has a folder of its own."""

    def setUp(self):
        self.folder = pathlib.Path(self.enterContext(tempfile.TemporaryDirectory()))
        (self.folder / "crates.txt").write_text(CRATES)

    def progress(self, log):
        """The lines that are left of a check's log."""
        done = run(["bash", PROGRESS, "crates.txt"], self.folder, input=log)
        self.assertEqual((done.returncode, done.stderr), (0, ""))
        return done.stdout.splitlines()

    def make(self, version, log="", status=0):
        """Runs `make` over crates that are not there, with a script in place of rt; of no version none is there."""
        for name in ("Makefile", "README.md", "examples", "tools"):
            if not (self.folder / name).exists():
                (shutil.copytree if (ROOT / name).is_dir() else shutil.copy)(ROOT / name, self.folder / name)
        (self.folder / "crates" / "adbank").mkdir(parents=True, exist_ok=True)
        (self.folder / "log").write_text(log)
        (self.folder / "rt").write_text(STAND_IN)
        (self.folder / "rt").chmod(0o755)
        own = {name: value for name, value in os.environ.items() if not name.startswith("MAKE")}
        own.update(STAND_IN_VERSION=version or "", STAND_IN_LOG=str(self.folder / "log"), STAND_IN_STATUS=str(status))
        return run(["make", f"RT={self.folder}/{'rt' if version is not None else 'gone'}", "JOBS=4"], self.folder, env=own)

    def test_progress(self):
        """A line a crate, in place of the checker's."""
        self.assertEqual(self.progress(QUICK + LOW + MIDDLE + TOP + ENDED), [*WENT, "3 of 3 crates ok"])

    def test_again(self):
        """What an earlier run proved is counted in the end."""
        says = ["proved 1 of 3: adbank, 3 functions", "2 more stand as an earlier run proved them", "3 of 3 crates ok"]
        self.assertEqual(self.progress(QUICK + "== low\n== middle\n" + TOP + ENDED), says)

    def test_faults(self):
        """What is wrong is passed on, with its crate."""
        says = [
            WENT[0],
            "middle: ./src/a.rt:7:1: error: `rises`: `grind` stopped at its own limit",
            "middle: fn middle::a::b: no proof: expected answers in ./proofs/a/b/Answers.antt",
            "middle: logic=not-proved functions=7 sum=dac8208d650f15bf",
            *BROKEN.splitlines()[-4:],
        ]
        self.assertEqual(self.progress(QUICK + LOW + BROKEN), says)
        stopped = "rt: two runs at once in this folder"
        self.assertEqual(self.progress(stopped + "\n"), [stopped])

    def test_make(self):
        """What a first run says; a second has nothing to do."""
        log = QUICK + LOW + MIDDLE + TOP + ENDED
        done = self.make(f"{KIT} logic 1", log)
        self.assertEqual((done.returncode, done.stderr), (0, ""))
        lines = done.stdout.splitlines()
        self.assertEqual(lines[0], "This proves 3 crates, 4 at a time, and then builds the program.")
        self.assertEqual(lines[2:6], [*WENT, "3 of 3 crates ok"])
        self.assertEqual(lines[-1], "The program is build/adbank; `make demo` shows what it does.")
        self.assertEqual(len(lines), 8)
        self.assertEqual((self.folder / "build" / "check.log").read_text(), log)
        self.assertEqual((self.folder / "build" / "adbank").read_text(), "program\n")
        done = self.make(None)
        self.assertEqual((done.returncode, done.stdout.splitlines()), (0, lines[-1:]))

    def test_make_not_proved(self):
        """Where a crate is not proved there is no program."""
        done = self.make(f"{KIT} logic 1", QUICK + LOW + BROKEN, 1)
        self.assertEqual(done.returncode, 2)
        self.assertIn("Not all crates are proved; the whole log is build/check.log.\n", done.stderr)
        self.assertFalse((self.folder / "build" / "adbank").exists())

    def test_kit(self):
        """One line says what to do where the kit is missing or old; a newer one is taken."""
        done = self.make(None)
        self.assertIn(f"There is no command `{self.folder}/gone`: install {KIT} and put its folder bin/ on the PATH", done.stderr)
        self.assertEqual((done.returncode, done.stdout, done.stderr.count("\n")), (2, "", 2))
        for version, says in (("rattle-kit-2z logic 1", "rattle-kit-2z"), ("usage: rt", "an unknown kit"), ("", "an unknown kit")):
            done = self.make(version)
            self.assertIn(f"is of {says}, which is older than {KIT}: install that one", done.stderr)
            self.assertEqual((done.returncode, done.stdout, done.stderr.count("\n")), (2, "", 2))
        self.assertEqual(self.make("rattle-kit-999a logic 1", LOW + ENDED).returncode, 0)


if __name__ == "__main__":
    unittest.main()
