#!/usr/bin/env python3
"""The examples: each manifest prints what its report says, and the sounds are those that the script makes.

    test_examples.py [PROGRAM]
"""

import os
import pathlib
import shutil
import subprocess
import sys
import tempfile
import unittest

ROOT = pathlib.Path(__file__).resolve().parents[2]
EXAMPLES = ROOT / "examples"
PROGRAM = os.path.abspath(sys.argv.pop(1) if sys.argv[1:] and os.path.isfile(sys.argv[1]) else ROOT / "build" / "adbank")


class Examples(unittest.TestCase):
    """One test for the reports, and one for the sounds."""

    def setUp(self):
        self.folder = pathlib.Path(self.enterContext(tempfile.TemporaryDirectory()))

    def test_reports(self):
        """Every manifest has a report, and the program prints it."""
        for file in [*EXAMPLES.glob("*.toml"), *EXAMPLES.glob("*.wav")]:
            shutil.copy(file, self.folder)
        manifests = sorted(EXAMPLES.glob("*.toml"))
        self.assertEqual([path.stem for path in manifests], sorted(path.stem for path in EXAMPLES.glob("*.report")))
        for path in manifests:
            done = subprocess.run([PROGRAM, "compile", path.name], cwd=self.folder, stdout=subprocess.PIPE, check=False)
            self.assertEqual((path.name, done.returncode), (path.name, 0))
            self.assertEqual(done.stdout, path.with_suffix(".report").read_bytes(), path.name)

    def test_sounds(self):
        """The script makes exactly the sounds that stand there."""
        shutil.copy(EXAMPLES / "make_sounds.py", self.folder)
        subprocess.run([sys.executable, "-B", str(self.folder / "make_sounds.py")], check=True)
        made = sorted(path.name for path in self.folder.glob("*.wav"))
        self.assertEqual(made, sorted(path.name for path in EXAMPLES.glob("*.wav")))
        for name in made:
            self.assertTrue((self.folder / name).read_bytes() == (EXAMPLES / name).read_bytes(), f"{name} is another sound")


if __name__ == "__main__":
    unittest.main()
