#!/usr/bin/env python3
"""docs/GUIDE.md: every line that is typed there runs in an empty folder and prints what stands below it.

    test_guide.py [PROGRAM]
"""

import os
import pathlib
import re
import subprocess
import sys
import tempfile
import textwrap
import unittest

ROOT = pathlib.Path(__file__).resolve().parents[2]
PROGRAM = os.path.abspath(sys.argv.pop(1) if sys.argv[1:] and os.path.isfile(sys.argv[1]) else ROOT / "build" / "adbank")
GUIDE = ROOT / "docs" / "GUIDE.md"
PROMPT = "$ "

# What a block of a file begins with, and the file.
FILES = {"# loop.py": "loop.py", 'format = "brr"': "one.toml"}


def blocks(text):
    """The indented blocks of a page, each without its indent."""
    found = re.findall(r"(?:^|\n\n)((?: {4,}\S.*\n|\n(?= {4}))+)", text)
    return [textwrap.dedent(block).strip("\n") for block in found]


def steps(block):
    """The commands of a block, each with what it prints."""
    for start, name in FILES.items():
        if block.startswith(start):
            return [(f"cat >{name} <<'END'\n{block}\nEND", "")]
    if not block.startswith(PROMPT):
        return [(block, "")]
    found = []
    for line in block.split("\n"):
        if line.startswith(PROMPT):
            found.append((line.removeprefix(PROMPT), ""))
        elif found[-1][0].count('"') % 2:
            found[-1] = (found[-1][0] + "\n" + line, "")
        else:
            found[-1] = (found[-1][0], found[-1][1] + line + "\n")
    return found


class Guide(unittest.TestCase):
    """One test for what is typed, and one for what is linked."""

    def setUp(self):
        self.text = GUIDE.read_text(encoding="utf-8")

    def test_typed(self):
        """One shell types everything in order."""
        typed = [step for block in blocks(self.text) for step in steps(block)]
        self.assertGreater(len(typed), 25)
        with tempfile.TemporaryDirectory() as folder:
            program, said, work = (pathlib.Path(folder, name) for name in ("program", "said", "work"))
            for made in (program, said, work):
                made.mkdir()
            (program / "adbank").symlink_to(PROGRAM)
            script = "".join(f"{{ {command}\n}} >{said}/{number} 2>&1\n" for number, (command, _) in enumerate(typed))
            paths = {"PATH": f"{program}:{os.environ['PATH']}", "PYTHONDONTWRITEBYTECODE": "1"}
            subprocess.run(["bash", "-c", script.replace("REPOSITORY", str(ROOT))], cwd=work, env={**os.environ, **paths}, check=False)
            for number, (command, prints) in enumerate(typed):
                with self.subTest(command=command):
                    self.assertEqual((said / str(number)).read_text(encoding="utf-8"), prints)

    def test_linked(self):
        """Every file that is linked is there, and so is every heading of this page that is."""
        heads = [re.sub(r"[^\w -]", "", head.lower()).replace(" ", "-") for head in re.findall(r"^#+ (.*)", self.text, re.M)]
        for target in re.findall(r"\]\(([^)]+)\)", self.text):
            file, _, head = target.partition("#")
            self.assertTrue((GUIDE.parent / file).exists(), target)
            self.assertTrue(file or head in heads, target)


if __name__ == "__main__":
    unittest.main()
