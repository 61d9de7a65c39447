#!/usr/bin/env python3
"""`make install` and `make uninstall`, the manual page, and the completion in bash.

    test_install.py [PROGRAM]
"""

import os
import pathlib
import shutil
import tempfile
import unittest

from built_program import PROGRAM, ROOT, run

PLACES = {
    "bin/adbank": PROGRAM,
    "share/man/man1/adbank.1": ROOT / "adbank.1",
    "share/doc/adbank/FORMATS.md": ROOT / "docs" / "FORMATS.md",
    "share/doc/adbank/DECISIONS.md": ROOT / "docs" / "DECISIONS.md",
    "share/bash-completion/completions/adbank": ROOT / "completion" / "adbank.bash",
    "share/zsh/site-functions/_adbank": ROOT / "completion" / "adbank.zsh",
}
# Says what bash would offer for the last of some words.
OFFERS = """
source "$0"
compopt() { :; }
COMP_WORDS=("$@") COMP_CWORD=$(($# - 1))
_adbank
printf '%s\\n' "${COMPREPLY[@]}"
"""


class Install(unittest.TestCase):
    """Each test has a folder of its own."""

    def setUp(self):
        self.folder = pathlib.Path(self.enterContext(tempfile.TemporaryDirectory()))

    def make(self, *words):
        """Runs make at the top of the repository; nothing is built."""
        own = {name: value for name, value in os.environ.items() if not name.startswith("MAKE")}
        done = run(["make", "-o", "build/adbank", f"DESTDIR={self.folder}/some where", *words], ROOT, env=own)
        self.assertEqual((done.returncode, done.stderr), (0, ""))

    def files(self):
        """The files that stand in the folder."""
        return sorted(str(path.relative_to(self.folder / "some where")) for path in self.folder.rglob("*") if path.is_file())

    def test_install(self):
        """Exactly these files are put there, and all of them are removed again, and nothing else."""
        for prefix in ("usr", "opt/x y"):
            with self.subTest(prefix):
                self.make("install", f"PREFIX=/{prefix}")
                self.assertEqual(self.files(), sorted(f"{prefix}/{place}" for place in PLACES))
                for place, source in PLACES.items():
                    path = self.folder / "some where" / prefix / place
                    self.assertEqual(path.read_bytes(), pathlib.Path(source).read_bytes())
                    self.assertEqual(path.stat().st_mode & 0o777, 0o755 if place.startswith("bin") else 0o644)
                other = self.folder / "some where" / prefix / "bin" / "other"
                other.touch()
                self.make("uninstall", f"PREFIX=/{prefix}")
                self.assertEqual(self.files(), [f"{prefix}/bin/other"])
                self.assertFalse((self.folder / "some where" / prefix / "share/doc/adbank").exists())
                self.make("uninstall", f"PREFIX=/{prefix}")
                other.unlink()

    @unittest.skipUnless(shutil.which("mandoc"), "there is no mandoc")
    def test_manual(self):
        """The manual page has nothing that mandoc warns of."""
        done = run(["mandoc", "-Tlint", "-Wall", ROOT / "adbank.1"], self.folder)
        self.assertEqual((done.returncode, done.stdout, done.stderr), (0, "", ""))

    def test_words_of_the_manual(self):
        """The manual page has every key of a manifest and every status."""
        text = (ROOT / "adbank.1").read_text()
        for key in ("format", "bank", "base", "length", "start", "block", "beam", "paths", "budget", "name", "file", "channel", "loop"):
            self.assertIn(f"\n.It Ic {key}\n", text)
        statuses = text.split(".Sh EXIT STATUS")[1].split(".Sh")[0]
        self.assertEqual([line[4:] for line in statuses.splitlines() if line.startswith(".It ")], list("0123456789"))

    def offers(self, *words):
        """What bash offers for the last of some words behind `adbank`."""
        done = run(["bash", "-c", OFFERS, ROOT / "completion" / "adbank.bash", "adbank", *words], self.folder)
        self.assertEqual((done.returncode, done.stderr), (0, ""))
        return sorted(done.stdout.split("\n")[:-1])

    def test_completion(self):
        """Commands come first, then files; an image tells its entries."""
        (self.folder / "a b").mkdir()
        for name in ("my bank.toml", "x.toml", "x.wav", "a b/y.toml"):
            (self.folder / name).touch()
        (self.folder / "x.img").write_bytes(b"SNBI\1\0\3\0")
        self.assertEqual(self.offers(""), ["block", "bound", "check", "compile", "decompile", "make", "play"])
        self.assertEqual(self.offers("c"), ["check", "compile"])
        self.assertEqual(self.offers("check", ""), ["a b", "my bank.toml", "x.toml"])
        self.assertEqual(self.offers("bound", ""), ["a b", "my bank.toml", "x.toml"])
        self.assertEqual(self.offers("decompile", ""), ["brr", "ima", "vag"])
        self.assertEqual(self.offers("decompile", "brr", "x"), ["x.img", "x.toml", "x.wav"])
        self.assertEqual(self.offers("compile", ""), ["a b", "my bank.toml", "x.toml"])
        self.assertEqual(self.offers("compile", "a b/"), ["a b/y.toml"])
        self.assertEqual(self.offers("play", ""), ["brr", "ima", "vag"])
        self.assertEqual(self.offers("play", "brr", "x"), ["x.img", "x.toml", "x.wav"])
        self.assertEqual(self.offers("play", "brr", "x.img", ""), ["0", "1", "2"])
        self.assertEqual(self.offers("play", "vag", "x.wav", ""), ["0"])
        self.assertEqual(self.offers("play", "brr", "gone", ""), [""])
        self.assertEqual(self.offers("play", "brr", "x.img", "0", ""), [""])
        self.assertEqual(self.offers("block", "x.w"), ["x.wav"])

    @unittest.skipUnless(shutil.which("zsh"), "there is no zsh")
    def test_zsh(self):
        """The completion for zsh can be read."""
        done = run(["zsh", "-n", ROOT / "completion" / "adbank.zsh"], self.folder)
        self.assertEqual((done.returncode, done.stderr), (0, ""))


if __name__ == "__main__":
    unittest.main()
