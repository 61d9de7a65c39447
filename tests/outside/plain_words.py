"""Which words are a command, plainly, and how a run of any words over some files must end.

The rules are those of docs/FORMATS.md; nothing here is shared with the program.
"""

from plain_block import form_block
from plain_bound import bound_bank
from plain_check import check_bank
from plain_compiler import Outcome, compile_bank
from plain_decompile import decompile
from plain_play import play

FORMS = ("brr", "vag", "ima")
MOST_ENTRY, MOST_COUNT, MOST_EFFORT, MOST_NUMBER = 63, 1000000, 100000, 4294967295


def number(word, most):
    """The number that a word spells, without a sign or a leading zero, or None."""
    if not word or word.strip("0123456789") or (word[0] == "0" and word != "0"):
        return None
    return int(word) if len(word) <= 10 and int(word) <= most else None


def may_stand(word):
    """Whether a word may stand in a command."""
    return word != "" and not word.startswith("-")


def run_of(words, said):
    """The run of a command over some files, for the words after the program's name; None where they are no command."""
    match words if all(map(may_stand, words)) else ():
        case ["block", source, stored]:
            return lambda files: form_block(files, source, stored)
        case ["compile", manifest]:
            return lambda files: compile_bank(files, manifest)
        case ["check", manifest]:
            return lambda files: check_bank(files, manifest)
        case ["bound", manifest, effort] if number(effort, MOST_EFFORT) is not None:
            return lambda files: bound_bank(files, manifest, said)
        case ["decompile", form, file, out] if form in FORMS:
            return lambda files: decompile(files, form, file, out)
        case ["play", form, file, entry, count] if form in FORMS:
            places = number(entry, MOST_ENTRY), number(count, MOST_COUNT)
            return None if None in places else lambda files: play(files, form, file, *places)
    return None


def end_of(words, files, said):
    """How a run of these words over these files that said this must end; `make` is not run here."""
    done = run_of(words, said)
    return done(files) if done else Outcome(2, b"fault 2 words\n", files)
