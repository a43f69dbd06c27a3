"""The words of the scripts of tests/ and bench/, and the programs that they run.

--help prints a script's page and ends it with 0; words that it does not take end it with its usage,
what is wrong with them, and 2.
"""
import argparse
import os
import shutil
import subprocess
import sys

TOP = os.path.dirname(os.path.dirname(os.path.realpath(__file__)))
BUILT = os.path.join(TOP, "build", "carbink")


def reader(page):
    """A reader of words, to which a script adds what it takes."""
    return argparse.ArgumentParser(description=page, allow_abbrev=False,
                                   formatter_class=argparse.RawDescriptionHelpFormatter)


def read_none(page):
    """Of a script that takes no words."""
    reader(page).parse_args()


def number(word):
    """A count, a seed: 0 or more."""
    if not (word.isascii() and word.isdigit()):
        raise argparse.ArgumentTypeError(f"'{word}' is no number")
    return int(word)


def program(word):
    """The path of a program."""
    if not os.path.isfile(word) or not os.access(word, os.X_OK):
        raise argparse.ArgumentTypeError(f"there is no program at '{word}'")
    return os.path.abspath(word)


def file(word):
    """The path of a file that can be read."""
    try:
        with open(word, "rb"):
            return word
    except OSError as error:
        raise argparse.ArgumentTypeError(f"'{word}' can't be read: {error.strerror}") from None


def text(reader, path):
    """The text of a file, or the end of the script where it can't be read."""
    try:
        with open(path, encoding="utf-8", errors="replace") as opened:
            return opened.read()
    except OSError as error:
        return reader.error(f"'{path}' can't be read: {error.strerror}")


def proved():
    """The proved program, which ./prove builds where it is not that of the sources."""
    ran = subprocess.run([os.path.join(TOP, "prove")], stdin=subprocess.DEVNULL, check=False)
    if ran.returncode != 0:
        sys.exit("the program was not built")
    return BUILT


def crates_program(crate, place, *words, target=()):
    """A copy in this place of the program of a crate, which is proved and built for the target where
    it is not built from the sources as they stand, and run once with these words."""
    folder = os.path.join(TOP, "crates", crate)
    quiet = dict.fromkeys(("stdin", "stdout", "stderr"), subprocess.DEVNULL)
    if not shutil.which("rt"):
        sys.exit("the command rt, of the Rattle toolchain, is not on the PATH: it builds the program")
    ran = subprocess.run(["rt", "run", *target, "--", *words], cwd=folder, check=False, **quiet)
    if ran.returncode != 0:
        sys.exit(f"the program of {crate} was not built: rt run in crates/{crate} tells why")
    return shutil.copy(os.path.join(folder, "out", crate), place)
