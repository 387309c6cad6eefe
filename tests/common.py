"""What the tests in Python share: the words of their command lines, runs of the program, and how they end."""
import argparse
import os
import pathlib
import subprocess
import sys

TOP = pathlib.Path(__file__).resolve().parent.parent
sys.path.append(str(TOP / "tests/reference"))


def parser(doc, **numbers):
    """Returns a parser that helps by this text, and takes a number, with what it is by default, for each name."""
    made = argparse.ArgumentParser(description=doc, formatter_class=argparse.RawDescriptionHelpFormatter)
    for name, usual in numbers.items():
        made.add_argument(f"--{name}", type=int, default=usual, metavar="N")
    return made


def existing(path):
    """Returns the path of a file that a command line names, which has to be there."""
    if not os.path.isfile(path):
        raise argparse.ArgumentTypeError(f"there is no file {path}")
    return pathlib.Path(path)


def program(path):
    """Returns the absolute path of a program that a command line names."""
    if not os.access(existing(path), os.X_OK):
        raise argparse.ArgumentTypeError(f"{path} is no program")
    return os.path.realpath(path)


def add_program(made, name="program", **how):
    """Lets a parser take the path of the program, by default that of ./temu."""
    made.add_argument(name, type=program, default=str(TOP / "temu"), metavar="PROGRAM", **how)


def temu(path, *words, **how):
    """Runs the program, and returns what it did, as texts."""
    return subprocess.run([path, *map(str, words)], capture_output=True, text=True, check=False, **how)


def ended(passed, failed):
    """Tells how many trials passed and failed, and returns the status."""
    print(f"{passed} passed, {failed} failed")
    return 1 if failed else 0
