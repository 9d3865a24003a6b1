"""The words of a command line: what they stand for, and the help on them."""
import argparse
from pathlib import Path

from .repair import MOST
from .terminal import say, visible
from .visit import BRINGUP, VISIT


class Parser(argparse.ArgumentParser):
    """The command line; what was typed is said again without control characters, and help is said as all else."""

    def error(self, message):
        super().error(visible(message))

    def print_help(self, file=None):
        say([self.format_help().rstrip("\n")])


def spot_of(text):
    """A row as it is typed: 17, or bringup:4 for one of the bring-up."""
    table, colon, row = text.rpartition(":")
    if colon and f"{table}.csv" != BRINGUP:
        raise ValueError
    return int(row), BRINGUP if colon else VISIT


def which_of(text):
    """A row, or `all` for every row."""
    return ALL if text == ALL else spot_of(text)


# What is not a path: how it is taken from the command line, what it is called in the help, and what it is for.
ALL = "all"
ROW_HELP = "a row of visit.csv"
WORDS = {
    "ROW": (int, "ROW", ROW_HELP),
    "SPOT": (spot_of, "ROW", f"{ROW_HELP}, or bringup:4 for one of bringup.csv"),
    "WHICH": (which_of, "ROW", f"{ROW_HELP}, bringup:4 for one of bringup.csv, or '{ALL}' for every row and the end"),
}
FLAGS = {
    "--write": dict(type=int, metavar="N", help="put the change of this number into visit.csv"),
    "--most": dict(type=int, metavar="N", default=MOST, help=f"so many changes at most for a row (else {MOST})"),
    "--replace": dict(action="store_true", help="what is there already is replaced"),
}


def add_argument(command, argument):
    """An argument by its name, in brackets if it may be left out, with dots if there may be several, or an option."""
    if argument in FLAGS:
        command.add_argument(argument, **FLAGS[argument])
        return
    bare = argument.strip("[.]")
    kind, shown, text = WORDS.get(bare, (Path, bare, None))
    nargs = "*" if ".." in argument else "?" if argument != bare else None
    command.add_argument(bare.lower(), metavar=shown, type=kind, help=text, nargs=nargs)
