"""The proved office program, which does all judging: finding it, running it, and taking its text if it is whole.

The text is taken by `./judge` and by the tool alike: a program that crashed, was killed or lost a row judged nothing.
"""
import os
import re
import tempfile
from dataclasses import dataclass
from pathlib import Path

from . import programs
from . import wording as w
from .disk import told
from .unpack import Reader, Unreadable

LINE, SESSION = "line.bin", "session.bin"
VARIABLE = "KOLLUWAR_OFFICE"
LOST = "nothing is judged"
ANSWER = re.compile(rb"^\d+ (\d{1,2})$", re.MULTILINE)
# What is printed alone: a file is too long, the line is refused by a question.
LONG = b"long\n"
REFUSED_LINE = re.compile(rb"line ([1-6])\n")


@dataclass(frozen=True)
class Verdict:
    """What the program printed: the answers in order; or `line n`, or `long`; `cut` behind the answers."""
    answers: tuple = ()
    refused_line: int = 0
    too_long: bool = False
    cut: bool = False

    @property
    def accepted(self):
        """Whether every record is."""
        return not (self.too_long or self.refused_line or self.cut or any(self.answers))


def find_office(option=None):
    """The program by the option, else by the environment, else as the repository's `./judge --program` says."""
    given = option or os.environ.get(VARIABLE)
    return programs.runnable(given or programs.built("office", f": give --office PATH or set {VARIABLE}"))


def judge(office, line, session):
    """The verdict on the bytes of two files, which are put into a passing folder."""
    with told("write", "a passing folder for the office program"), tempfile.TemporaryDirectory() as passing:
        (Path(passing) / LINE).write_bytes(line)
        (Path(passing) / SESSION).write_bytes(session)
        return parse(run(office, passing), session)


def run(office, folder):
    """What the program prints in a folder."""
    return programs.run(office, folder, LOST).stdout


def parse(text, session):
    """The verdict in the program's text, if that is whole by document 01's own rules.

    Whole is `long` alone, `line n` alone, or a row for each record of the session, its place from 1 and its answer,
    and then `cut` if the session is; and every row has its newline.
    """
    if text == LONG:
        return Verdict(too_long=True)
    refused = REFUSED_LINE.fullmatch(text)
    if refused:
        return Verdict(refused_line=int(refused[1]))
    count, cut = records(session)
    answers = tuple(int(answer) for answer in ANSWER.findall(text))
    rows = [f"{place} {answer}\n" for place, answer in enumerate(answers, 1)] + ["cut\n"] * cut
    if text != "".join(rows).encode() or len(answers) != count or max(answers, default=0) > max(w.QUESTIONS):
        raise programs.ProgramError(
            f"the office program's text is not whole: {len(text)} bytes for a session of {count} "
            f"record{'' if count == 1 else 's'}{' and a cut one' if cut else ''}; {LOST}")
    return Verdict(answers=answers, cut=cut)


def records(session):
    """How many whole records a session has, and whether something cut is behind them.

    Document 01, 'Office program': a length is asked questions 1 and 2 only, and a record may not be cut short.
    """
    reader, count = Reader(session), 0
    try:
        while reader.at < len(session):
            reader.raw(reader.number())
            count += 1
    except Unreadable:
        return count, True
    return count, False
