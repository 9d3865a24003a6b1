"""The proved rewriting program, which loads line.bin and saves it as line.out: finding it, running it, and looking
whether it did so."""
from pathlib import Path

from . import disk, programs
from .office import LINE, LONG, REFUSED_LINE

OUT = "line.out"
LOST = f"{OUT} is not to be used"


def find_rewrite():
    """The program, as the repository's `./judge --program rewrite` says."""
    return programs.runnable(programs.built("rewrite"))


def rewrite(program, folder):
    """What the program prints in a folder: nothing if line.out holds line.bin now, else `line n` or `long`.

    It has no status by which to say that line.out cannot be written, and complains instead: so any word of complaint
    is a failure. A line that loads is saved as the bytes that it came from, and that is looked at here too.
    """
    line = disk.read(Path(folder) / LINE)
    done = programs.run(program, folder, LOST)
    text, out = done.stdout, Path(folder) / OUT
    if done.stderr:
        raise programs.ProgramError(f"{programs.complaint(done)}: {LOST}")
    if text == LONG or REFUSED_LINE.fullmatch(text):
        return text
    if text:
        raise programs.ProgramError(f"the rewriting program's text of {len(text)} bytes is none of its own: {LOST}")
    if disk.read(out) != line:
        raise programs.ProgramError(f"{out} has not the bytes of {LINE}: {LOST}")
    return text
