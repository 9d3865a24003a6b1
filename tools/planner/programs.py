"""The proved programs, office and rewrite: finding one, and running it in a folder to its end."""
import os
import subprocess
from pathlib import Path

from .disk import plain

ROOT = Path(__file__).resolve().parents[2]
SECONDS = 60


class ProgramError(Exception):
    """A program is not to be had or failed, or what it gives is not whole: nothing of it is taken."""


def runnable(given):
    """The whole path of a program that can be run."""
    path = Path(given).resolve()
    if not (path.is_file() and os.access(path, os.X_OK)):
        raise ProgramError(f"{given} is not a program that can be run")
    return path


def built(name, otherwise=""):
    """The program that the repository's `./judge --program NAME` names, which may be a path from the root.

    What judge says meanwhile is passed on, and it is given all the time it takes: the first build proves everything.
    Where there is no judge, `otherwise` says what helps.
    """
    judge = ROOT / "judge"
    if not judge.exists():
        raise ProgramError(f"no {name} program{otherwise}")
    try:
        done = subprocess.run([str(judge), "--program", name], cwd=ROOT, stdout=subprocess.PIPE, text=True)
    except OSError as fault:
        raise ProgramError(plain(fault, "run", judge)) from None
    if done.returncode != 0 or not done.stdout.strip():
        raise ProgramError(f"'./judge --program {name}' did not give the program")
    return ROOT / done.stdout.strip().splitlines()[-1]


def run(program, folder, lost):
    """A program run in a folder, with what it printed and complained of.

    Any end but status 0 is a failure, whatever was printed before; `lost` says what is not to be had then.
    """
    try:
        done = subprocess.run([str(program)], cwd=folder, capture_output=True, timeout=SECONDS)
    except OSError as fault:
        raise ProgramError(plain(fault, "run", program)) from None
    except subprocess.TimeoutExpired:
        raise ProgramError(f"{program} did not end within {SECONDS} seconds: {lost}") from None
    if done.returncode < 0:
        raise ProgramError(f"{program} was ended by signal {-done.returncode}: {lost}")
    if done.returncode > 0:
        raise ProgramError(f"{program} ended with status {done.returncode}: {lost} {complaint(done)}".rstrip())
    return done


def complaint(done):
    """What a program complained of."""
    return done.stderr.decode(errors="replace").strip()
