"""What the benchmark's tables share: building programs, and counting the instructions of one call by callgrind.

A program makes the same call TIMES times. One call is what many calls take more than one, divided: start and end of the
program fall out, and the figure holds for a call that finds its code and its heap as the call before left them.
"""
import pathlib
import re
import subprocess
import sys

TOP = pathlib.Path(__file__).resolve().parent.parent

TIMES = 100
# Some calls of the reference take many millions of instructions; they are all the same, so that fewer are enough.
REFERENCE_TIMES = 5


def run(*words, **more):
    done = subprocess.run([str(w) for w in words], capture_output=True, text=True, cwd=TOP, **more)
    if done.returncode:
        sys.exit(f"{words[0]}: {done.stdout}{done.stderr}")
    return done


def instructions(folder, *words):
    done = run("valgrind", "--tool=callgrind", f"--callgrind-out-file={folder}/out", *words)
    return int(re.search(r"Collected : (\d+)", done.stderr).group(1)), done.stdout.strip()


def one_call(folder, program, *words, times=TIMES):
    """Instructions of one call: what `times` + 1 calls take more than one, divided by `times`."""
    first, last = words[:-1], words[-1]
    many, answer = instructions(folder, program, *first, times + 1, last)
    return (many - instructions(folder, program, *first, 1, last)[0]) // times, answer


def expect(label, stated, *answers):
    """Ends the run if an answer is not the one that the case states: what is counted would be another call."""
    if any(answer != stated for answer in answers):
        sys.exit(f"{label}: stated {stated}, answered {' and '.join(answers)}")


def build(program, library, *sources):
    """A C program over a proved library, which is built if it is missing or older than its sources."""
    run("make", "-s", f"target/staticlib/lib{library}.a")
    run("gcc", "-O2", "-Wall", "-Wextra", "-Werror", "-o", program, *sources, f"target/staticlib/lib{library}.a")
    return program


def write_files(folder, *contents):
    """The files of a call (line, area, record), by the names that the programs take."""
    paths = [pathlib.Path(folder) / name for name in ("line.bin", "area.bin", "record.bin")]
    for path, data in zip(paths, contents, strict=True):
        path.write_bytes(data)
    return paths


def write_case(folder, line, record=b""):
    """The files of a call on a line and the state that it stands in."""
    return write_files(folder, line.file(), line.area(), record)
