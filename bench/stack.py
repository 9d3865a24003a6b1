"""The stack that a call takes, by painting: bench/stack.c on full-size and wide lines, with a record of every code.

    python3 bench/stack.py      prints the most for each function; fails at an answer that is not the expected one,
                                below what a call cannot do without, and above the bound of docs/CONTROLLER.md

Then it measures libraries with a fault (tests/faulty.c), each of which must make it fail.
"""
import os
import pathlib
import sys
import tempfile

sys.path.insert(0, str(pathlib.Path(__file__).resolve().parent.parent / "tests"))
import beside  # noqa: E402
import full  # noqa: E402
import lines  # noqa: E402
import vectors  # noqa: E402
from measure import build, run, write_case  # noqa: E402

# 24 KiB: what docs/CONTROLLER.md counts on, before it adds room for the host's own frames and signals; and what a
# rewriting of a line file is held to.
MOST = 24576
MOST_REWRITE = 16384
# Every call fills tables of the line on its stack. A measurement of less has not seen the call.
LEAST = 512

# All names are bound before the first call: the loader would do that on the stack that is measured.
SOURCES = ("gate", "-pthread", "-Wl,-z,now", "-Iinclude", "bench/stack.c")
WRAP = "-Wl," + ",".join(f"--wrap=gate_{name}" for name in ("load_check", "fresh", "operate", "rewrite", "state_bytes",
                                                            "first_bad"))

# Each call with the most that it may take; the operation's answer is the record's.
CALLS = {"load check": MOST, "fresh state": MOST, "operation": MOST, "rewriting": MOST_REWRITE, "state length": MOST,
         "first bad record": MOST}
OPERATION = list(CALLS).index("operation")
CODES = range(1, 16)
SIZES = (lines.FULL, lines.WIDE)

# A library with a fault.
FAULTY = ("tests/line.c", *(f"tests/faulty{part}.c" for part in ("", "_kinds", "_locks", "_serials")))
# Faults by their names in tests/faulty.c, and how what is said of them begins.
FAULTS = {
    "constant 0": "operation: answer 0, not 10",
    "constant 10": "load check: answer 10, not 0",
    "always 0": "rewriting: answer 0, not",
    "told 0": "state length: answer 0, not",
    "named 0": "first bad record: answer 0, not",
    "elsewhere": "load check: less than",
    "deep": "operation: more than",
    "deep-rewrite": "rewriting: more than",
}


def described_write(line):
    """A write of device 1 that is described by what its hardcoded value reads; one that is not, if there is none."""
    for read, _, _ in line.values.get(line.hardcoded[1], []):
        for number, mode, stored in line.values[line.held[read]]:
            if mode != lines.READ:
                return [2, 1, 1, number, 0, stored]
    return [2, 1, 1, line.own(1)[0], 0, 20]


def described_read(line):
    """An own descriptor that the hardcoded value of device 1 reads; any, if there is none."""
    read = {number for number, _, _ in line.values.get(line.hardcoded[1], [])}
    return next((number for number in line.own(1) if number in read), line.own(1)[0])


def records(line):
    """Records of every code on a line whose last object is external data, and their answers in the three states."""
    last, own = len(line.objects), line.own(1)[0]
    raw = bytes(range(16))
    yield b"", (10, 10, 10)
    eight = (line.own(1)[:5] + line.own(2))[:8]
    yield vectors.row([1, 1, 8]) + b"".join(vectors.row([n, 0, 20]) for n in eight), (0, 16, 0)
    yield vectors.row([1, 1, 1, last, 1]) + raw, (0, 16, 13)
    for answers, *numbers in (
            ((13, 13, 19), 1, 1, 1, last, 0, 2),
            ((18, 16, 18), 2, 1, 1, own, 0, 20),
            ((0, 16, 18), *described_write(line)),
            ((0, 16, 0), 3, 1, 8, *[last, 0] * 8),
            ((0, 16, 0), 3, 1, 1, own, line.own(1)[1]),
            ((0, 16, 18), 4, 1, 8, *[described_read(line), 0] * 8),
            ((0, 0, 0), 5, 3),
            ((0, 0, 0), 13, 3),
            ((0, 0, 15), 6, 2),
            ((15, 0, 15), 6, 1),
            ((16, 0, 16), 7, 1, 1),
            ((16, 0, 16), 8, 1, 1),
            ((16, 0, 13), 9, 1, 1, last),
            ((0, 16, 0), 10, 1),
            ((20, 16, 0), 11, 1),
            ((0, 16, 13), 12, 1, 1, last),
            ((16, 0, 16), 14, 1),
            ((16, 23, 16), 15, 1)):
        yield vectors.row(numbers), answers


def states(size):
    """Everything active; nothing active, so that activation is carried out; one where 19 refuses a write."""
    yield lines.leaving(**size)
    inactive = lines.leaving(**size)
    inactive.inactive = True
    yield inactive
    yield lines.chain_out(40, **size)


def cases(size):
    """A line in a state, a record, and its answer; then a locked card, which is to come in, to be locked again and to
    be unlocked; then a line with serials; then a card with a ring comes in, which 21 searches, and at last come green
    zones, in which 22 is put and 20 asks more."""
    for place, line in enumerate(states(size)):
        for record, answers in records(line):
            yield line, record, answers[place]
    locked = full.without_device(locked=True, **size)
    for answer, *numbers in ((23, 8, locked.devices, 1), (23, 14, locked.devices), (0, 15, locked.devices)):
        yield locked, vectors.row(numbers), answer
    yield lines.leaving(**size).serialized(), vectors.row([5, 3]), 0
    yield full.rings(**size), vectors.row([8, 1, 1]), 0
    ring = full.ring_links(40, **size)
    yield ring, vectors.row([8, ring.owner, 1]), 21
    for _, _, line, record, answer in beside.green_cases(size):
        yield line, record, int(answer)


def rows(program, folder, fault):
    """For each case: the record's code, and for each call its bytes, its answer and the one expected."""
    environment = {**os.environ, "GATE_FAULT": fault}
    for line, record, answer in (found for size in SIZES for found in cases(size)):
        told = run(program, *write_case(folder, line, record), env=environment).stdout.split()
        depths, found = [[int(n) for n in told[i::2]] for i in (0, 1)]
        # Both sizes have as many objects as their areas have records, and bench/stack.c breaks the last one.
        stated = (0, 0, answer, len(line.file()), len(line.area()), len(line.objects))
        yield record[:1], list(zip(CALLS, depths, found, stated, strict=True))


def faults(row):
    """What is wrong in a row: answers first, since a wrong one says what the bytes are worth."""
    for call, _, found, expected in row:
        if found != expected:
            yield f"{call}: answer {found}, not {expected}"
    for call, depth, _, _ in row:
        if depth < LEAST:
            yield f"{call}: less than {LEAST} bytes of stack, {depth}"
        if depth > CALLS[call]:
            yield f"{call}: more than the {CALLS[call]} bytes of stack that docs/CONTROLLER.md counts on, {depth}"


def table(folder):
    program = build(f"{folder}/stack", *SOURCES)
    most, answers, accepted = dict.fromkeys(CALLS, 0), set(), set()
    for code, row in rows(program, folder, "none"):
        for fault in faults(row):
            sys.exit(fault)
        for call, depth, _, _ in row:
            most[call] = max(most[call], depth)
        answer = row[OPERATION][2]
        answers.add(answer)
        accepted.update(code if answer == 0 else b"")
    if accepted != set(CODES):
        sys.exit(f"only these codes are accepted: {sorted(accepted)}")
    print(f"{'stack of one call':<36}{'bytes':>8}")
    for call, depth in most.items():
        print(f"{call:<36}{depth:>8}")
    print(f"answers met: {', '.join(str(n) for n in sorted(answers))}")


def try_faults(folder):
    """Each fault makes the first row that it spoils fail, and for the reason that is expected."""
    program = build(f"{folder}/faulty", *SOURCES, *FAULTY, WRAP)
    for name, expected in FAULTS.items():
        said = next((fault for _, row in rows(program, folder, name) for fault in faults(row)), "nothing")
        if not said.startswith(expected):
            sys.exit(f"of a library with the fault '{name}' it is said: {said}")


if __name__ == "__main__":
    with tempfile.TemporaryDirectory() as place:
        table(place)
        try_faults(place)
