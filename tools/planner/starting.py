"""The command `start`: a stored state area into bringup.csv, judged, and its state compared byte for byte."""
from dataclasses import dataclass, replace

from . import disk, pack
from . import wording as w
from .area import AreaError, area_bytes, differences, is_older, length_for, locks_at, read_area, room, unwrap
from .book_plan import place_of, put_table
from .judged import Plan, judge_moves
from .report import plural, refused_whole, sentence, step_lines, wrap
from .start import FIRST_ROW, bring_up
from .table import TableError
from .tables import COLUMNS, NOTE, open_tables, read_line
from .visit import BRINGUP, move_cells


@dataclass(frozen=True)
class Started:
    """Where the bring-up is, how it was judged, why it leaves something out, and in what it misses the area.

    An older area is one of before there were locks.
    """
    place: str
    plan: Plan
    lost: list
    different: list
    same: bool
    older: bool = False


def start(program, folder, path, again=False):
    """Makes bringup.csv of a folder from a stored area; one that is there stays unless it is to be replaced."""
    line = read_line(folder)
    tables = open_tables(folder, ["objects.csv", BRINGUP])
    form = tables["objects.csv"].form
    place, config, data = place_of(folder, BRINGUP), line.config, disk.read(path)
    if tables[BRINGUP].lines and not again:
        raise TableError(place, None, None, "is already there; nothing was changed (--replace does it)")
    alone = judge_moves(program, config, [])
    if alone.verdict.refused_line:
        return Started(place, alone, [], [], False)
    try:
        area = unwrap(data, config, pack.line_bytes(config))
        goal = read_area(config, area)
    except AreaError as fault:
        raise AreaError("\n".join(f"{path}: {text}" for text in str(fault).splitlines())) from None
    made = bring_up(config, goal)
    moves, notes = made.moves, made.notes
    plan = judge_moves(program, config, moves)
    if plan.failed_bringup:
        moves, notes = taken_apart(plan.steps, notes)
        plan = judge_moves(program, config, moves)
    last = plan.last_state()
    if not plan.verdict.too_long:
        rows = [move_cells(config, move) + (note,) for move, note in zip(moves, notes)]
        lines = [[str(cell) for cell in row] for row in [COLUMNS[BRINGUP] + (NOTE,)] + rows]
        put_table(folder, BRINGUP, lines, form)
    same = plan.verdict.accepted and area_bytes(config, last) == area
    return Started(place, plan, made.lost, differences(config, goal, last), same, is_older(config, data))


def taken_apart(steps, notes):
    """The moves with each refused write as one of every item, so that no item is lost for another's sake."""
    moves, kept = [], []
    for step, note in zip(steps, notes):
        split = not step.accepted and step.move.code in w.WRITES
        for what in [(item,) for item in step.move.what] if split else [step.move.what]:
            moves.append(replace(step.move, row=len(moves) + FIRST_ROW, what=what))
            kept.append(note)
    return moves, kept


def start_lines(started, path, command):
    """What was made, and how near it comes to what was stored."""
    plan = started.plan
    if plan.verdict.too_long or plan.verdict.refused_line:
        return refused_whole(plan)
    refused = plan.failed_bringup
    lines = [f"Made: {started.place}, {plural(len(plan.steps), 'move')}: {len(plan.steps) - len(refused)} accepted, "
             f"{len(refused)} refused."]
    records = room(plan.config)
    if started.older:
        lines.append(f"{path} was stored before there were locks: its area has {locks_at(records):,} bytes, and no "
                     "card in it is locked.")
    if started.same:
        behind = ", with the zeros that this version has behind it" if started.older else ""
        return lines + [f"The state after it is that of {path}, byte for byte ({length_for(records):,} bytes{behind})."]
    for step in refused:
        lines += [""] + step_lines(plan, step, f"row {step.move.row} (move {step.place})", command)
    lines += ["", f"The state after it is not that of {path}. It should be:"]
    for text in started.different:
        lines += wrap(sentence(text), "  ", "      ")
    return lines + [f"Why: {text}." for text in dict.fromkeys(started.lost)]
