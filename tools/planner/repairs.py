"""What `repair` says: the changes that help, what each costs, and its rows as they go into visit.csv."""
import csv
import io
import sys

from . import wording as w
from .report import plural, wrap
from .visit import move_cells, move_words

BAR = 30
MOVE_COLUMNS = ("operation", "who", "where", "what")
PADLOCKS = "No change is tried that takes a padlock off, or has one hang for a shorter time: that is for who hung it."


class Bar:
    """A progress bar on a terminal, and nothing elsewhere."""

    def __init__(self, label, stream=None):
        self.label, self.stream = label, stream or sys.stderr
        self.shown = self.stream is not None and self.stream.isatty()

    def __call__(self, done, most):
        if self.shown:
            filled = BAR * done // max(most, 1)
            self.stream.write(f"\r{self.label} [{'#' * filled}{' ' * (BAR - filled)}] {done} of at most {most}")
            self.stream.flush()

    def close(self):
        if self.shown:
            self.stream.write("\r\x1b[K")
            self.stream.flush()


def cells_of(plan, one):
    """The cells of a row of the changed table: a row as it stands, or a new move in the table's columns."""
    table = plan.table
    if isinstance(one, int):
        return table.lines[one - 1]
    made = dict(zip(MOVE_COLUMNS, map(str, move_cells(plan.config, one))))
    return [made.get(column, "") for column in table.heading]


def changed_lines(plan, change):
    """All rows of visit.csv with a change made, the heading too."""
    return [plan.table.lines[0]] + [cells_of(plan, one) for one in change.order]


def as_text(plan, one):
    """A row as it stands in the file."""
    out = io.StringIO(newline="")
    csv.writer(out, delimiter=plan.table.form.separator, lineterminator="").writerow(cells_of(plan, one))
    return out.getvalue()


def blocks(change, order):
    """What is new or moved, in blocks: the row above it (1 is the heading), and the block's rows."""
    stay = staying(change, order)
    found, above = [], 1
    for one in change.order:
        if one in stay:
            above, fresh = one, True
        else:
            if not found or fresh:
                found.append((above, []))
            found[-1][1].append(one)
            fresh = False
    return found


def staying(change, order):
    """The rows that keep their order; a change moves one row at most."""
    rows = [one for one in change.order if isinstance(one, int)]
    for moved in (None, change.row):
        kept = [one for one in rows if one != moved]
        if kept == [one for one in order if one in kept]:
            return set(kept)
    return set(rows)


def cost_words(change):
    parts = [plural(change.added, "move") + " added"] if change.added else []
    parts += [plural(change.moved, "row") + " moved"] if change.moved else []
    parts += [plural(change.dropped, "row") + " left out"] if change.dropped else []
    return ", ".join(parts)


def repair_lines(plan, number, repair):
    """A numbered repair with its cost and its rows."""
    change = repair.change
    rows = ", ".join(map(str, repair.others))
    too = f" Accepted with it: row{'' if len(repair.others) == 1 else 's'} {rows}." if repair.others else ""
    head = "; then ".join(change.texts)
    lines = wrap(f"{head[0].upper()}{head[1:]} ({cost_words(change)}).{too}", f"{number:>3}. ", "     ")
    for above, block in blocks(change, range(2, plan.table.last + 1)):
        lines.append(f"     Below row {above} comes:")
        lines += [as_text(plan, one) for one in block]
    return lines


def row_lines(plan, step, found, number, tried):
    """A refused row and its repairs, numbered on from those before."""
    first = f"Row {step.move.row} (move {step.place}), refused {step.answer}: "
    lines = wrap(move_words(plan.config, step.move), first, "    ")
    for place, repair in enumerate(found, number + 1):
        lines += repair_lines(plan, place, repair)
    if not found:
        lines.append(f"     None of the {plural(tried, 'change')} tried has it accepted without harm to other rows.")
    if step.answer == w.LOCKED:
        lines.append(f"     {PADLOCKS}")
    return lines + [""]


def last_lines(plan, number, command, row):
    """What to do with what was found."""
    if not refused_steps(plan, row):
        return ["Every move of the visit is accepted; there is nothing to repair."]
    where = "" if row is None else f" {row}"
    return [f"To put one into visit.csv: {command}{where} --write N"] if number else ["Nothing was found."]


def refused_steps(plan, row=None):
    return [step for step in plan.visit if step.answer != w.ACCEPTED and row in (None, step.move.row)]
