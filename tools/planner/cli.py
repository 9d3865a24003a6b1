"""The commands of tools/plan and their exit statuses."""
import argparse
import shlex
import time

from . import disk, files, office, programs, repairs, starting, unpack, workbook
from . import wording as w
from .arguments import ALL, Parser, add_argument
from .book_plan import book_tables, put_table, store_book
from .chain import BrokenChain
from .config import Config
from .judged import judge_folder
from .line_faults import file_findings
from .page import page_html
from .picture import draw, picture_name
from .repair import Search
from .report import ANSWER_COLUMNS, answer_rows, check_lines, explain_lines, refused_whole, sentence
from .sheet import encode
from .table import TableError, TableErrors
from .tables import put_fresh, write_tables
from .terminal import complain, finish, prepare, say
from .timeline import COLUMNS as TIMELINE_COLUMNS
from .timeline import not_back, timeline_rows
from .visit import VISIT
from .visit_sheet import visit_sheet
from .watch import watch

DONE, REFUSED, USAGE, TABLES, PROGRAM, UNEXPLAINED = range(6)
STATUSES = """exit statuses:
  0  done; for 'check': every move is accepted
  1  a move or the line is refused; for 'start': not all that is stored could be brought about
  2  the command is not typed as it should be, or a file or the output cannot be read or written
  3  a table is at fault; file, row and column are named
  4  the office program is not to be had or failed, or its answers are not whole
  5  an answer 19, 20 or 21 could not be explained by a chain that holds
  130  stopped by Ctrl-C"""


class UsageError(Exception):
    """A command that does not fit the plan, such as a row that is not there."""


def main(arguments, tool="tools/plan"):
    """Carries out one command; `tool` is what the planner typed to call it."""
    prepare()
    try:
        status = carry_out(arguments, tool)
        finish()
        return status
    except (disk.FileError, OSError) as fault:
        return fail(USAGE, disk.plain(fault, "read") if isinstance(fault, OSError) else fault)


def carry_out(arguments, tool):
    try:
        options = parser().parse_args(arguments)
    except SystemExit as stop:
        return stop.code
    options.tool = tool
    return attempt(options.run, options)


def attempt(run, options):
    """The status of a command; what is at fault is told."""
    try:
        return run(options)
    except (TableError, TableErrors) as fault:
        return fail(TABLES, fault)
    except programs.ProgramError as fault:
        return fail(PROGRAM, fault)
    except BrokenChain as fault:
        return fail(UNEXPLAINED, fault)
    except (UsageError, starting.AreaError, workbook.BookError) as fault:
        return fail(USAGE, fault)


def fail(status, fault):
    complain(fault)
    return status


def parser():
    top = Parser(prog="plan", description="Plans of service visits, judged by the proved program.",
                 epilog=STATUSES, formatter_class=argparse.RawDescriptionHelpFormatter)
    top.add_argument("--office", metavar="PATH", help=f"the office program (else {office.VARIABLE}, else ./judge)")
    commands = top.add_subparsers(required=True, metavar="COMMAND")
    for name, run, arguments, text in (
            ("new", run_new, ("DIR",), "make empty tables in a folder"),
            ("start", run_start, ("DIR", "AREA", "--replace"), "make bringup.csv from a state area of a controller"),
            ("check", run_check, ("DIR",), "make line.bin and session.bin and judge every move"),
            ("explain", run_explain, ("DIR", "SPOT"), "say why a row is refused, for 19 to 21 link by link"),
            ("repair", run_repair, ("DIR", "[ROW]", "--write", "--most"),
             "find small changes after which a row is accepted"),
            ("picture", run_picture, ("DIR", "[WHICH..]"), "draw the partitions after the visit, or at rows"),
            ("page", run_page, ("DIR",), "write page.html, on which the plan can be walked through in a browser"),
            ("timeline", run_timeline, ("DIR",), "write timeline.csv: which card is where, from which row to which"),
            ("sheet", run_sheet, ("DIR",), "write a page to print for the technicians, with a box for each step"),
            ("watch", run_watch, ("DIR",), "check, and write page.html, again whenever a table is saved"),
            ("csv", run_csv, ("DIR",), "write the answers as answers.csv, to paste beside the plan"),
            ("workbook", run_workbook, ("DIR", "FILE", "--replace"),
             "write tables and answers as one .xlsx or .ods file with lists to choose from"),
            ("import", run_import, ("LINE", "[DIR]"),
             "make tables from a line.bin and a session.bin beside it, or from a workbook")):
        command = commands.add_parser(name, help=text, description=text)
        for argument in arguments:
            add_argument(command, argument)
        command.set_defaults(run=run)
    return top


def folder_of(options):
    with disk.told("read", options.dir):
        if not options.dir.is_dir():
            raise UsageError(f"{options.dir} is not a folder")
    return options.dir


def load(options):
    folder = folder_of(options)
    return judge_folder(office.find_office(options.office), folder)


def judged(plan):
    """Whether the program judged the moves; if not, what it said is printed."""
    lines = refused_whole(plan) if plan.verdict.too_long or plan.verdict.refused_line else []
    if lines:
        say(lines)
    return not lines


def step_at(plan, row, table=VISIT):
    """The step of a row of visit.csv, or of bringup.csv."""
    steps = plan.visit if table == VISIT else plan.steps[:plan.first]
    for step in steps:
        if step.move.row == row:
            return step
    rows = [step.move.row for step in steps]
    there = f"; moves are in rows {rows[0]} to {rows[-1]}" if rows else ""
    raise UsageError(f"{table} has no move in row {row}{there}")


def run_new(options):
    made = write_tables(options.dir, Config())
    say([f"Made in {options.dir}: {', '.join(made)}"])
    return DONE


def run_start(options):
    """The bring-up to what a controller stored; its state is compared byte for byte."""
    folder = folder_of(options)
    started = starting.start(office.find_office(options.office), folder, options.area, options.replace)
    say(starting.start_lines(started, options.area, f"{options.tool} explain {shlex.quote(str(folder))}"))
    return DONE if started.same else REFUSED


def run_check(options):
    """The files of an earlier check go first: whatever ends this one, they are not judged for today's tables."""
    files.clear(options.dir)
    plan = load(options)
    files.store(options.dir, plan.line, plan.session)
    say(check_lines(plan, f"{options.tool} explain {shlex.quote(str(options.dir))}"))
    return DONE if plan.verdict.accepted else REFUSED


def run_explain(options):
    plan = load(options)
    if not judged(plan):
        return REFUSED
    say(explain_lines(plan, step_at(plan, *options.spot)))
    return DONE


def run_repair(options):
    """The repairs of a row, or of each that is refused; with --write one of them goes into visit.csv."""
    program, plan = office.find_office(options.office), load(options)
    if not judged(plan):
        return REFUSED
    if options.row is not None and step_at(plan, options.row).accepted:
        raise UsageError(f"row {options.row} is accepted; there is nothing to repair")
    number = 0
    for step in repairs.refused_steps(plan, options.row):
        bar = repairs.Bar(f"row {step.move.row}")
        search = Search(program, plan, step, bar, max(options.most, 1))
        try:
            found = search.find()
        finally:
            bar.close()
        chosen = None if options.write is None else options.write - number
        if chosen is not None and 0 < chosen <= len(found):
            return write_repair(options, plan, found[chosen - 1].change)
        if chosen is None:
            say(repairs.row_lines(plan, step, found, number, search.tried))
        number += len(found)
    if options.write is not None:
        raise UsageError(f"there is no change {options.write}; {number} were found")
    say(repairs.last_lines(plan, number, f"{options.tool} repair {shlex.quote(str(options.dir))}", options.row))
    return DONE


def write_repair(options, plan, change):
    """visit.csv with a change; the table as it was stays beside it."""
    made, before = put_table(options.dir, VISIT, repairs.changed_lines(plan, change), plan.table.form, keep=True)
    say([f"Written: {options.dir / made}: {'; then '.join(change.texts)}", f"As it was: {options.dir / before}"])
    return DONE


def run_picture(options):
    """Pictures of rows; without any, and with all of them, of how the visit ends."""
    plan = load(options)
    if not judged(plan):
        return REFUSED
    steps = [step_at(plan, *spot) for spot in options.which if spot != ALL] or [None]
    if ALL in options.which:
        steps = plan.failed_bringup + plan.visit + [None]
    made = {picture_name(step): draw(plan, step) for step in steps}
    disk.put(options.dir, {name: picture.text.encode() for name, picture in made.items()})
    large = [name for name, picture in made.items() if not picture.prints]
    again = f"{options.tool} page {shlex.quote(str(options.dir))}"
    say([f"Drawn: {options.dir / name}" for name in made] +
        ([f"Too large to be read on one A3 page: {', '.join(large)}. Try: {again}"] if large else []))
    return DONE


def run_page(options):
    plan = load(options)
    if not judged(plan):
        return REFUSED
    name = "page.html"
    page = page_html(plan, f"Plan {options.dir.resolve().name}", options.run is run_watch)
    disk.put(options.dir, {name: page.encode("utf-8", "replace")})
    say([f"Written: {options.dir / name}"])
    return DONE


def run_sheet(options):
    plan = load(options)
    if not judged(plan):
        return REFUSED
    name = "visit-sheet.html"
    disk.put(options.dir, {name: visit_sheet(plan, options.dir.resolve().name).encode("utf-8", "replace")})
    say([f"Written: {options.dir / name}"])
    return DONE


def run_timeline(options):
    plan = load(options)
    if not judged(plan):
        return REFUSED
    name = "timeline.csv"
    disk.put(options.dir, {name: encode([TIMELINE_COLUMNS] + timeline_rows(plan), plan.table.form)})
    say([f"Written: {options.dir / name}"] + [f"Not back: {text}." for text in not_back(plan)])
    return DONE


def run_watch(options):
    """Each time a table is saved the plan is checked, and if it can be judged its page is made anew."""
    folder = folder_of(options)

    def act(saved):
        if saved:
            say(["", f"{time.strftime('%H:%M:%S')} saved: {', '.join(saved)}"])
        if attempt(run_check, options) not in (DONE, REFUSED) or attempt(run_page, options) != DONE:
            complain("page.html is not made anew")
        say([f"Watching the tables in {folder}; Ctrl-C ends it."])
        finish()

    watch(folder, act)


def run_csv(options):
    plan = load(options)
    if not judged(plan):
        return REFUSED
    name = "answers.csv"
    disk.put(options.dir, {name: encode([ANSWER_COLUMNS] + answer_rows(plan), plan.table.form)})
    say([f"Written: {options.dir / name}"])
    return DONE


def run_workbook(options):
    """The tables as one file, with the answers if the program judged the moves."""
    plan = load(options)
    names = store_book(options.dir, options.file, plan, options.replace)
    say([f"Written: {options.file.parent / names[0]}"] + [f"As it was: {options.file.parent / n}" for n in names[1:]])
    return DONE if judged(plan) else REFUSED


def import_book(options):
    """Tables from a workbook."""
    folder = options.dir or options.line.parent
    made = book_tables(options.line)
    put_fresh(folder, made)
    say([f"Made in {folder}: {', '.join(made)}"])
    return DONE


def run_import(options):
    """Tables from a line.bin; a session.bin beside it becomes visit.csv. Or tables from a workbook."""
    if workbook.is_book(options.line):
        return import_book(options)
    folder, beside = options.dir or options.line.parent, options.line.parent / office.SESSION
    data = disk.read(options.line)
    verdict = office.judge(office.find_office(options.office), data, b"")
    refusal = f"{options.line}: refused by question {verdict.refused_line}: {w.question(verdict.refused_line)}"
    if verdict.too_long:
        return fail(REFUSED, f"{options.line}: too long (the program printed 'long')")
    if 0 < verdict.refused_line < w.FIRST_OF_TABLES:
        found = [f"No: {sentence(text)}" for text in file_findings(data, verdict.refused_line)]
        return fail(REFUSED, " ".join([refusal, *found]))
    source = options.line
    try:
        config, moves = unpack.read_line_bytes(data), []
        if beside.exists():
            source = beside
            moves = unpack.read_session_bytes(disk.read(beside))
    except unpack.Unreadable as fault:
        return fail(USAGE, f"{source}: {fault}")
    made = write_tables(folder, config, moves)
    say([f"Made in {folder}: {', '.join(made)}"] + edition_lines(options.line, unpack.edition_of(data), config.edition))
    return fail(REFUSED, refusal) if verdict.refused_line else DONE


def edition_lines(path, edition, kept):
    """A note where tables do not keep a file's edition: one with serials is written only where there is a serial."""
    return [] if kept == edition else [f"{path} is of edition {edition}, and no card in it has a serial: what check "
                                       f"makes of these tables is of edition {kept}."]
