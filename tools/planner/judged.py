"""A folder's plan, made into files and judged by the program: each move with its answer and the states around it."""
from dataclasses import dataclass

from . import book, office, pack, reasons
from . import wording as w
from .chain import BrokenChain
from .config import Config
from .finding import Finding
from .green import leaves_green
from .tables import open_tables, read_line
from .visit import BRINGUP, VISIT, read_visit


@dataclass(frozen=True)
class Step:
    """A judged move: its place in session.bin, the answer, and the state before and after."""
    place: int
    move: object
    answer: int
    before: object
    after: object

    @property
    def accepted(self):
        return self.answer == w.ACCEPTED

    def question(self, config):
        """The question that refused the move, as it is put to this one."""
        return w.question(self.answer, self.move.code, leaves_green(config, self.before, self.move))


@dataclass(frozen=True)
class Plan:
    """A configuration, the files made of it, the program's verdict, and the steps (none if the line was refused).

    The steps are those of the bring-up and then those of the visit, of which `first` is the first's index.
    """
    config: Config
    line: bytes
    session: bytes
    verdict: office.Verdict
    steps: list
    table: object = None
    first: int = 0
    bringup: object = None

    @property
    def visit(self):
        """The steps of visit.csv alone."""
        return self.steps[self.first:]

    @property
    def failed_bringup(self):
        """The refused steps of bringup.csv: all that is told of it."""
        return [step for step in self.steps[:self.first] if not step.accepted]

    def explained(self, step):
        """On what a move failed; BrokenChain if a 19, 20 or 21 cannot be explained by a chain that holds."""
        return [] if step.accepted else reasons.find(self.config, step.before, step.move, step.answer)

    def findings(self, step):
        """The same for a whole list, in which the other answers must still be told."""
        try:
            return self.explained(step)
        except BrokenChain as fault:
            return [Finding(f"this could not be explained ({fault})")]

    def last_state(self):
        return self.steps[-1].after if self.steps else book.fresh(self.config)


def judge_folder(program, folder):
    """Reads a folder's tables and has the program judge them; nothing is written there."""
    line = read_line(folder)
    tables = open_tables(folder, [BRINGUP, VISIT])
    moves = read_visit(line, tables[BRINGUP].rows + tables[VISIT].rows)
    return judge_moves(program, line.config, moves, tables[VISIT], tables[BRINGUP])


def judge_moves(program, config, moves, table=None, bringup=None):
    """Has the program judge moves on a configuration, those of the bring-up and of the visit as one session."""
    line, session = pack.line_bytes(config), pack.session_bytes(moves)
    verdict = office.judge(program, line, session)
    judged = not (verdict.too_long or verdict.refused_line)
    steps = steps_of(config, moves, verdict.answers) if judged else []
    return Plan(config, line, session, verdict, steps, table, sum(step.move.bringup for step in steps), bringup)


def steps_of(config, moves, answers):
    """The moves with their answers; the book follows the accepted ones."""
    steps, state = [], book.fresh(config)
    for number, (move, answer) in enumerate(zip(moves, answers), 1):
        after = book.follow(config, state, move) if answer == w.ACCEPTED else state
        steps.append(Step(number, move, answer, state, after))
        state = after
    return steps
