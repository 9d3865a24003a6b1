"""What the commands print: the judged plan, the explanation of a row, the answers as a table."""
import re
import textwrap

from . import wording as w
from .fingerprint import fingerprint
from .line_faults import line_findings
from .reach import chain_sentences, missing
from .visit import BRINGUP, move_words

WIDTH = 110
MOVE_COLUMNS = ("operation", "who", "where", "what")
ANSWER_COLUMNS = ("row", "move") + MOVE_COLUMNS + ("answer", "verdict", "question", "failed on", "fingerprint")
KEPT = "\0"


def wrap(text, first, rest):
    """The text in lines. Blanks side by side are a text's own: no line ends there, and none of them is lost."""
    kept = re.sub(" {2,}", lambda run: KEPT * len(run[0]), text)
    lines = textwrap.wrap(kept, WIDTH, initial_indent=first, subsequent_indent=rest, break_on_hyphens=False)
    return [line.replace(KEPT, " ") for line in lines]


def sentence(text):
    return text[0].upper() + text[1:] + ("" if text.endswith(".") else ".")


def plural(count, word):
    return f"{count} {word}{'' if count == 1 else 's'}"


def line_summary(plan):
    config = plan.config
    counts = [plural(len(config.drivers), "driver"), plural(len(config.devices), "card"),
              plural(len(config.objects), "object"), plural(len(config.values), "value")]
    edition = "" if config.edition == w.PLAIN_EDITION else f", in edition {config.edition}"
    lines = [f"Line: {', '.join(counts)}; line.bin has {plural(len(plan.line), 'byte')}{edition}."]
    lines += serial_lines(config)
    if plan.bringup and plan.bringup.rows:
        lines.append(f"Bring-up: {plural(len(plan.bringup.rows), 'move')}{bringup_verdict(plan)}.")
    size = plural(len(plan.session), 'byte')
    return lines + [f"Visit: {plural(len(plan.table.rows), 'move')}; session.bin has {size}."]


def serial_lines(config):
    """Which card has which serial, if any is known; and a note for a serial that stands with several cards."""
    cards = {}
    for device in config.devices.values():
        cards.setdefault(device.serial, []).append(device.name)
    without = cards.pop(0, [])
    if not cards:
        return []
    known = "; ".join(f"{device.name} = {device.serial}" for device in config.devices.values() if device.serial)
    lines = wrap(f"{known}{'; none for ' + ', '.join(without) if without else ''}.", "Serials: ", " " * 9)
    for serial, names in cards.items():
        if len(names) > 1:
            lines += wrap(f"Serial {serial} stands with {len(names)} cards: {', '.join(names)}.", "", "    ")
    return lines


def bringup_verdict(plan):
    """How the bring-up went, behind the count of its moves; nothing if no move was judged."""
    if not plan.failed_bringup:
        return ", all accepted" if plan.first else ""
    rows = [step.move.row for step in plan.failed_bringup]
    return f", {len(rows)} refused (row{'' if len(rows) == 1 else 's'} {', '.join(map(str, rows))} of {BRINGUP})"


def refused_whole(plan):
    """What to print if the program judged no move: the line was refused, or a file is too long."""
    if plan.verdict.too_long:
        lines = ["The files are too long (the program printed 'long'); no move was judged."]
        for name, data in (("line.bin", plan.line), ("session.bin", plan.session)):
            most = w.LIMITS[f"bytes of {name}"]
            if len(data) > most:
                lines.append(f"  {name} has {len(data):,} bytes; at most {most:,} are read.")
        return lines
    number = plan.verdict.refused_line
    lines = [f"The line is refused by question {number} (the program printed 'line {number}'); no move was judged.",
             f"  {w.question(number)}"]
    for text in line_findings(plan.config, number):
        lines += wrap(sentence(text), "  No: ", "      ")
    return lines


def check_lines(plan, command):
    """Each move with its answer; a refused one with its question and what it failed on."""
    if plan.verdict.too_long or plan.verdict.refused_line:
        return line_summary(plan) + [""] + refused_whole(plan)
    lines = line_summary(plan) + [""]
    digits = [len(str(number)) for number in (plan.table.last, len(plan.steps))]
    for step in plan.failed_bringup:
        lines += step_lines(plan, step, f"{BRINGUP}, row {step.move.row} (move {step.place})", command)
    lines += [""] if plan.failed_bringup else []
    for step in plan.visit:
        lines += step_lines(plan, step, f"row {step.move.row:>{digits[0]}} (move {step.place:>{digits[1]}})", command)
    refused = [step for step in plan.visit if not step.accepted]
    total = f"{plural(len(plan.visit), 'move')}: {len(plan.visit) - len(refused)} accepted, {len(refused)} refused"
    rows = ", ".join(str(step.move.row) for step in refused)
    return lines + ["", f"{total} (row{'' if len(refused) == 1 else 's'} {rows})." if refused else f"{total}."]


def step_lines(plan, step, place, command):
    """A move with its answer, behind the words for its place."""
    verdict = "accepted" if step.accepted else f"refused {step.answer}"
    first = f"{place}  {verdict:<11} "
    lines = wrap(move_words(plan.config, step.move), first, " " * len(first))
    return lines if step.accepted else lines + refusal_lines(plan, step, command, len(first))


def refusal_lines(plan, step, command, margin):
    """The question and what it failed on; `command` explains a row when its number is put behind."""
    left = " " * margin
    lines = wrap(step.question(plan.config), left, left)
    findings = plan.findings(step)
    for finding in findings:
        lines += wrap(sentence(finding.text), left + "No: ", left + "    ")
        if finding.chain:
            lines.append(left + f"    See: {command} {'bringup:' if step.move.bringup else ''}{step.move.row}")
    return lines if findings else lines + [left + "No; the tables do not show on what."]


def explain_lines(plan, step):
    """The explanation of one row: for 19 to 21 the chain link by link."""
    head = wrap(move_words(plan.config, step.move), f"{sentence(step.move.spot)[:-1]} (move {step.place}): ", "    ")
    if step.accepted:
        return head + ["Accepted: every question is answered yes."]
    lines = head + wrap(step.question(plan.config), f"Refused by question {step.answer}: ", "    ")
    for finding in plan.explained(step):
        lines += wrap(sentence(finding.text), "No: ", "    ")
        if finding.chain:
            lines += [""] + chain_lines(plan, step, finding.chain)
        for text in finding.ways:
            lines += wrap(text, "", "")
    return lines


def chain_when(step):
    """On which state a question about chains is put."""
    return f"in the state {'that would follow' if step.answer in w.AFTERWARDS else 'before'} this move"


def chain_lines(plan, step, links):
    lines = [f"The chain, {chain_when(step)}:"]
    for number, text in enumerate(chain_sentences(plan.config, step.before, step.move, links), 1):
        lines += wrap(text, f"{number:>4}. ", " " * 6)
    for text in ways_out(plan.config, step, links):
        lines += wrap(text, "", "")
    return lines + ["Each link was checked against the tables and the moves accepted so far."]


def ways_out(config, step, links):
    """What would have the chain broken, or inside, in sentences."""
    rests = rests_on(config, step, links)
    told = [f"It rests on what {rests} now: change that first, and this chain is broken."] if rests else []
    owner, home = missing(config, step.before, step.move, links)
    if owner:
        name = config.holder_words(links[-1].to)
        told.append(f"Bring {name} into {config.partition(home)} first, and this chain stays inside.")
    return told


def rests_on(config, step, links):
    """The transfer descriptors whose present values the chain needs, beside those that the move itself fills."""
    put = {(link.to, link.stored) for link in links if link.kind == "puts"}
    held = [link.to for link in links if link.kind == "reads" and (link.to, link.stored) not in put
            and link.to not in step.move.stored_to() and config.objects[link.to].kind == w.TRANSFER]
    names = [config.object(n) for n in dict.fromkeys(held)]
    return " and ".join(names) + (" hold" if len(names) > 1 else " holds") if names else ""


def answer_rows(plan):
    """A row for each row of visit.csv below its heading, blank ones too, so that it can be pasted beside the plan.

    Refused rows of the bring-up stand below them. The first row has the fingerprint of the judged files.
    """
    written = {row.number: row for row in plan.table.rows}
    rows = {step.move.row: answer_row(plan, step, written[step.move.row]) for step in plan.visit}
    blank = ("",) * (len(ANSWER_COLUMNS) - 1)
    made = [rows.get(number, (number,) + blank) for number in range(2, plan.table.last + 1)]
    before = {row.number: row for row in plan.bringup.rows} if plan.failed_bringup else {}
    made += [(f"{BRINGUP} {step.move.row}",) + answer_row(plan, step, before[step.move.row])[1:]
             for step in plan.failed_bringup]
    made = made or [("",) + blank]
    return [made[0][:-1] + (fingerprint(plan.line, plan.session),)] + made[1:]


def answer_row(plan, step, row):
    """A move as it stands in visit.csv, and its answer."""
    move = (row.number, step.place) + tuple(row.cells.get(column, "") for column in MOVE_COLUMNS) + (step.answer,)
    if step.accepted:
        return move + ("accepted", "", "", "")
    failed = "; ".join(finding.text for finding in plan.findings(step))
    return move + ("refused", step.question(plan.config), failed, "")
