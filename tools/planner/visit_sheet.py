"""The visit sheet: a page to print for the technicians, one step a line with a box to tick."""
from html import escape
from pathlib import Path

from . import wording as w
from .fingerprint import digests
from .meanwhile import cards_out, locked_cards, meanwhile_words, shut_zones, span_words, where_of
from .report import plural, sentence
from .visit import move_words

STYLE = Path(__file__).with_name("visit_sheet.css")
COLUMNS = (("box", "Done"), ("number", "Step"), ("do", "What to do"), ("who", "Who"), ("where", "Where"),
           ("meanwhile", "What keeps sorting meanwhile"))
NOTE = "note"


def visit_sheet(plan, name):
    """The whole page; `name` is what the plan is called."""
    refused = [step for step in plan.steps if not step.accepted]
    accepted = sum(step.accepted for step in plan.visit)
    verdict = f"{plural(len(plan.visit), 'step')}, {accepted} accepted, {len(plan.visit) - accepted} refused"
    parts = [f'<h1>Visit sheet: {escape(name)}</h1>', f"<p>{verdict}.</p>"]
    if refused:
        parts.insert(0, '<div class="bar" role="alert">REFUSED: NOT FOR USE ON SITE</div>')
    parts += ['<div class="signs"><span>Date</span><span>Technician</span><span>Released by</span></div>']
    parts += [f"<p class=\"no\">Of the bring-up, {escape(step.move.spot)} is refused by question {step.answer}: "
              f"{escape(move_words(plan.config, step.move))}.</p>" for step in plan.failed_bringup]
    parts += [steps_table(plan, f"{name}: {verdict}"), zones(plan), *serials(plan.config), fingerprint_words(plan)]
    return "\n".join(page_head(f"Visit sheet: {name}", refused) + parts + ["</body>", "</html>", ""])


def page_head(title, refused):
    return ["<!DOCTYPE html>", '<html lang="en">', "<head>", '<meta charset="utf-8">',
            '<meta name="viewport" content="width=device-width, initial-scale=1">', f"<title>{escape(title)}</title>",
            f"<style>\n{STYLE.read_text(encoding='utf-8')}</style>", "</head>",
            f'<body{" class=stopped" if refused else ""}>']


def steps_table(plan, running):
    """The steps; the heading, with a line that tells which sheet it is, stands on every page."""
    short = ", ".join(f"{name} {digest[:12]}" for name, digest in digests(plan.line, plan.session).items())
    head = "".join(f'<th scope="col" class="{css}">{text}</th>' for css, text in COLUMNS)
    notes = {row.number: row.cells.get(NOTE, "") for row in plan.table.rows}
    rows = [step_row(plan, number, step, notes[step.move.row]) for number, step in enumerate(plan.visit, 1)]
    return "\n".join(['<table class="steps">', "<thead>", f'<tr><td class="running" colspan="{len(COLUMNS)}">'
                      f"{escape(running)}; {short}</td></tr>", f"<tr>{head}</tr>", "</thead>", "<tbody>", *rows,
                      "</tbody>", "</table>"])


def step_row(plan, number, step, note):
    config, move = plan.config, step.move
    who = config.actor(move.actor, move.who).partition(" ")[2] if move.actor != w.NOBODY else ""
    do = escape(sentence(move_words(config, move)))
    if not step.accepted:
        why = " ".join(sentence(finding.text) for finding in plan.findings(step))
        do += f'<br><span class="no">REFUSED by question {step.answer}.</span> {escape(why)}'
    if note.strip():
        do += f'<br><span class="note">Note: {escape(note.strip())}</span>'
    box = '<span class="tick" role="img" aria-label="to tick"></span>' if step.accepted else "&#10007;"
    cells = (box, f'<b>{number}</b><br><span class="row">row {move.row}</span>', do, escape(who),
             escape(where_of(config, step)), escape(meanwhile_words(config, step)))
    tags = "".join(f'<td class="{css}">{cell}</td>' for (css, _), cell in zip(COLUMNS, cells))
    return f"<tr{'' if step.accepted else ' class=refused'}>{tags}</tr>"


def zones(plan):
    """Which zones are shut, which cards are out, and on which a padlock hangs, from which step to which."""
    parts = []
    for title, what, found in (
            ("Zones that are shut", "A zone is shut while no card is in it: nothing moves there.", shut_zones(plan)),
            ("Cards that are out", "A card is out while it is not where it was before the visit, or else where "
             "it was first brought.", cards_out(plan)),
            ("Cards that are locked", "While a padlock hangs on a card, nothing brings it in. Whoever hung it takes it "
             "off.", locked_cards(plan))):
        rows = [f"<tr><td>{escape(span.what)}</td><td>{span_words(span)}</td></tr>" for span in found]
        table = ["<table><tbody>", *rows, "</tbody></table>"] if rows else ["<p>None.</p>"]
        parts += [f"<h2>{title}</h2>", f"<p>{what}</p>", *table]
    return "\n".join(parts)


def serials(config):
    """The serial that each card must bear; nothing where none is known."""
    if config.edition == w.PLAIN_EDITION:
        return []
    rows = [f"<tr><td>{escape(device.name)}</td><td>{device.serial or 'not known'}</td></tr>"
            for device in config.devices.values()]
    return ["<h2>Serials of the cards</h2>", "<p>A card that bears another serial than here was swapped: tell who made "
            "the plan.</p>", "<table><tbody>", *rows, "</tbody></table>"]


def fingerprint_words(plan):
    lines = "<br>".join(f"{name} {digest}" for name, digest in digests(plan.line, plan.session).items())
    return (f'<h2>Fingerprint</h2>\n<p>This sheet was made from these files and no others (SHA-256):</p>\n'
            f'<p class="fingerprint">{lines}</p>')
