"""The page's text: the moves with their answers in words, the causes, and the timeline, as HTML."""
from html import escape

from . import wording as w
from .book import NONE
from .page_data import stop_key, stops
from .reach import chain_sentences
from .report import chain_when, plural, sentence, ways_out
from .timeline import LOCKED, NOWHERE, bare_name, not_back, tracks
from .visit import move_words

MOST_MARKS = 10
HEADS = {w.DEVICE: "Cards", w.DRIVER: "Drivers", w.EXTERNAL: "External objects"}


def element(name, text, **attributes):
    """An element around HTML that is ready."""
    shown = "".join(f' {key.rstrip("_").replace("_", "-")}="{escape(str(value))}"' for key, value in attributes.items())
    return f"<{name}{shown}>{text}</{name}>"


def link_to(step):
    return element("a", escape(step.move.spot), href="#" + stop_key(step))


def moves_html(plan, origins):
    """The list of stops, one element each."""
    return "\n".join(start_html(plan) if step is None else move_html(plan, step, origins) for step in stops(plan))


def start_html(plan):
    words = "The sorter before the visit" if plan.first else "Before the first move: nothing is in use"
    head = element("span", escape(words), class_="words")
    return element("li", pick(head), class_="stop start", id="start")


def pick(inner):
    return element("button", inner, type="button", class_="pick", tabindex="-1")


def move_html(plan, step, origins):
    """A move: row, words, answer; for a refusal its question, what it failed on, where it comes from, the chain."""
    origin = origins.get(step.place)
    sort = "accepted" if step.accepted else "refused consequence" if origin.causes else "refused cause"
    verdict = "accepted" if step.accepted else f"refused by {step.answer}"
    if not step.accepted:
        verdict += ": a cause" if not origin.causes else ": fails on the same as " if origin.same else ": comes of "
        verdict += " and ".join(cause.move.spot for cause in origin.causes)
    mark = element("span", "\u2713" if step.accepted else "\u21b3" if origin.causes else "\u2715", class_="mark",
                   aria_hidden="true")
    row = element("span", escape(sentence(step.move.spot)[:-1]), class_="row", title=f"move {step.place}")
    words = element("span", escape(move_words(plan.config, step.move)), class_="words")
    body = element("span", words + " " + element("span", escape(verdict), class_="verdict"), class_="body")
    inner = pick(" ".join([mark, row, body]))
    return element("li", inner + ("" if step.accepted else why_html(plan, step)), class_=f"stop {sort}",
                   id=stop_key(step))


def why_html(plan, step):
    findings = plan.findings(step)
    parts = [element("p", escape(step.question(plan.config)), class_="question")]
    parts += [element("p", f"<b>No:</b> {escape(sentence(finding.text))}") for finding in findings]
    if not findings:
        parts.append("<p><b>No</b>; the tables do not show on what.</p>")
    for finding in findings:
        if finding.chain:
            parts += chain_html(plan, step, finding.chain)
        parts += [element("p", escape(text), class_="way") for text in finding.ways]
    return element("div", "".join(parts), class_="why")


def chain_html(plan, step, links):
    """The chain in sentences, each a button that lights its link."""
    items = [element("li", element("button", escape(text), type="button", class_="link", tabindex="-1"))
             for text in chain_sentences(plan.config, step.before, step.move, links)]
    after = escape(" ".join(ways_out(plan.config, step, links)))
    head = element("p", f"The chain, {chain_when(step)}:", class_="chain-head")
    return [element("div", head + element("ol", "".join(items)) + element("p", after), class_="chain")]


def summary_html(plan, origins):
    """How many moves are refused, and with which rows to begin."""
    steps = plan.visit
    refused = [step for step in plan.steps if not step.accepted]
    of_visit = sum(not step.accepted for step in steps)
    text = f"{plural(len(steps), 'move')}: {len(steps) - of_visit} accepted, {of_visit} refused."
    if plan.failed_bringup:
        text += f" Of the bring-up {len(plan.failed_bringup)} refused."
    causes = [step for step in refused if not origins[step.place].causes]
    shown = []
    for cause in causes:
        come = sum(cause in origins[step.place].causes for step in refused)
        shown.append(link_to(cause) + (f" ({come} more come{'s' if come == 1 else ''} of it)" if come else ""))
    begin = f" Begin with {', '.join(shown)}." if shown else ""
    return text + begin


def timeline_html(plan):
    """A table for the cards, and one for drivers and external objects, which can be opened."""
    found, steps = tracks(plan), plan.visit
    left = [element("li", escape(sentence(text))) for text in not_back(plan)]
    head = element("ul", "".join(left), class_="away") if left else "<p>Everything is back where it was.</p>"
    cards = track_table(plan, [one for one in found if one.sort == w.DEVICE], w.DEVICE, len(steps))
    others = "".join(track_table(plan, [one for one in found if one.sort == sort], sort, len(steps))
                     for sort in (w.DRIVER, w.EXTERNAL))
    more = element("details", "<summary>Drivers and external objects</summary>" + others)
    return head + cards + (more if others else "")


def track_table(plan, found, sort, count):
    rows = "".join(track_row(plan, one, count) for one in found)
    return element("table", element("caption", HEADS[sort]) + axis_row(plan, count) + rows) if found else ""


def axis_row(plan, count):
    """Some of the rows' numbers, each over its place; for the eye alone, since every bar says its rows."""
    apart = -(-count // MOST_MARKS) or 1
    marks = [element("span", step.move.row, style=f"left:{100 * (place + 0.5) / (count + 1):.3f}%")
             for place, step in enumerate(plan.visit, 1) if place % apart == 0]
    return element("tr", element("th", "row") + element("td", "".join(marks)), class_="axis", aria_hidden="true")


def track_row(plan, track, count):
    """A thing's stays as bars on a line as long as the visit; the first stretch is that before the first move."""
    first, bars = plan.first, []
    for stay in track.stretches:
        begin = stay.came.place - first if stay.came else 0
        end = stay.left.place - first if stay.left else count + 1
        bars.append(bar_html(plan, track, stay, 100 * begin / (count + 1), 100 * (end - begin) / (count + 1)))
    name = escape(bare_name(plan.config, track))
    serial = plan.config.serial(track.sort, track.number)
    beside = " " + element("span", serial, class_="serial") if serial else ""
    note = "" if track.back else element("span", " not back", class_="late")
    lane = "".join(bars) if bars else element("span", NOWHERE, class_="never")
    head = element("th", name + beside + note, scope="row")
    return element("tr", head + element("td", element("div", lane, class_="lane")))


def bar_html(plan, track, stay, left, width):
    config, green = plan.config, stay.partition in plan.last_state().green
    came = f"from {stay.came.move.spot}" if stay.came else "from the beginning"
    gone = f"to {stay.left.move.spot}" if stay.left else "to the end"
    where = f"in {config.partition(stay.partition)}" + (" (green zone)" if green else "")
    if stay.partition == NONE:
        shown, look, where = element("span", LOCKED, class_="padlock"), "bar locked", LOCKED
    else:
        look = "bar green" if green else f"bar tint{stay.partition % 6}"
        shown = escape(config.partition(stay.partition))
    words = f"{bare_name(config, track)} {where}, {came} {gone}"
    goal = stop_key(stay.came)
    return element("a", shown, class_=look, href="#" + goal, title=words, aria_label=words,
                   style=f"left:{left:.3f}%;width:{width:.3f}%")
