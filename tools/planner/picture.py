"""A picture of a plan as SVG: partitions as boxes with their drivers, cards and objects; a refusal's chain in red."""
from dataclasses import dataclass

from . import wording as w
from .reach import chain_sentences, searched_state
from .routes import draw_routes, pack_bands, pack_lanes, plan_routes
from .scene import COLUMN, EXTRA, HEADER, LINE, MARGIN, PAD, TITLE, arrange, build
from .shelves import AROUND, print_style, prints, shelve
from .svg import box, document, label, lines_of, padlock, rounded, tag, text_width
from .visit import move_words

RED, GREEN, INK, GREY = "#c8102e", "#1b7f3b", "#1f2933", "#64707d"
KIND_MARKS = {w.TRANSFER: ("T", "#d97706"), w.FUNCTION: ("F", "#7c3aed"), w.DATA: ("D", "#0f766e"),
              w.HARDCODED: ("H", "#475569")}
# The paper of a partition and its frame: a plain one, a green zone, and what is in none.
ZONE_COLOURS = {"plain": ("#f8fafc", "#94a3b8"), "green": ("#dff3e3", "#2e9e4f"), "none": ("#ffffff", "#94a3b8")}
GREEN_ZONE = "green zone"
# The padlock of a card that is locked, its word, and what the legend says of it.
LOCK_COLOUR, LOCKED, LOCK_LEGEND, LOCK_WIDTH = "#8a4b00", "locked", "locked: nothing brings the card in", 19
# A card's serial is written smaller than its name.
SERIAL_SIZE = 10
GROUP_COLOURS = {w.DRIVER: ("#d8ecd9", "#2f6b36"), w.DEVICE: ("#d6e4f7", "#1d4e89"), w.EXTERNAL: ("#ece7dc", "#6b5d3c")}
# How an arrow is drawn by what its entry does, and what the legend says of it.
LOOKS = {w.READ: {}, w.WRITE: dict(stroke_dasharray="6 4"), w.BOTH: dict(stroke_dasharray="14 4 3 4")}
LEGEND = {w.READ: "reads", w.WRITE: "could write", w.BOTH: "could do both"}
LEAST_WIDTH, LINK_ROOM = 860, 25


@dataclass(frozen=True)
class Picture:
    """A picture's file, and whether it can be read on one A3 page."""
    text: str
    prints: bool


def picture_name(step):
    """The file's name: after the visit, at a row, or at a row of the bring-up."""
    if step is None:
        return "picture.svg"
    return f"picture-{'bringup' if step.move.bringup else 'row'}-{step.move.row}.svg"


def draw_plan(plan, step=None):
    """The picture's file alone."""
    return draw(plan, step).text


def draw(plan, step=None):
    """The picture after the whole visit, or at a step: as refused, or as it stands after an accepted move."""
    findings = plan.explained(step) if step else []
    chain = next((finding.chain for finding in findings if finding.chain), ())
    state = shown_state(plan, step)
    marks = marked(plan, step, findings, chain)
    colour = GREEN if step and step.accepted else RED
    scene = build(plan.config, state, chain, marks)
    shelve(scene, AROUND + LINK_ROOM * len(chain))
    routes = plan_routes(scene, chain)
    bands = pack_bands(routes, scene.lines)
    gutters = pack_lanes(scene, routes, bands)
    width = max(2 * MARGIN + scene.columns * COLUMN + sum(gutters), LEAST_WIDTH)
    body, top = heading(plan, step, findings, chain, width)
    arrange(scene, top, gutters, bands)
    draw_routes(scene, routes)
    for one in scene.boxes:
        body += draw_box(plan.config, one, marks, colour)
    body += draw_chain(scene, chain, routes)
    notes, bottom = footer(plan, step, chain, scene.height + 14, width, bool(state.locked))
    height = bottom + MARGIN / 2
    return Picture(document(width, height, body + notes, print_style(width, height)), prints(width, height))


def shown_state(plan, step):
    if step is None:
        return plan.last_state()
    if step.accepted:
        return step.after
    return searched_state(plan.config, step.before, step.move) if step.answer in w.AFTERWARDS else step.before


def marked(plan, step, findings, chain):
    """The things to outline: what an accepted move touched, or what a refused one failed on."""
    if step is None:
        return set()
    if step.accepted:
        actor = {(step.move.actor, step.move.who)} if step.move.actor != w.NOBODY else set()
        place = {("partition", step.move.where)} if step.move.where else set()
        return actor | place | {("object", n) for n in step.move.named()}
    return {thing for finding in findings for thing in finding.things} | {("object", link.descriptor) for link in chain}


def heading(plan, step, findings, chain, width):
    """What the picture is about; for a refusal without a chain also what it failed on."""
    if step is None:
        title, texts = "After the visit", [f"{len(plan.visit)} moves, "
                                           f"{sum(one.accepted for one in plan.visit)} of them accepted"]
        colour = INK
    else:
        verdict = "accepted" if step.accepted else f"refused by question {step.answer}"
        title = f"{step.move.spot.capitalize()} (move {step.place}): {verdict}"
        texts = [move_words(plan.config, step.move)]
        colour = GREEN if step.accepted else RED
        if not step.accepted:
            texts.append(f"{step.question(plan.config)} No: {'; '.join(f.text for f in findings)}.")
    y = MARGIN + 14
    body = [label(MARGIN, y, title, 20, font_weight="bold", fill=colour)]
    for place, text in enumerate(texts):
        for line in lines_of(text, width - 2 * MARGIN, 13):
            y += 20
            body.append(label(MARGIN, y, line, 13, fill=INK if place == 0 else GREY))
    return body, y + 18


def draw_box(config, one, marks, colour):
    """A partition with its groups."""
    hot = ("partition", one.number) in marks
    paper, edge = ZONE_COLOURS["green" if one.green else "plain" if one.number else "none"]
    frame = dict(stroke=colour if hot else edge, stroke_width=2.5 if hot else 1.4)
    if one.number == 0:
        frame["stroke_dasharray"] = "6 4"
    title = config.partition(one.number) if one.number else "In no partition (inactive)"
    words = [GREEN_ZONE] * one.green + [f"partition {one.number}"] * (one.number in config.partitions)
    room = one.width - 130 - text_width(GREEN_ZONE, 11) * one.green
    body = [box(one.x, one.y, one.width, one.height, rx=10, fill=paper, **frame),
            label(one.x + PAD, one.y + 22, title, 15, room, font_weight="bold", fill=INK),
            label(one.x + one.width - PAD, one.y + 22, ", ".join(words), 11, text_anchor="end",
                  fill=GREEN if one.green else GREY)]
    if not one.groups:
        body.append(label(one.x + PAD, one.y + TITLE + 12, "empty", 12, fill=GREY, font_style="italic"))
    for group in one.groups:
        body += draw_group(config, group, marks, colour)
    return body


def draw_group(config, group, marks, colour):
    """A driver, a card or the external objects, with a row for each object."""
    light, dark = GROUP_COLOURS[group.owner_class]
    hot = (group.owner_class, group.owner) in marks
    x, width = group.x, COLUMN - 2 * PAD
    title = "external objects" if group.owner_class == w.EXTERNAL else config.actor(group.owner_class, group.owner)
    serial = config.serial(group.owner_class, group.owner)
    body = [box(x, group.y, width, group.height, rx=6, fill="#ffffff", stroke=colour if hot else dark,
                stroke_width=2.2 if hot else 1),
            box(x + 1, group.y + 1, width - 2, HEADER - 4, rx=5, fill=light),
            label(x + 9, group.y + 17, title, 12.5, title_room(group, serial, width), font_weight="bold", fill=dark)]
    right = x + width - 10
    if group.folded:
        count = f"{len(group.spots)} object{'' if len(group.spots) == 1 else 's'}"
        body.append(label(right, group.y + 16.5, count, 11, text_anchor="end", fill=dark))
        right -= text_width(count, 11) + 8
    if group.locked:
        body += draw_lock(right, group.y + 16.5)
        right -= text_width(LOCKED, 11) + LOCK_WIDTH + 8
    if serial:
        body.append(label(right, group.y + 16.5, serial, SERIAL_SIZE, text_anchor="end", fill=dark))
    for spot in () if group.folded else group.spots:
        body += draw_spot(config, spot, width, ("object", spot.object) in marks, colour)
    return body


def title_room(group, serial, width):
    """How wide the name of a driver or card may be: there is room for one thing beside it, and there may be a count, a
    padlock and a serial."""
    room = width - 100 - (text_width(LOCKED, 11) + LOCK_WIDTH if group.locked and group.folded else 0)
    return room - (text_width(serial, SERIAL_SIZE) + 8 if serial and (group.locked or group.folded) else 0)


def draw_lock(right, y):
    """A padlock with its word, which ends at `right`."""
    left = right - text_width(LOCKED, 11)
    return padlock(left - LOCK_WIDTH, y - 12, LOCK_COLOUR) + [
        label(right, y, LOCKED, 11, text_anchor="end", font_weight="bold", fill=LOCK_COLOUR)]


def draw_spot(config, spot, width, hot, colour):
    """An object: its kind's mark, its name, what it holds, and what it may come to hold."""
    kind = config.objects[spot.object].kind
    letter, tint = KIND_MARKS[kind]
    body = []
    if hot:
        body.append(box(spot.x + 3, spot.y + 1, width - 6, spot.height - 2, rx=4, fill="#fdecee" if colour == RED else
                        "#e6f5ea", stroke=colour, stroke_width=1.2))
    name = config.object(spot.object)
    used = min(text_width(name, 12) + 8, width * 0.55)
    right = spot.x + width - 10
    body += [box(spot.x + 9, spot.y + 4, 16, 16, rx=3, fill=tint),
             label(spot.x + 17, spot.y + 16, letter, 11, text_anchor="middle", font_weight="bold", fill="#ffffff"),
             label(spot.x + 32, spot.y + 16.5, name, 12, width * 0.55, fill=INK),
             label(right, spot.y + 16.5, spot.contents, 11, width - used - 48, text_anchor="end", fill=GREY)]
    if spot.may_hold:
        body.append(label(right, spot.y + LINE + EXTRA - 7, f"could become: {', '.join(spot.may_hold)}", 11, width - 46,
                          text_anchor="end", fill=RED, font_weight="bold"))
    return body


def badge(x, y, number):
    return [tag("circle", cx=round(x, 1), cy=round(y, 1), r=9.5, fill=RED, stroke="#ffffff", stroke_width=1.5),
            label(x, y + 4, str(number), 11, text_anchor="middle", font_weight="bold", fill="#ffffff")]


def mode_of(link):
    """Whether a link reads or writes: its entry's mode where it ends the chain, else what it needs of the entry."""
    return link.mode or (w.WRITE if link.kind == "puts" else w.READ)


def draw_chain(scene, chain, routes):
    """The arrows with their numbers; a link at a hard-wired descriptor has its number at that row."""
    body = []
    for route in routes:
        last = route.link.kind in ("outside", "names")
        look = dict(stroke=RED, stroke_width=3 if last else 1.8, fill="none", marker_end="url(#head)",
                    **LOOKS[mode_of(route.link)])
        body += [tag("path", d=rounded(route.halo()), stroke="#ffffff", stroke_width=6, fill="none"),
                 tag("path", d=rounded(route.points), **look)]
    for route in routes:
        body += badge(*route.badge, route.number)
    for number, link in enumerate(chain, 1):
        if link.kind == "wired":
            spot = scene.spots[link.descriptor]
            body += badge(spot.x - 4, spot.middle, number)
    return body


def footer(plan, step, chain, y, width, locked):
    """The chain in sentences, and what the marks mean."""
    body = []
    if chain:
        y += 10
        body.append(label(MARGIN, y + 4, "The chain", 14, font_weight="bold", fill=RED))
        y += 10
        for number, text in enumerate(chain_sentences(plan.config, step.before, step.move, chain), 1):
            y += 20
            body += badge(MARGIN + 10, y - 4, number)
            for place, line in enumerate(lines_of(text, width - 2 * MARGIN - 30, 12.5)):
                y += 17 if place else 0
                body.append(label(MARGIN + 28, y, line, 12.5, fill=INK))
        y += 14
    marks, y = legend(chain, y + 16, width, locked)
    return body + marks, y + 8


def legend(chain, y, width, locked):
    """What the marks mean, in a row; the padlock begins another one where it has no room."""
    body, x = [], MARGIN
    for kind, (letter, tint) in KIND_MARKS.items():
        body += [box(x, y - 11, 14, 14, rx=3, fill=tint),
                 label(x + 7, y, letter, 10, text_anchor="middle", font_weight="bold", fill="#ffffff"),
                 label(x + 19, y, w.KINDS[kind], 11, fill=GREY)]
        x += 34 + text_width(w.KINDS[kind], 11)
    if chain:
        for mode in sorted({w.READ, w.WRITE} | {mode_of(link) for link in chain}):
            body += [tag("path", d=f"M{x:.1f},{y - 4}h30", stroke=RED, stroke_width=1.8, fill="none",
                         marker_end="url(#head)", **LOOKS[mode]), label(x + 36, y, LEGEND[mode], 11, fill=GREY)]
            x += 56 + text_width(LEGEND[mode], 11)
    if locked:
        if x + LOCK_WIDTH + text_width(LOCK_LEGEND, 11) > width - MARGIN:
            x, y = MARGIN, y + 20
        body += padlock(x, y - 12, LOCK_COLOUR) + [label(x + LOCK_WIDTH, y, LOCK_LEGEND, 11, fill=GREY)]
    return body, y
