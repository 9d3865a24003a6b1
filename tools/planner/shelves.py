"""Where the boxes of a picture stand: on shelves of a few columns, side by side, a tall box in more than one column.

Small pictures have three columns and a box in each. One that would not print on a page gets the columns with which it
prints largest.
"""
from .scene import COLUMN, GAP, MARGIN

PER_ROW, MOST_COLUMNS = 3, 8
# Pages at 96 dots an inch, within margins of 10 mm; and how far a picture can be made smaller and still be read.
A4, A3 = (718, 1047), (1047, 1512)
LEAST_SCALE = 0.7
# What is left of an A3 page between its margins, a little less so that nothing runs over to a second page.
ON_A3 = "@media print {{@page {{size: A3 {}; margin: 10mm}} svg {{width: {}mm; height: {}mm}}}}"
SPACING, AROUND = 40, 130
# How much taller than an even share a column may become.
STRETCHES = (1.0, 1.15, 1.3, 1.6, 2.0, 3.0)


def upright(width, height, page=A3):
    """How large a picture is on a page that stands; 1 is its own size."""
    return min(page[0] / width, page[1] / height)


def print_scale(width, height, page=A3):
    """How large a picture is on a page that is laid as the picture fits best."""
    return max(upright(width, height, page), upright(height, width, page))


def prints(width, height):
    """Whether a picture can be read on one A3 page."""
    return print_scale(width, height) >= LEAST_SCALE


def print_style(width, height):
    """What has a viewer print a picture on one A3 page; nothing for one that can be read on A4."""
    if print_scale(width, height, A4) >= LEAST_SCALE:
        return ""
    if upright(width, height) >= upright(height, width):
        return ON_A3.format("portrait", 276, 398)
    return ON_A3.format("landscape", 399, 275)


def split(groups, most):
    """The groups in columns of at most a height, in order; a group that is taller has a column of its own."""
    strips, height = [[]], 0
    for group in groups:
        if strips[-1] and height + group.height + GAP > most:
            strips.append([])
            height = 0
        strips[-1].append(group)
        height += group.height + GAP
    return strips


def shelves_of(boxes, columns, most):
    """Boxes on shelves: each shelf a list of boxes with their strips; None if one is wider than a shelf."""
    shelves, used = [[]], 0
    for one in boxes:
        strips = split(one.groups, most)
        if len(strips) > columns:
            return None
        if used + len(strips) > columns and shelves[-1]:
            shelves.append([])
            used = 0
        shelves[-1].append((one, strips))
        used += len(strips)
    return shelves


def measure(shelves, around):
    """About how large a picture of these shelves is."""
    columns = max(sum(len(strips) for _, strips in shelf) for shelf in shelves)
    heights = [max(one.room(strips) for one, strips in shelf) + SPACING for shelf in shelves]
    return 2 * MARGIN + columns * (COLUMN + SPACING), sum(heights) + around


def choose(boxes, around):
    """The plain shelves if they print, else those that print largest."""
    plain = shelves_of(boxes, PER_ROW, float("inf"))
    if prints(*measure(plain, around)):
        return plain
    total = sum(one.room([one.groups]) for one in boxes)
    tried = [shelves_of(boxes, columns, total / columns * stretch)
             for columns in range(PER_ROW, MOST_COLUMNS + 1) for stretch in STRETCHES]
    return max([plain] + [shelves for shelves in tried if shelves],
               key=lambda shelves: print_scale(*measure(shelves, around)))


def shelve(scene, around=AROUND):
    """Gives each box its shelf, its first column and its strips, and each spot its shelf and column."""
    shelves = choose(scene.boxes, around)
    for line, shelf in enumerate(shelves):
        column = 0
        for one, strips in shelf:
            one.line, one.column, one.strips = line, column, strips
            for strip in strips:
                for spot in (spot for group in strip for spot in group.spots):
                    spot.column, spot.line = column, line
                column += 1
        scene.columns = max(scene.columns, column)
    scene.lines = len(shelves)
