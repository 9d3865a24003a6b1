"""What a picture shows: partitions as columns, owners and their objects in them, placed on a grid."""
from dataclasses import dataclass, field

from . import wording as w
from .book import NONE
from .visit import raw_words

MOST_UNFOLDED = 40
COLUMN, PAD = 360, 14
TITLE, HEADER, LINE, EXTRA, GAP = 34, 26, 24, 18, 12
MARGIN = 30


@dataclass
class Spot:
    """An object's row in the picture."""
    object: int
    contents: str
    may_hold: list
    x: float = 0
    y: float = 0
    column: int = 0
    line: int = 0
    arrows: int = 0

    @property
    def height(self):
        return max(LINE + (EXTRA if self.may_hold else 0), 8 * self.arrows + 4)

    @property
    def middle(self):
        """The height of the name, for a number beside it."""
        return self.y + LINE / 2

    @property
    def centre(self):
        """The height of the row's middle, for arrows."""
        return self.y + self.height / 2


@dataclass
class Group:
    """An owner with its objects: a driver, a device, or nobody for external objects. A folded one shows no objects.

    On a device that is locked hangs a padlock.
    """
    owner_class: int
    owner: int
    spots: list
    locked: bool = False
    folded: bool = False
    x: float = 0
    y: float = 0

    @property
    def height(self):
        return HEADER - 2 if self.folded else HEADER + sum(spot.height for spot in self.spots) + 6


@dataclass
class Box:
    """A partition, or what is in none (number 0). Its groups stand in one or more columns, the strips."""
    number: int
    groups: list
    green: bool = False
    strips: list = None
    line: int = 0
    column: int = 0
    x: float = 0
    y: float = 0
    width: float = COLUMN

    def room(self, strips):
        """How tall the box is with its groups in these strips."""
        tallest = max(sum(group.height + GAP for group in strip) for strip in strips)
        return TITLE + tallest + (0 if self.groups else HEADER)

    @property
    def height(self):
        return self.room(self.strips)


@dataclass
class Scene:
    """All boxes, the objects' spots by number, and the room that the grid takes."""
    boxes: list
    spots: dict = field(default_factory=dict)
    columns: int = 0
    lines: int = 0
    gutters: dict = field(default_factory=dict)
    row_tops: dict = field(default_factory=dict)
    width: float = 0
    height: float = 0


def build(config, state, chain, marks=()):
    """The boxes of a state; a descriptor that the chain fills shows what it may come to hold.

    With marks, owners of a large line that have nothing marked are folded.
    """
    may_hold = {}
    for link in chain:
        if link.kind == "puts":
            may_hold.setdefault(link.to, []).append(config.value(link.stored))

    def spot(number):
        held = state.contents[number]
        words = config.value(held) if config.is_descriptor(number) else raw_words(held)
        return Spot(number, words, may_hold.get(number, []))

    def groups(partition):
        for owner_class, where in ((w.DRIVER, state.drivers), (w.DEVICE, state.devices)):
            for owner, at in where.items():
                if at == partition:
                    yield Group(owner_class, owner, [spot(n) for n in config.owned(owner_class, owner)],
                                owner_class == w.DEVICE and owner in state.locked)
        loose = [n for n in config.owned(w.EXTERNAL, 0) if state.objects[n] == partition]
        if loose:
            yield Group(w.EXTERNAL, 0, [spot(n) for n in loose])

    boxes = [Box(p, list(groups(p)), state.is_green(p)) for p in sorted(state.existing())]
    idle = Box(NONE, list(groups(NONE)))
    scene = Scene(boxes + ([idle] if idle.groups or not boxes else []))
    if marks and len(config.objects) > MOST_UNFOLDED:
        shown = {number for sort, number in marks if sort == "object"} | {link.to for link in chain}
        for group in (group for one in scene.boxes for group in one.groups):
            group.folded = not shown.intersection(spot.object for spot in group.spots)
    scene.spots = {spot.object: spot for one in scene.boxes for group in one.groups for spot in group.spots}
    return scene


def arrange(scene, top, gutters, bands):
    """Gives every box, group and spot its place; gutters are widths beside columns, bands heights above rows."""
    x = MARGIN + gutters[0]
    lefts = []
    for column in range(scene.columns):
        lefts.append(x)
        scene.gutters[column + 1] = x + COLUMN
        x += COLUMN + gutters[column + 1]
    scene.gutters[0], scene.width = MARGIN, x + MARGIN
    y = top
    for line in range(scene.lines):
        scene.row_tops[line] = y
        y += bands[line]
        row = [one for one in scene.boxes if one.line == line]
        for one in row:
            arrange_box(one, lefts[one.column:one.column + len(one.strips)], y)
        y += max(one.height for one in row) + GAP
    scene.height = y


def arrange_box(one, lefts, top):
    one.x, one.y, one.width = lefts[0], top, lefts[-1] + COLUMN - lefts[0]
    for x, strip in zip(lefts, one.strips):
        y = top + TITLE
        for group in strip:
            group.x, group.y = x + PAD, y
            inner = y + HEADER
            for spot in group.spots:
                spot.x, spot.y = x + PAD, inner
                inner += spot.height
            y += group.height + GAP
