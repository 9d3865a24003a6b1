"""Where cards, drivers and external objects are in the course of a visit, and which of them did not come back."""
from dataclasses import dataclass

from . import wording as w
from .book import NONE

COLUMNS = ("what", "name", "partition", "from row", "to row", "back")
SORTS = {w.DEVICE: "card", w.DRIVER: "driver", w.EXTERNAL: "external object"}
NOWHERE, LOCKED = "in no partition", "locked"


@dataclass(frozen=True)
class Stay:
    """A stretch in one partition: the step that brought it there, None if it was there before the visit; and the step
    that took it away, None if it is there at the end. In partition 0 it is a stretch in which a card is locked."""
    partition: int
    came: object
    left: object

    @property
    def began(self):
        """The place of the step with which it begins, 0 if it was so before the visit."""
        return self.came.place if self.came else 0


@dataclass(frozen=True)
class Track:
    """A card, driver or external object: its stays in order, where it belongs, and where it ends; when it is locked."""
    sort: int
    number: int
    stays: tuple
    home: int
    end: int
    back: bool
    locks: tuple = ()

    @property
    def stretches(self):
        """Stays and locks in order; a locked card is in no partition, so that none overlaps another."""
        return sorted(self.stays + self.locks, key=lambda stay: stay.began)


def first_state(plan):
    """Where all is when the visit begins."""
    return plan.visit[0].before if plan.visit else plan.last_state()


def tracks(plan):
    """The track of every card, then of every driver, then of every external object."""
    config, made = plan.config, []
    for sort, numbers in ((w.DEVICE, config.devices), (w.DRIVER, config.drivers),
                          (w.EXTERNAL, config.owned(w.EXTERNAL, 0))):
        made += [track(plan, sort, number) for number in numbers]
    return made


def where(state, sort, number):
    return state.objects[number] if sort == w.EXTERNAL else state.actor(sort, number)


def runs_of(plan, what):
    """The stretches in which something of the states stays the same: what it is, with which step it begins and ends."""
    at, came, found = what(first_state(plan)), None, []
    for step in plan.visit:
        now = what(step.after)
        if now != at:
            found.append((at, came, step))
            at, came = now, step
    return found + [(at, came, None)]


def track(plan, sort, number):
    """A thing belongs where it is when the visit begins, or else where it is first brought."""
    found = runs_of(plan, lambda state: where(state, sort, number))
    start, at = found[0][0], found[-1][0]
    stays = [Stay(*one) for one in found if one[0] != NONE]
    home = start or (stays[0].partition if stays else NONE)
    gone = home in plan.last_state().destroyed and at == NONE
    hung = locks(plan, number) if sort == w.DEVICE else ()
    return Track(sort, number, tuple(stays), home, at, at == home or gone, hung)


def locks(plan, card):
    """The stretches in which a padlock hangs on a card."""
    return tuple(Stay(NONE, came, left) for hung, came, left in runs_of(plan, lambda state: card in state.locked)
                 if hung)


def name_of(config, track):
    """'card Scale', 'driver Service laptop', 'Barcode table'."""
    return config.object(track.number) if track.sort == w.EXTERNAL else config.actor(track.sort, track.number)


def bare_name(config, track):
    return name_of(config, track) if track.sort == w.EXTERNAL else name_of(config, track).partition(" ")[2]


def stay_words(config, stay):
    """The partition of a stay, or that a card is locked: in brackets, since a partition may be called so."""
    return config.partition(stay.partition) if stay.partition else f"({LOCKED})"


def not_back(plan):
    """A sentence for everything that did not come back to where it was."""
    config, found = plan.config, []
    for one in (one for one in tracks(plan) if not one.back):
        end = f"in {config.partition(one.end)}" if one.end else NOWHERE
        locked = one.locks and one.locks[-1].left is None
        found.append(f"{name_of(config, one)} was in {config.partition(one.home)}, and is at the end {end}"
                     + (f", {LOCKED}" if locked else ""))
    return found


def timeline_rows(plan):
    """A row for each stay, and for each stretch in which a card is locked; what has none has one without rows.

    `back` stands at the last one of what was in a partition.
    """
    config, rows = plan.config, []
    for one in tracks(plan):
        head, found = (SORTS[one.sort], bare_name(config, one)), one.stretches
        back = ("yes" if one.back else "no") if one.stays else ""
        if not found:
            rows.append(head + ("", "", "", ""))
        for stay in found:
            rows.append(head + (stay_words(config, stay), stay.came.move.row if stay.came else "",
                                stay.left.move.row if stay.left else "", back if stay is found[-1] else ""))
    return rows
