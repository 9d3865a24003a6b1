"""The plain book: what is where and holds what after the moves that the program accepted. It judges nothing."""
from dataclasses import dataclass, field, fields

from . import wording as w

NONE = 0


@dataclass
class State:
    """Where all things are and what they hold; partitions by the spots that created and destroyed them.

    `green` has those of the created ones that were created as green zones. `locked` has the cards on which a padlock
    hangs, by the spots that hung it, and `unlocked` those from which it was taken off since, likewise.
    """
    created: dict = field(default_factory=dict)
    destroyed: dict = field(default_factory=dict)
    drivers: dict = field(default_factory=dict)
    devices: dict = field(default_factory=dict)
    objects: dict = field(default_factory=dict)
    contents: dict = field(default_factory=dict)
    moved: dict = field(default_factory=dict)
    green: dict = field(default_factory=dict)
    locked: dict = field(default_factory=dict)
    unlocked: dict = field(default_factory=dict)

    def copy(self):
        return State(*(dict(getattr(self, column.name)) for column in fields(self)))

    def exists(self, partition):
        return partition in self.created and partition not in self.destroyed

    def is_green(self, partition):
        """Whether it is a green zone that exists; one that was destroyed is none any more."""
        return partition in self.green and self.exists(partition)

    def existing(self):
        return [p for p in self.created if self.exists(p)]

    def actor(self, owner_class, number):
        """The partition of a driver or device."""
        return (self.drivers if owner_class == w.DRIVER else self.devices).get(number, NONE)


def cleared(config, number):
    return 0 if config.is_descriptor(number) else bytes(w.CONTENT_BYTES)


def fresh(config):
    """Nothing is in use; hardcoded descriptors hold their values, all else is cleared."""
    state = State(drivers=dict.fromkeys(config.drivers, NONE), devices=dict.fromkeys(config.devices, NONE),
                  objects=dict.fromkeys(config.objects, NONE))
    for number, one in config.objects.items():
        hard = one.kind == w.HARDCODED and one.owner in config.devices
        state.contents[number] = config.devices[one.owner].hardcoded if hard else cleared(config, number)
    return state


def concerned(config, move):
    """The objects that an activation or deactivation moves."""
    return list(move.what) if move.actor == w.NOBODY else config.owned(move.actor, move.who)


def follow(config, state, move):
    """The state after an accepted move."""
    after = state.copy()
    if move.code in w.CREATES:
        create(after, move)
    elif move.code in w.DESTROYS:
        after.destroyed[move.where] = move.spot
    elif move.code in w.WRITES:
        for item in move.what:
            after.contents[item.object] = item.value if item.form == w.VALUE_FORM else item.raw
    elif move.code in w.READS:
        for pair in move.what:
            if pair.destination:
                after.contents[pair.destination] = state.contents[pair.source]
    elif move.code in w.LOCKS | w.UNLOCKS:
        turn_key(after, move)
    else:
        relocate(config, after, move)
    return after


def create(after, move):
    """A partition is there, as a green zone or as a plain one."""
    after.created[move.where] = move.spot
    after.green.pop(move.where, None)
    if move.code in w.GREENS:
        after.green[move.where] = move.spot


def turn_key(after, move):
    """A padlock is hung on a card, or taken off it; nothing else changes."""
    hung, off = (after.locked, after.unlocked) if move.code in w.LOCKS else (after.unlocked, after.locked)
    hung[move.who] = move.spot
    off.pop(move.who, None)


def relocate(config, after, move):
    """Activation sets the partition and clears all objects concerned but the hardcoded; deactivation sets none."""
    entering = move.code in w.ACTIVATES
    target = move.where if entering else NONE
    if move.actor != w.NOBODY:
        (after.drivers if move.actor == w.DRIVER else after.devices)[move.who] = target
        after.moved[(move.actor, move.who)] = move.spot
    for number in concerned(config, move):
        after.objects[number] = target
        after.moved[(w.EXTERNAL, number)] = move.spot
        if entering and config.objects[number].kind != w.HARDCODED:
            after.contents[number] = cleared(config, number)
