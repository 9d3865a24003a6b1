"""A bring-up: moves by which a fresh state becomes a given one. It judges nothing; the program judges the moves.

First what is in no partition and still holds something: it is brought in with all that its contents lead to, written,
and taken out, and with it cards with a ring that came for its sake. Then what is in partitions: brought in with
everything cleared, cards with a ring after what that names, and written by a driver that is there, or, where none is,
by one that comes for it and leaves. In between, descriptors are cleared or hold what they are to hold, so that no chain
comes about that the given state has not.

What is in no partition is brought into a green zone only where no other was ever used. Then all of it was written in
green zones: it is brought in at once with what its contents name, and whoever names another one leaves before it.

Padlocks are hung last: until then their cards may have to come in for what they kept.
"""
from . import wording as w
from .book import NONE, follow, fresh
from .closure import Closure, leaving_chain, outside_chain
from .visit import Item, Move

CREATE, CREATE_GREEN, DESTROY, LOCK = (min(codes) for codes in (w.CREATES - w.GREENS, w.GREENS, w.DESTROYS,
                                                                w.LOCKS))
FIRST_ROW = 2
PASSING = "in passing"
NO_DRIVER = "the line has no driver, so that nothing can be written"


def code_for(verb, owner_class):
    return next(code.number for code in w.CODES.values() if (code.verb, code.actor) == (verb, owner_class))


class BringUp:
    """The moves so far, the state that they make if all are accepted, and why not all can be brought about."""

    def __init__(self, config, goal):
        self.config, self.goal = config, goal
        self.now, self.moves, self.notes, self.lost = fresh(config), [], [], []
        self.holders = [(w.DEVICE, n) for n in config.devices] + \
            [(w.EXTERNAL, n) for n in config.owned(w.EXTERNAL, 0)] + [(w.DRIVER, n) for n in config.drivers]

    def add(self, code, who=0, where=0, what=(), note=""):
        move = Move(len(self.moves) + FIRST_ROW, code, who, where, tuple(what), True)
        self.moves.append(move)
        self.notes.append(note)
        self.now = follow(self.config, self.now, move)

    def place(self, state, holder):
        """The partition of a driver, a card or an external object."""
        return state.objects[holder[1]] if holder[0] == w.EXTERNAL else state.actor(*holder)

    def objects(self, holder):
        return [holder[1]] if holder[0] == w.EXTERNAL else self.config.owned(*holder)

    def filled(self, holder):
        """What is to be written: objects that do not hold yet what they are to hold."""
        return [n for n in self.objects(holder) if self.goal.contents[n] != self.now.contents[n]]

    def keeps(self, holder):
        """Whether it is to hold something in no partition."""
        cleared = fresh(self.config).contents
        return self.place(self.goal, holder) == NONE and any(self.goal.contents[n] != cleared[n]
                                                             for n in self.objects(holder))

    def enter(self, holder, where, note=""):
        what = [holder[1]] if holder[0] == w.EXTERNAL else ()
        self.add(code_for("activate", holder[0]), 0 if what else holder[1], where, what, note)

    def leave(self, holder):
        what = [holder[1]] if holder[0] == w.EXTERNAL else ()
        where = self.place(self.now, holder) if what else 0
        self.add(code_for("deactivate", holder[0]), 0 if what else holder[1], where, what, PASSING)

    def leave_at_once(self, holders):
        """External objects leave by one move, as many as it takes; others one by one."""
        loose = [number for owner_class, number in holders if owner_class == w.EXTERNAL]
        for holder in [holder for holder in holders if holder[0] != w.EXTERNAL]:
            self.leave(holder)
        if loose:
            where = self.now.objects[loose[0]]
            self.add(code_for("deactivate", w.EXTERNAL), 0, where, loose, PASSING)

    def bring(self, holders, where, note=""):
        """Brings in those that are not yet there; what is elsewhere is taken out first. Cards with a ring come last."""
        for holder in holders:
            if self.place(self.now, holder) not in (NONE, where):
                self.leave(holder)
        absent = [holder for holder in holders if self.place(self.now, holder) == NONE]
        rings = [holder for holder in absent if self.has_ring(holder)]
        self.enter_all([one for one in absent if one[0] != w.EXTERNAL and one not in rings], where, note)
        self.enter_loose([number for owner_class, number in absent if owner_class == w.EXTERNAL], where, note)
        self.enter_all(self.in_turn(rings, where), where, note)

    def enter_all(self, holders, where, note):
        for holder in holders:
            self.enter(holder, where, note)

    def enter_loose(self, numbers, where, note):
        """Brings in external objects, many by one move."""
        most = w.LIMITS["items of a move"]
        for at in range(0, len(numbers), most):
            self.add(code_for("activate", w.EXTERNAL), 0, where, numbers[at:at + most], note)

    def has_ring(self, holder):
        """Whether it is a card whose hard-wired value writes transfer descriptors; others can come in at any time."""
        entries = self.config.entries(self.config.devices[holder[1]].hardcoded) if holder[0] == w.DEVICE else ()
        return any(entry.writes and self.config.objects[entry.object].kind == w.TRANSFER for entry in entries)

    def strays(self, cards, where):
        """Whether something is outside with these cards brought in."""
        state = self.now
        for owner_class, number in cards:
            state = follow(self.config, state, Move(0, code_for("activate", owner_class), number, where))
        return bool(outside_chain(self.config, state))

    def in_turn(self, cards, where):
        """Cards with a ring in an order in which nothing is outside when one comes in, found from its end.

        Where there is any such order, one is found, whichever cards are taken from the end: of those left, the one that
        comes last in the order that there is can be taken next, for what the others reach is there before it. Without
        one, and so wherever something is outside with all of them in, as many come in as can, one by one.
        """
        left, behind = list(cards), []
        while left:
            last = self.can_be_last(left, where)
            if last is None:
                return self.as_they_can(left, where) + behind
            left.remove(last)
            behind.insert(0, last)
        return behind

    def can_be_last(self, cards, where):
        """A card without which nothing of the others is outside; of several the last, None if there is none."""
        return next((one for one in reversed(cards)
                     if not self.strays([other for other in cards if other != one], where)), None)

    def as_they_can(self, cards, where):
        """Cards that have no such order: those that can come in, one after the other, then those to be refused."""
        order = []
        while len(order) < len(cards):
            left = [one for one in cards if one not in order]
            order.append(next((one for one in left if not self.strays([*order, one], where)), left[0]))
        return order

    def dismiss(self, cards):
        """Takes out cards, each once no other card can get at what it takes along; those that cannot leave stay."""
        left, one = list(cards), self.can_leave(cards)
        while one:
            self.leave(one)
            left.remove(one)
            one = self.can_leave(left)

    def can_leave(self, cards):
        """The first of the cards that is out of reach of all others, None if there is none."""
        return next((one for one in cards
                     if not leaving_chain(self.config, self.now, self.objects(one), one[1])), None)

    def write(self, driver, numbers, note=""):
        """Has a driver write what objects are to hold."""
        most, items = w.LIMITS["items of a move"], []
        for n in numbers:
            content = self.goal.contents[n]
            transfer = self.config.is_descriptor(n)
            items.append(Item(n, w.VALUE_FORM, content) if transfer else Item(n, w.RAW_FORM, raw=content))
        for at in range(0, len(items), most):
            self.add(code_for("write", w.DRIVER), driver, 0, items[at:at + most], note)

    def drivers_in(self, state, where):
        return [n for n, place in state.drivers.items() if place == where]


def bring_up(config, goal):
    """The bring-up to a state."""
    made = BringUp(config, goal)
    for number in sorted(goal.created):
        made.add(CREATE_GREEN if goal.is_green(number) else CREATE, where=number)
    kept = [holder for holder in made.holders if made.place(goal, holder) == NONE and made.filled(holder)]
    room = passing_room(made)
    (keep_green if goal.is_green(room) else keep_each)(made, kept, room)
    for number in sorted(goal.destroyed):
        empty_out(made, number)
        made.add(DESTROY, where=number)
    for number in goal.existing():
        fill(made, number)
    for number in sorted(goal.locked):
        made.add(LOCK, number)
    return made


def keep_each(made, kept, room):
    """What left and kept something, one after the other: drivers last, since others may need them."""
    for holder in in_order(made, [holder for holder in kept if holder[0] != w.DRIVER], room):
        keep(made, holder, room)
    fill_those_without_driver(made)
    for holder in kept:
        if holder[0] == w.DRIVER and made.filled(holder):
            keep(made, holder, room)


def keep_green(made, kept, room):
    """The same in a green zone, all at once; drivers only then last, if others need them and none is left for that."""
    drivers = [holder for holder in kept if holder[0] == w.DRIVER]
    last = drivers if len(drivers) == len(made.config.drivers) else []
    keep_together(made, [holder for holder in kept if holder not in last], room)
    fill_those_without_driver(made)
    again = [holder for holder in last if made.filled(holder)]
    while again and any(one not in again for one in named_kept(made, again, kept)):
        again += [one for one in named_kept(made, again, kept) if one not in again]
    keep_together(made, again, room_of_named(made, again, room))


def room_of_named(made, holders, room):
    """The zone that all is in by now that holders name, so that nothing has to leave it; else the room."""
    there = {made.place(made.now, made.config.holder(n)) for holder in holders for n in named_by(made, holder)} - {NONE}
    return there.pop() if len(there) == 1 else room


def named_kept(made, holders, kept):
    """Those of what is kept that holders name: it is to be brought in with them, and leaves behind them."""
    return [one for one in kept if any(names(made, holder, one) for holder in holders)]


def fill_those_without_driver(made):
    for number in made.goal.existing():
        if not made.drivers_in(made.goal, number):
            fill_without_driver(made, number)


def passing_room(made):
    """A partition for what is brought in and taken out again; one with a driver if there is any. NONE if none is.

    A green zone only where there is no other: of what was ever held and written, it takes in the least.
    """
    there = sorted(made.goal.created, key=lambda n: (made.goal.is_green(n), not made.drivers_in(made.goal, n),
                                                     n in made.goal.destroyed, n))
    return there[0] if there else NONE


def named_with(made, holder, room):
    """The holder and all that its contents lead to: what must be in its partition while it holds them."""
    config, inside, before = made.config, [holder], 0
    while len(inside) > before:
        before = len(inside)
        state = fresh(config)
        for one in inside:
            state = follow(config, state, Move(0, code_for("activate", one[0]), one[1], room,
                                               (one[1],) if one[0] == w.EXTERNAL else ()))
        state.contents.update({n: made.goal.contents[n] for n in made.objects(holder)})
        for _, _, value in Closure(config, state).reads:
            for entry in config.entries(value):
                owner = config.holder(entry.object)
                inside += [owner] if owner not in inside else []
    return inside


def in_order(made, kept, room):
    """Whoever leads to another one's objects leaves before it."""
    needs = {holder: named_with(made, holder, room) for holder in kept}
    order = []
    while needs:
        free = [one for one in needs if all(one not in named for other, named in needs.items() if other != one)]
        order.append((free or list(needs))[0])
        del needs[order[-1]]
    return order


def keep(made, holder, room):
    """Has something that is in no partition hold what it kept when it left."""
    driver = holder if holder[0] == w.DRIVER else next(((w.DRIVER, n) for n in made.config.drivers), None)
    if room == NONE or driver is None:
        made.lost.append("no partition was ever used" if room == NONE else NO_DRIVER)
        return
    there = made.drivers_in(made.now, room)
    if there and holder[0] != w.DRIVER:
        driver = (w.DRIVER, there[0])
    named = named_with(made, holder, room)
    came = [one for one in named if one != holder and made.has_ring(one) and made.place(made.now, one) != room]
    made.bring(dict.fromkeys([driver, *named]), room, PASSING)
    made.write(driver[1], made.filled(holder), "what it kept when it left")
    made.leave(holder)
    made.dismiss(came)


def named_by(made, holder):
    """All objects that a holder's contents are to name."""
    values = [made.goal.contents[n] for n in made.objects(holder) if made.config.is_descriptor(n)]
    return [entry.object for value in values for entry in made.config.entries(value)]


def names(made, holder, other):
    return holder != other and any(made.config.holder(n) == other for n in named_by(made, holder))


def keep_together(made, kept, room):
    """Has what is in no partition hold in a green zone what it kept, and leave: whoever names another one before it."""
    if not kept:
        return
    drivers = [holder for holder in kept if holder[0] == w.DRIVER] or [(w.DRIVER, n) for n in made.config.drivers]
    if not drivers:
        made.lost.append(NO_DRIVER)
        return
    there = [(w.DRIVER, n) for n in made.drivers_in(made.now, room)] or drivers
    named = [made.config.holder(n) for holder in kept for n in named_by(made, holder)]
    made.bring(dict.fromkeys([there[0], *kept, *named]), room, PASSING)
    made.write(there[0][1], [n for holder in kept for n in made.filled(holder)], "what it kept when it left")
    left = list(kept)
    while left:
        gone = first_to_leave(made, left)
        made.leave_at_once(gone)
        left = [holder for holder in left if holder not in gone]


def first_to_leave(made, left):
    """The next to leave: the fewest that none of the others names; several only if they name one another."""
    groups = []
    for one in left:
        group, before = [one], 0
        while len(group) > before:
            before = len(group)
            group += [other for other in left if other not in group and any(names(made, other, in_it)
                                                                            for in_it in group)]
        groups.append(group)
    return min(groups, key=len)


def inhabitants(made, number):
    """Who is to be in a partition, drivers first."""
    ranks = {w.DRIVER: 0, w.DEVICE: 1, w.EXTERNAL: 2}
    inside = [holder for holder in made.holders if made.place(made.goal, holder) == number]
    return sorted(inside, key=lambda holder: (ranks[holder[0]], holder[1]))


def empty_out(made, number):
    """Takes out what was in a partition only in passing."""
    for holder in made.holders:
        if made.place(made.now, holder) == number and made.place(made.goal, holder) != number:
            made.leave(holder)


def contents_of(made, number):
    """What the inhabitants of a partition do not hold yet, descriptors last: what they lead to is there by then."""
    there = [n for holder in inhabitants(made, number) for n in made.filled(holder)]
    return sorted(there, key=made.config.is_descriptor)


def fill(made, number):
    """Brings in all inhabitants, and has one of the drivers write what they hold."""
    empty_out(made, number)
    made.bring(inhabitants(made, number), number)
    there = made.drivers_in(made.now, number)
    if there:
        made.write(there[0], contents_of(made, number))


def fill_without_driver(made, number):
    """Has a driver come for what the inhabitants hold, and leave again."""
    empty_out(made, number)
    made.bring(inhabitants(made, number), number)
    wanted = contents_of(made, number)
    if not wanted:
        return
    waiting = sorted(made.config.drivers, key=lambda n: (made.goal.drivers[n] == NONE, made.keeps((w.DRIVER, n))))
    if not waiting:
        made.lost.append(NO_DRIVER)
        return
    made.bring([(w.DRIVER, waiting[0])], number, PASSING)
    made.write(waiting[0], wanted)
    made.leave((w.DRIVER, waiting[0]))
