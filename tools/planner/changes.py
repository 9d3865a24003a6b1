"""Small changes of a visit that might have a refused row accepted. Whether one does is for the program to say.

An order is the visit with a change made: row numbers of visit.csv, blank ones too, and moves that are new.
"""
from dataclasses import dataclass, replace

from . import wording as w
from .book import NONE
from .green import breaches, clinging, only_elsewhere, zone_of
from .reach import missing
from .visit import Item, Move, move_words

FURTHER = 4
MOST_ITEMS = w.LIMITS["items of a move"]


@dataclass(frozen=True)
class Change:
    """A changed order, in words; how many changes it is, and what it costs; `row` is the one that it moves."""
    sort: str
    order: tuple
    texts: tuple
    added: int = 0
    moved: int = 0
    dropped: int = 0
    distance: int = 0
    row: int = 0


def code_of(verb, owner_class):
    return next(code.number for code in w.CODES.values() if (code.verb, code.actor) == (verb, owner_class))


def displaced(order, row, before):
    """The order with a row put before another one, or at the end."""
    rest = [one for one in order if one != row]
    at = rest.index(before) if before is not None else len(rest)
    return tuple(rest[:at] + [row] + rest[at:])


def later_places(rows, order, target):
    """The target behind each row below it, nearest first."""
    at = rows.index(target)
    for distance, row in enumerate(rows[at + 1:], 1):
        place = order.index(row)
        rest = order[place + 1] if place + 1 < len(order) else None
        yield Change("later", displaced(order, target, rest), (f"row {target} later, below row {row}",), moved=1,
                     distance=distance, row=target)


def earlier_places(rows, order, target):
    """The target above each row before it, nearest first."""
    for distance, row in enumerate(reversed(rows[:rows.index(target)]), 1):
        yield Change("earlier", displaced(order, target, row), (f"row {target} earlier, above row {row}",), moved=1,
                     distance=distance, row=target)


def others_first(rows, order, target):
    """Another row, that stands below the target, right above it or further up."""
    at = rows.index(target)
    for up, place in enumerate(reversed(rows[:at + 1])):
        for distance, row in enumerate(rows[at + 1:], 1):
            yield Change("first", displaced(order, row, place), (f"row {row} first, above row {place}",), moved=1,
                         distance=distance + FURTHER * up, row=row)


def others_after(rows, order, target, refused):
    """Another row, that stands above the target, right below it or further down; below a refused one is as near."""
    at = rows.index(target)
    for down, place in enumerate(rows[at:]):
        behind = order.index(place) + 1
        rest = order[behind] if behind < len(order) else None
        near = refused.index(place) if place in refused else FURTHER * down
        for distance, row in enumerate(reversed(rows[:at]), 1):
            yield Change("after", displaced(order, row, rest), (f"row {row} later, below row {place}",), moved=1,
                         distance=distance + near, row=row)


def left_out(order, step, steps):
    """The row left out, if another one that is accepted does the very same.

    A `lock` or `unlock` is, only where the padlock hangs already, or none does; and no card that a padlock keeps out.
    """
    if (step.answer == w.LOCKED) != (step.move.code in w.LOCKS | w.UNLOCKS):
        return []
    for other in sorted(steps, key=lambda other: abs(other.place - step.place)):
        same = replace(other.move, row=step.move.row, bringup=step.move.bringup) == step.move
        if other.accepted and same:
            return [Change("left out", tuple(one for one in order if one != step.move.row), (
                f"row {step.move.row} left out: {other.move.spot} does the same, and is accepted",), dropped=1)]
    return []


def keeps_padlocks(change, moves, accepted):
    """Whether a change has every padlock hang as long as the plan has it: it is the protection of who works there.

    No accepted `lock` goes further down, and no `unlock` further up. (No change adds an `unlock`.)
    """
    code = moves[change.row].code if change.row in moves else 0
    if change.sort in ("later", "after"):
        return code not in w.LOCKS or change.row not in accepted
    return change.sort not in ("earlier", "first") or code not in w.UNLOCKS


def around(change, config, target, before, after=(), text=""):
    """A change with moves added right above the target, and right below it."""
    at = change.order.index(target)
    order = change.order[:at] + tuple(before) + (target,) + tuple(after) + change.order[at + 1:]
    words = "; ".join(move_words(config, move) for move in before)
    if after:
        words += f"; and behind it {'; '.join(move_words(config, move) for move in after)}"
    return replace(change, sort="added", order=order, texts=change.texts + (f"{text}: {words}",),
                   added=change.added + len(before) + len(after))


def additions(config, step, chain, change):
    """Moves to be put around a refused step, as its question suggests."""
    target = step.move.row
    makers = {14: create_first, 15: empty_first, 16: (enter_first, leave_first)[step.move.code in w.OF_INACTIVE],
              17: bring_together, w.IN_REACH: let_go_first, w.GREEN_RULE: bring_named}
    maker = makers.get(step.answer)
    for before, after, text in maker(config, step) if maker else ():
        yield around(change, config, target, before, after, text)
    for by_chain in (bring_first, clear_first, away_meanwhile):
        for before, after, text in by_chain(config, step, chain):
            yield around(change, config, target, before, after, text)


def create_first(config, step):
    if step.move.code not in w.CREATES and step.move.where not in step.before.created:
        yield [Move(0, code_of("create", w.NOBODY), where=step.move.where)], [], "the partition first"


def move_out(state, owner_class, number):
    if owner_class == w.EXTERNAL:
        return Move(0, code_of("deactivate", w.EXTERNAL), where=state.objects[number], what=(number,))
    return Move(0, code_of("deactivate", owner_class), number)


def move_in(owner_class, number, where):
    if owner_class == w.EXTERNAL:
        return Move(0, code_of("activate", w.EXTERNAL), where=where, what=(number,))
    return Move(0, code_of("activate", owner_class), number, where)


def empty_first(config, step):
    state, where = step.before, step.move.where
    inside = [(w.DEVICE, n) for n, place in state.devices.items() if place == where]
    inside += [(w.EXTERNAL, n) for n in config.owned(w.EXTERNAL, 0) if state.objects[n] == where]
    inside += [(w.DRIVER, n) for n, place in state.drivers.items() if place == where]
    if inside:
        yield [move_out(state, *one) for one in inside], [], "what is still in it taken out first"


def leave_first(config, step):
    """What is to come in leaves first where it is, and so does a card that is to be locked."""
    state, move = step.before, step.move
    there = [(move.actor, move.who)] if move.actor != w.NOBODY else [(w.EXTERNAL, n) for n in move.what]
    active = [one for one in there if (state.objects[one[1]] if one[0] == w.EXTERNAL else state.actor(*one)) != NONE]
    yield [move_out(state, *one) for one in active], [], "out of where it is first"


def enter_first(config, step):
    """Who acts comes in first: where what it names is, or into any partition."""
    move, state = step.move, step.before
    if move.actor == w.NOBODY or move.code in w.DEACTIVATES:
        return
    near = [state.objects[n] for n in move.named() if state.objects[n] != NONE]
    for where in list(dict.fromkeys(near + state.existing()))[:3]:
        yield [move_in(move.actor, move.who, where)], [], "in first"


def bring_together(config, step):
    """The cards and external objects that a driver names come to it, and those from elsewhere go back."""
    state, move = step.before, step.move
    if move.actor != w.DRIVER:
        return
    home, before, after = state.actor(w.DRIVER, move.who), [], []
    for n in dict.fromkeys(move.named()):
        owner = config.holder(n)
        if state.objects[n] == home or any(made.who == owner[1] and made.actor == owner[0] for made in before):
            continue
        if owner[0] == w.DRIVER:
            return
        if state.objects[n] != NONE:
            before.append(move_out(state, *owner))
            away = Move(0, before[-1].code, before[-1].who, home if owner[0] == w.EXTERNAL else 0, before[-1].what)
            after += [away, move_in(*owner, state.objects[n])]
        before.append(move_in(*owner, home))
    yield before, [], "what it names brought in first"
    if after:
        yield before, after, "what it names brought in first, and back"


def bring_first(config, step, chain):
    """Whatever the chain of a card that may not come in yet ends at comes in first, out of where it is if need be."""
    owner, home = missing(config, step.before, step.move, chain) if chain else (None, NONE)
    if owner:
        out = [move_out(step.before, *owner)] if step.before.objects[chain[-1].to] != NONE else []
        yield out + [move_in(*owner, home)], [], "what its chain ends at brought in first"


def bring_named(config, step):
    """What the values name that a driver stores in a green zone comes in first, out of where it is if need be."""
    broken, state, zone = breaches(config, step.before, step.move), step.before, zone_of(step.before, step.move)
    if step.move.code in w.ACTIVATES or not all(only_elsewhere(config, one.entry) for one in broken):
        return
    before = []
    for owner in dict.fromkeys(config.holder(one.entry.object) for one in broken):
        there = state.objects[owner[1]] if owner[0] == w.EXTERNAL else state.actor(*owner)
        before += ([move_out(state, *owner)] if there != NONE else []) + [move_in(*owner, zone)]
    if before:
        yield before, [], "what its value names brought in first"


def let_go_first(config, step):
    """What stays in a green zone and names what leaves is cleared, by a driver that is there or that comes for it."""
    state = step.before
    held = list(dict.fromkeys(one.descriptor for one in clinging(config, state, step.move)
                              if config.objects[one.descriptor].kind == w.TRANSFER))[:MOST_ITEMS]
    if not held:
        return
    zone = state.objects[held[0]]
    driver, idle = driver_in(state, zone), driver_in(state, NONE)
    items = tuple(Item(n, w.VALUE_FORM) for n in held)
    if driver is not None:
        yield [Move(0, code_of("write", w.DRIVER), driver, what=items)], [], "cleared first"
    elif idle is not None:
        yield [move_in(w.DRIVER, idle, zone), Move(0, code_of("write", w.DRIVER), idle, what=items),
               move_out(state, w.DRIVER, idle)], [], "cleared first"


def driver_in(state, where):
    return next((n for n, place in state.drivers.items() if place == where), None)


def clear_first(config, step, chain):
    """One descriptor that the chain rests on, cleared by a driver that is where it is."""
    state = step.before
    read = [link.to for link in chain if link.kind == "reads"]
    for n in dict.fromkeys(read):
        driver = driver_in(state, state.objects[n])
        if config.objects[n].kind == w.TRANSFER and state.objects[n] and state.contents[n] and driver is not None:
            yield [Move(0, code_of("write", w.DRIVER), driver, what=(Item(n, w.VALUE_FORM),))], [], "cleared first"


def away_meanwhile(config, step, chain):
    """A card or an external object of the chain that is away meanwhile; then also with what it held written back."""
    state, leaving = step.before, (step.move.actor, step.move.who)
    things = [(w.DEVICE, link.device) for link in chain]
    things += [(w.EXTERNAL, link.to) for link in chain if link.to and config.objects[link.to].owner_class == w.EXTERNAL
               and state.objects[link.to] != NONE and link.to not in step.move.named()]
    for one in dict.fromkeys(things):
        where = state.objects[one[1]] if one[0] == w.EXTERNAL else state.actor(*one)
        if one == leaving or where == NONE:
            continue
        out, back = move_out(state, *one), move_in(*one, where)
        yield [out], [back], "away meanwhile"
        held = held_items(config, state, one)
        driver = driver_in(state, where)
        if held and driver is not None:
            again = Move(0, code_of("write", w.DRIVER), driver, what=tuple(held))
            yield [out], [back, again], "away meanwhile"


def held_items(config, state, one):
    """What a card's or an external object's contents are, as items of a write; none if they are too many for one."""
    own = [one[1]] if one[0] == w.EXTERNAL else config.owned(*one)
    items = []
    for n in own:
        content = state.contents[n]
        if config.objects[n].kind == w.TRANSFER and content:
            items.append(Item(n, w.VALUE_FORM, content))
        elif config.objects[n].kind in (w.FUNCTION, w.DATA) and any(content):
            items.append(Item(n, w.RAW_FORM, raw=content))
    return items if len(items) <= MOST_ITEMS else []
