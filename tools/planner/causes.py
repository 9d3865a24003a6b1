"""Which refusals come of others: a refused row whose failure an earlier refused row would have kept away.

The answers are the program's. For each refused row that comes of no other, a cause, the book is kept a second time, as
if that row had been done. A later refused row comes of the cause if, in that book, it gets past the question that it
failed on. It is told apart from causes also if it fails on the very same as one of them. Either way it is then taken
for done there, too.
"""
from dataclasses import dataclass

from . import reasons
from . import wording as w
from .book import NONE, follow
from .chain import BrokenChain
from .green import breaches, clinging, put_green
from .reach import found_chain

PARTITION, EMPTY, ACTIVE, PLACE, DESCRIBED = 14, 15, 16, 17, 18
# The questions that look at a state, in the order in which they are put.
ON_STATE = (PARTITION, EMPTY, ACTIVE, w.LOCKED, PLACE, DESCRIBED, w.OUTSIDE, w.IN_REACH, w.GREEN_RULE,
            w.ENTERS_OUTSIDE)
PADLOCK = "padlock"
# Of the causes, so many of the latest are followed.
MOST_FOLLOWED = 64


@dataclass(frozen=True)
class Origin:
    """Where a refusal comes from: the causes' steps, none if it is a cause; `same` if it fails on the same as they."""
    causes: tuple = ()
    same: bool = False


@dataclass
class World:
    """The book as it would be had a cause been done."""
    cause: object
    failed: frozenset
    state: object


def origins(plan):
    """The origin of each refused step, by its place."""
    config, worlds, found = plan.config, [], {}
    for step in plan.steps:
        if step.accepted:
            for world in worlds:
                world.state = follow(config, world.state, step.move)
            continue
        failed = failures(config, step.before, step.move, step.answer)
        origin, parts = trace(config, worlds, step, failed)
        for world in parts:
            world.state = done(config, world.state, step.move)
        if not origin.causes:
            worlds = worlds[1 - MOST_FOLLOWED:] + [World(step, failed, done(config, step.before, step.move))]
        found[step.place] = origin
    return found


def trace(config, worlds, step, failed):
    """The origin of a refusal, and the worlds in which it, too, would be done. What nothing explains is a cause."""
    if not failed:
        return Origin(), []
    left = [(world, remaining(config, world.state, step, failed)) for world in worlds]
    alone = [world for world, stays in left if not stays]
    if alone:
        return Origin((alone[-1].cause,)), alone
    parts = [(world, failed - stays) for world, stays in left if failed - stays]
    if failed == frozenset().union(*(gone for _, gone in parts)):
        return Origin(tuple(world.cause for world, _ in parts)), [world for world, _ in parts]
    same = [world for world in worlds if (world.cause.answer, world.failed) == (step.answer, failed)
            and since(world.cause.before, failed) == since(step.before, failed)]
    return (Origin((same[-1].cause,), True), same[-1:]) if same else (Origin(), [])


def remaining(config, state, step, failed):
    """What the move would still fail on in a world: all of it, if a question stops it there before its own."""
    move, number = step.move, step.answer
    if number not in ON_STATE:
        return failed
    early = [one for one in ON_STATE[:ON_STATE.index(number)] if asked(one, move)]
    if any(failures(config, state, move, one) for one in early):
        return failed
    stays = failures(config, state, move, number)
    return failed if stays and put_here(state, move, number) in w.BY_CHAIN else stays


def put_here(state, move, number):
    """The question put in a state in place of another: to a driver's move 22 where its zone is green, else 19."""
    if number in (w.OUTSIDE, w.GREEN_RULE) and move.code not in w.ACTIVATES:
        return w.GREEN_RULE if put_green(state, move) else w.OUTSIDE
    return number


def asked(number, move):
    """Whether one of the questions before the last one is put to a move of its code."""
    transfers = move.code in w.WRITES | w.READS
    return {PARTITION: "where" in w.CODES[move.code].fields,
            EMPTY: move.code in w.DESTROYS,
            ACTIVE: move.code not in w.CREATES | w.DESTROYS,
            PLACE: transfers and move.actor == w.DRIVER or move.code in w.DEACTIVATES and move.actor == w.NOBODY,
            DESCRIBED: transfers and move.actor == w.DEVICE,
            w.LOCKED: move.code in w.OF_INACTIVE and move.actor == w.DEVICE,
            w.GREEN_RULE: move.code in w.ACTIVATES and move.actor == w.DEVICE}.get(number, False)


def failures(config, state, move, number):
    """What a question stops a move at in a state, each a tuple of things; the move, if it does not look there."""
    if number not in ON_STATE:
        return frozenset([(move,)])
    if number == PARTITION:
        bad = move.where in state.created if move.code in w.CREATES else not state.exists(move.where)
        return frozenset([(("partition", move.where),)] if bad else [])
    if number == ACTIVE and move.actor != w.NOBODY:
        bad = (state.actor(move.actor, move.who) != NONE) == (move.code in w.OF_INACTIVE)
        return frozenset([((move.actor, move.who),)] if bad else [])
    if number == w.LOCKED:
        bad = (move.who in state.locked) != (move.code in w.UNLOCKS)
        return frozenset([((PADLOCK, move.who),)] if bad else [])
    if number in w.BY_CHAIN or number == w.GREEN_RULE:
        return last_failure(config, state, move, number)
    return frozenset(tuple(finding.things) for finding in reasons.find(config, state, move, number))


def since(state, failed):
    """Since which rows the things of a failure stand as they do."""
    rows = {}
    for sort, number in (thing for things in failed for thing in things if isinstance(thing, tuple)):
        if sort == "partition":
            rows[(sort, number)] = state.created.get(number), state.destroyed.get(number)
        elif sort == PADLOCK:
            rows[(sort, number)] = state.locked.get(number), state.unlocked.get(number)
        else:
            rows[(sort, number)] = state.moved.get((w.EXTERNAL if sort == "object" else sort, number))
    return rows


def last_failure(config, state, move, number):
    """Any chain is a failure, and so is an entry that breaks a green zone's rule, or names there what leaves.

    Two rows fail on the same if their chains and entries are the same.
    """
    if put_here(state, move, number) == w.GREEN_RULE:
        return frozenset((one,) for one in breaches(config, state, move))
    named = [(one,) for one in clinging(config, state, move)]
    try:
        return frozenset(named + [links for links in [found_chain(config, state, move)] if links])
    except BrokenChain:
        return frozenset(named)


def done(config, state, move):
    """The state as if a refused move had been done; one that names what is not there does nothing."""
    crew = config.drivers if move.actor == w.DRIVER else config.devices
    known = all(number in config.objects for number in move.named())
    if not known or move.actor != w.NOBODY and move.who not in crew:
        return state
    after = follow(config, state, move)
    if move.code in w.CREATES:
        after.destroyed.pop(move.where, None)
    return after
