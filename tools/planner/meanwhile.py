"""What goes on during a visit, for the technicians: which cards keep working, which zones are shut, who is out."""
from dataclasses import dataclass

from . import wording as w
from .book import NONE

MOST_NAMED = 6


@dataclass(frozen=True)
class Span:
    """Something that lasts: from a step (0 is before the first) to a step (None is to the visit's end)."""
    what: str
    start: int
    end: int = None


def where_of(config, step):
    """The partition that a move is about: the one it names, or the one in which who acts or leaves is."""
    move = step.move
    if "where" in w.CODES[move.code].fields:
        return config.partition(move.where)
    place = step.before.actor(move.actor, move.who)
    return config.partition(place) if place else ""


def at_work(config, step):
    """The cards that are in a partition all through a step, by partition."""
    found = {}
    for device, place in step.before.devices.items():
        if place != NONE and step.after.devices[device] == place:
            found.setdefault(place, []).append(device)
    return found


def meanwhile_words(config, step):
    """Which cards keep working while a step is done; of many those that do not are named."""
    found = at_work(config, step)
    working = [device for devices in found.values() for device in devices]
    resting = [device for device in config.devices if device not in working]
    if not working:
        return "nothing"
    if len(working) > MOST_NAMED and len(resting) <= MOST_NAMED:
        out = f" but {', '.join(config.device(device) for device in resting)}" if resting else ""
        return f"all {len(config.devices)} cards{out}"
    return "; ".join(f"{config.partition(place)}: {', '.join(map(config.device, found[place]))}"
                     for place in sorted(found))


def spans(holding, what):
    """The spans in which something holds; `holding` says it of the states before the first step and after each."""
    found, since = [], None
    for number, holds in enumerate(holding):
        if holds and since is None:
            since = number
        elif not holds and since is not None:
            found.append(Span(what, since, number))
            since = None
    return found + ([Span(what, since)] if since is not None else [])


def states_of(plan):
    """The states before the visit's first step and after each of its steps."""
    return [plan.visit[0].before] + [step.after for step in plan.visit] if plan.visit else []


def shut_zones(plan):
    """Each zone while it exists and no card is in it."""
    states, found = states_of(plan), []
    for zone in sorted({number for state in states for number in state.created}):
        empty = [state.exists(zone) and zone not in state.devices.values() for state in states]
        found += spans(empty, plan.config.partition(zone))
    return found


def cards_out(plan):
    """Each card while it is not where it belongs: where it was before the visit, or else where it is first brought."""
    states, found = states_of(plan), []
    for device in plan.config.devices:
        places = [state.devices[device] for state in states]
        home = next((place for place in places if place != NONE), NONE)
        there = places.index(home) if home != NONE else len(places)
        found += spans([number > there and place != home for number, place in enumerate(places)],
                       f"{plan.config.device(device)}, out of {plan.config.partition(home)}")
    return found


def locked_cards(plan):
    """Each card while a padlock hangs on it."""
    states = states_of(plan)
    return [span for device in plan.config.devices
            for span in spans([device in state.locked for state in states], plan.config.device(device))]


def span_words(span):
    """From which step to which; the first is done when it begins, the last when it ends."""
    start = f"from step {span.start}" if span.start else "from the start"
    return f"{start} to step {span.end}" if span.end else f"{start} to the end, and after it"
