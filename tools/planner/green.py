"""Green zones: what question 22 stops a value at, and what question 20 asks there besides its chain.

As in reasons.py nothing here decides an answer: it says what the tables and the accepted moves show about one.
"""
from dataclasses import dataclass

from . import wording as w
from .book import NONE, concerned
from .config import Entry
from .finding import Finding, place


@dataclass(frozen=True)
class Breach:
    """An entry that breaks a green zone's rule, in a value that would come to stand in `target`.

    `source` is where a copy takes the value from, else 0; for a card that is brought in `target` is its hard-wired
    descriptor.
    """
    value: int
    entry: Entry
    target: int
    source: int = 0


@dataclass(frozen=True)
class Clinging:
    """A descriptor that stays in a green zone, and an entry of what it holds that names an object that leaves."""
    descriptor: int
    entry: Entry


def zone_of(state, move):
    """The zone whose rule question 22 puts to a move: where a driver stores, where a card comes in; else NONE."""
    if move.code in w.WRITES | w.READS and move.actor == w.DRIVER:
        return state.actor(w.DRIVER, move.who)
    return move.where if move.code in w.ACTIVATES and move.actor == w.DEVICE else NONE


def put_green(state, move):
    """Whether the zone of question 22 is green."""
    return state.is_green(zone_of(state, move))


def leaves_green(config, state, move):
    """Whether something that a move takes out is in a green zone."""
    return move.code in w.DEACTIVATES and any(state.is_green(state.objects.get(n, NONE))
                                              for n in concerned(config, move))


def writes_descriptor(config, entry):
    return entry.writes and config.objects[entry.object].kind == w.TRANSFER


def faults_of(config, state, zone, entry):
    """Why a value stored in a green zone may not have an entry, in words; nothing if it may."""
    found = []
    if state.objects[entry.object] != zone:
        found.append(f"that is {place(config, state.objects[entry.object])}, and not in {config.partition(zone)}, "
                     "which is green")
    if config.objects[entry.object].kind == w.HARDCODED:
        found.append("no value in a green zone may name a hard-wired descriptor")
    if writes_descriptor(config, entry):
        found.append("no value in a green zone may write a transfer descriptor")
    return found


def stores(config, state, move):
    """What a driver's move stores into transfer descriptors: the descriptor, the value, and a copy's source or 0."""
    for part in move.what:
        target, source = (part.object, 0) if move.code in w.WRITES else (part.destination, part.source)
        if target and config.objects[target].kind == w.TRANSFER:
            yield target, state.contents[source] if source else part.value, source


def breaches(config, state, move):
    """The entries for which question 22 refuses a move; none where the zone is not green."""
    if not put_green(state, move):
        return []
    if move.code in w.ACTIVATES:
        own = config.hardcoded_object(move.who)
        value = config.devices[move.who].hardcoded
        return [Breach(value, entry, own) for entry in config.entries(value) if writes_descriptor(config, entry)]
    zone = zone_of(state, move)
    return [Breach(value, entry, target, source) for target, value, source in stores(config, state, move)
            for entry in config.entries(value) if faults_of(config, state, zone, entry)]


def rule_findings(config, state, move):
    """A finding for each entry that breaks the rule: which value has it, where that would stand, and why."""
    zone, found = zone_of(state, move), []
    for one in breaches(config, state, move):
        text = f"'{config.value(one.value)}', {stands(config, one, move)}, has an entry that " \
               f"{w.MODE_VERBS[one.entry.mode]} {config.describe(one.entry.object)}: "
        if move.code in w.ACTIVATES:
            text += f"no card that writes a transfer descriptor may come into {config.partition(zone)}, which is green"
            things = [(w.DEVICE, move.who), ("object", one.entry.object)]
        else:
            text += "; and ".join(faults_of(config, state, zone, one.entry))
            things = [("object", one.target), ("object", one.entry.object)]
        found.append(Finding(text, things, ways=tuple(ways_in(config, state, move, one))))
    return found


def stands(config, one, move):
    """Where a value would come to stand, or is."""
    if move.code in w.ACTIVATES:
        return f"which is hard-wired in card {config.device(move.who)}"
    if one.source:
        return f"which {config.object(one.source)} holds and which would be copied into {config.describe(one.target)}"
    return f"to be written into {config.describe(one.target)}"


def only_elsewhere(config, entry):
    """Whether an entry of a stored value would be as it must be, were its object in the zone."""
    return config.objects[entry.object].kind != w.HARDCODED and not writes_descriptor(config, entry)


def ways_in(config, state, move, one):
    """What would have a value pass, in sentences; there is no way for one that names a hard-wired descriptor."""
    if move.code in w.ACTIVATES:
        yield "Such a card can come into a zone that is not green, if question 21 lets it in there."
    elif only_elsewhere(config, one.entry):
        yield (f"Bring {config.holder_words(one.entry.object)} into {config.partition(zone_of(state, move))} first, "
               "and this entry keeps to the rule.")
    elif config.objects[one.entry.object].kind != w.HARDCODED:
        yield "Such a value can be stored in a zone that is not green, if question 19 lets it be stored there."


def clinging(config, state, move):
    """What keeps an object from leaving a green zone, whether or not a card reads it, in the descriptors' order."""
    if not leaves_green(config, state, move):
        return []
    leaving = set(concerned(config, move))
    return [Clinging(n, entry) for n in config.objects
            if config.is_descriptor(n) and n not in leaving and state.is_green(state.objects[n])
            for entry in config.entries(state.contents[n])
            if entry.object in leaving and state.objects[entry.object] == state.objects[n]]


def clinging_findings(config, state, found):
    """A finding for each descriptor that stays and names what leaves."""
    made = []
    for one in found:
        name, zone = config.object(one.descriptor), config.partition(state.objects[one.descriptor])
        text = f"{config.describe(one.descriptor)} stays in {zone}, which is green, and holds " \
               f"'{config.value(state.contents[one.descriptor])}', which {w.MODE_VERBS[one.entry.mode]} " \
               f"{config.describe(one.entry.object)}, which leaves"
        way = f"In a green zone that counts whether or not a card reads {name}: clear {name} first, or write another " \
              "value there."
        fixed = config.objects[one.descriptor].kind == w.HARDCODED
        made.append(Finding(text, [("object", one.descriptor), ("object", one.entry.object)],
                            ways=() if fixed else (way,)))
    return made
