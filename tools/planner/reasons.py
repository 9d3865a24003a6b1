"""On what a move failed: given the program's answer, the objects, devices and partitions that the question stopped at.

Nothing here decides an answer. Each function is asked only about an answer that the program gave, and says what the
tables and the moves accepted so far show about it.
"""
from collections import Counter

from . import wording as w
from .book import NONE
from .finding import Finding, place
from .green import rule_findings
from .reach import reach_findings
from .visit import Pair

# Why a card is not locked or unlocked in a partition, by the operation.
OUT_FIRST = {"lock": "; a padlock is hung on a card that is in no partition",
             "unlock": ", so that no padlock hangs on it"}
# What would help where a padlock hangs.
WHOSE_PADLOCK = ("Whoever hung it takes it off, and nobody else: then an 'unlock' stands above this row, and the card "
                 "can come in.")
ONE_PADLOCK = "One padlock is kept for a card: an 'unlock' takes it off, whoever else works on the card."


def find(config, state, move, answer):
    """The findings for an answer; an empty list if this tool has nothing to say about it."""
    function = REASONS.get(answer)
    return function(config, state, move) if function else []


def unreadable(config, state, move):
    most, largest = w.LIMITS["items of a move"], w.LIMITS["a number"]
    found = [Finding(f"it has {len(move.what)} items; a move has at most {most}")] if len(move.what) > most else []
    values = [item.value for item in move.what] if move.code in w.WRITES else []
    return found + [Finding(f"the number {n} is above {largest:,}")
                    for n in [move.who, move.where] + all_named(move) + values if n > largest]


def unknown(config, state, move):
    found = []
    code = w.CODES[move.code]
    crew = config.drivers if code.actor == w.DRIVER else config.devices
    if "who" in code.fields and move.who not in crew:
        found.append(Finding(f"there is no {w.OWNERS[code.actor]} #{move.who}"))
    if "where" in code.fields and not 1 <= move.where <= w.LIMITS["partitions"]:
        found.append(Finding(f"there is no partition {move.where}; they go from 1 to {w.LIMITS['partitions']}"))
    found += [Finding(f"there is no object #{n}") for n in all_named(move) if n not in config.objects]
    if move.code in w.WRITES:
        found += [Finding(f"there is no value #{item.value}") for item in move.what
                  if item.value and item.value not in config.values]
    return found


def all_named(move):
    """Every object named, source 0 too, which names nothing."""
    return [n for part in move.what for n in ([part.source] + ([part.destination] if part.destination else [])
                                              if isinstance(part, Pair) else [getattr(part, "object", part)])]


def twice(config, state, move):
    named = move.stored_to() if move.code in w.WRITES | w.READS else move.named()
    return [Finding(f"{config.object(n)} is named {count} times", [("object", n)])
            for n, count in Counter(named).items() if count > 1]


def kinds(config, state, move):
    found = [Finding(f"{config.describe(n)} is fixed; no move may name it", [("object", n)])
             for n in dict.fromkeys(move.named()) if config.objects[n].kind == w.HARDCODED]
    if move.code in w.WRITES:
        found += [finding for item in move.what for finding in form_findings(config, item)]
    elif move.code in w.READS:
        found += [finding for pair in move.what for finding in copy_findings(config, pair)]
    else:
        found += [Finding(f"{config.describe(n)} is not external: it moves with its owner", [("object", n)])
                  for n in move.named() if config.objects[n].owner_class != w.EXTERNAL]
    return found


def form_findings(config, item):
    kind, things = config.objects[item.object].kind, [("object", item.object)]
    if kind == w.TRANSFER and item.form != w.VALUE_FORM:
        return [Finding(f"{config.describe(item.object)} takes a value, not a text or bytes", things)]
    if kind in (w.FUNCTION, w.DATA) and item.form == w.VALUE_FORM:
        return [Finding(f"{config.describe(item.object)} takes a text or bytes, not a value", things)]
    return []


def copy_findings(config, pair):
    if not pair.destination:
        return []
    transfer = [config.objects[n].kind == w.TRANSFER for n in (pair.source, pair.destination)]
    if transfer[0] == transfer[1]:
        return []
    things = [("object", pair.source), ("object", pair.destination)]
    return [Finding(f"{config.describe(pair.source)} cannot be copied to {config.describe(pair.destination)}: "
                    "values are copied between transfer descriptors only", things)]


def partition_use(config, state, move):
    name, things = config.full_partition(move.where), [("partition", move.where)]
    if move.where in state.destroyed:
        text = f"{name} was destroyed in {state.destroyed[move.where]}; its number cannot be used again"
    elif move.where in state.created:
        sort = " as a green zone" if move.where in state.green else ""
        text = f"{name} was already created{sort} in {state.created[move.where]}"
    else:
        text = f"{name} was never created"
    return [Finding(text, things)]


def occupied(config, state, move):
    found = []
    for owner_class, where in ((w.DRIVER, state.drivers), (w.DEVICE, state.devices)):
        found += [Finding(f"{config.actor(owner_class, n)} is still in it", [(owner_class, n)])
                  for n, p in where.items() if p == move.where]
    return found + [Finding(f"{config.describe(n)} is still in it", [("object", n)]) for n, p in state.objects.items()
                    if p == move.where and config.objects[n].owner_class == w.EXTERNAL]


def activity(config, state, move):
    """Who enters, is locked or unlocked must be inactive; who acts or leaves must be active."""
    entering = move.code in w.ACTIVATES
    if move.actor != w.NOBODY:
        name, at = config.actor(move.actor, move.who), state.actor(move.actor, move.who)
        things, spot = [(move.actor, move.who)], state.moved.get((move.actor, move.who))
        if move.code in w.OF_INACTIVE:
            already = "already " if entering else ""
            return [Finding(f"{name} is {already}active in {config.partition(at)}, since {spot}"
                            f"{OUT_FIRST.get(w.CODES[move.code].verb, '')}", things)]
        left = f"; it left in {spot}" if spot else ""
        return [Finding(f"{name} is not active{left}", things)]
    return [Finding(f"{config.describe(n)} is {'already ' if entering else ''}{place(config, state.objects[n])}",
                    [("object", n)]) for n in move.named() if (state.objects[n] != NONE) == entering]


def padlock(config, state, move):
    """Of question 23: since when a padlock hangs, or since when none does."""
    name, things = config.actor(move.actor, move.who), [(move.actor, move.who)]
    hung, off = state.locked.get(move.who), state.unlocked.get(move.who)
    if move.code in w.UNLOCKS:
        text = f"no padlock hangs on {name}; {f'it was taken off in {off}' if off else 'none was hung'}"
        return [Finding(text, things)]
    if move.code in w.LOCKS:
        return [Finding(f"a padlock hangs on {name} already, since {hung}", things, ways=(ONE_PADLOCK,))]
    return [Finding(f"a padlock hangs on {name}, since {hung}", things, ways=(WHOSE_PADLOCK,))]


def elsewhere(config, state, move):
    if move.actor == w.NOBODY:
        home, whose = move.where, f"not in {config.partition(move.where)}"
    else:
        home = state.actor(move.actor, move.who)
        whose = f"while {config.actor(move.actor, move.who)} is in {config.partition(home)}"
    return [Finding(f"{config.describe(n)} is {place(config, state.objects[n])}, {whose}",
                    [("object", n), (move.actor, move.who)])
            for n in dict.fromkeys(move.named()) if state.objects[n] != home]


def todays_entries(config, state, device):
    """What a device's descriptors say with today's values: (descriptor, entry)."""
    todo, seen = [config.hardcoded_object(device)], set()
    while todo:
        descriptor = todo.pop(0)
        if descriptor in seen or state.objects[descriptor] == NONE:
            continue
        seen.add(descriptor)
        for entry in config.entries(state.contents[descriptor]):
            yield descriptor, entry
            if entry.reads and config.is_descriptor(entry.object):
                todo.append(entry.object)


def undescribed(config, state, move):
    """Each transfer of a device's move that no entry describes today."""
    today = [entry for _, entry in todays_entries(config, state, move.who)]
    card, found = config.device(move.who), []
    for number, writes, put in transfers(config, state, move):
        same = [entry for entry in today if entry.object == number and (entry.writes if writes else entry.reads)]
        if not same:
            verb = "writes" if writes else "reads"
            found.append(Finding(f"card {card} now reads no descriptor with an entry that {verb} "
                                 f"{config.describe(number)}", [("object", number)]))
        elif put is not None and all(entry.stored != put for entry in same):
            allowed = ", ".join(f"'{config.value(entry.stored)}'" for entry in same)
            found.append(Finding(f"what card {card} reads now lets it put {allowed} into {config.object(number)}, "
                                 f"not '{config.value(put)}'", [("object", number)]))
    return found


def transfers(config, state, move):
    """The transfers of a device's move: object, whether it is written, and the value put into a transfer descriptor."""
    for part in move.what:
        if move.code in w.WRITES:
            yield part.object, True, part.value if config.objects[part.object].kind == w.TRANSFER else None
            continue
        yield part.source, False, None
        if part.destination:
            transfer = config.objects[part.destination].kind == w.TRANSFER
            yield part.destination, True, state.contents[part.source] if transfer else None


REASONS = {10: unreadable, 11: unknown, 12: twice, 13: kinds, 14: partition_use, 15: occupied, 16: activity,
           17: elsewhere, 18: undescribed, w.GREEN_RULE: rule_findings, w.LOCKED: padlock,
           **dict.fromkeys(w.BY_CHAIN, reach_findings)}
