"""Answers 19 to 21 explained: the chain is searched, checked link by link, and only then handed on."""
from . import wording as w
from .book import NONE, concerned, follow
from .chain import BrokenChain, confirm, link_words
from .closure import leaving_chain, outside_chain
from .finding import Finding, place
from .green import clinging, clinging_findings


def searched_state(config, state, move):
    """The state that the question was put on: the one before for what leaves, else the one that would follow."""
    return state if move.code in w.DEACTIVATES else follow(config, state, move)


def found_chain(config, state, move):
    """The checked chain behind a 19, 20 or 21, none if none is found. BrokenChain if what is found does not hold."""
    there = searched_state(config, state, move)
    if move.code not in w.DEACTIVATES:
        entering = move.who if move.code in w.ACTIVATES and move.actor == w.DEVICE else 0
        links = outside_chain(config, there, entering)
        leaving, gone = (), 0
    else:
        leaving = tuple(concerned(config, move))
        gone = move.who if move.actor == w.DEVICE else 0
        links = leaving_chain(config, there, leaving, gone)
    if links is None:
        return ()
    confirm(config, there, links, leaving, gone)
    return tuple(links)


def explained_chain(config, state, move):
    """The checked chain behind a 19, 20 or 21. BrokenChain if there is none that holds."""
    links = found_chain(config, state, move)
    if not links:
        raise BrokenChain("no chain was found that explains the program's answer")
    return links


def missing(config, state, move, links):
    """What would have to be in, and where, for a chain of 21 to stay inside there; nothing where that is of no use."""
    last = links[-1]
    owner, hard = config.holder(last.to), config.objects[last.to].kind == w.HARDCODED
    if move.code not in w.ACTIVATES or hard or owner == (move.actor, move.who):
        return None, NONE
    return owner, searched_state(config, state, move).devices[last.device]


def chain_sentences(config, state, move, links):
    """The links in words, in order."""
    there = searched_state(config, state, move)
    return [link_words(config, there, link, links, move.stored_to()) for link in links]


def reach_findings(config, state, move):
    """A finding of the chain; for what leaves a green zone, also one of each descriptor that stays and names it.

    Without a chain these explain the answer; where there is one, what its last link tells needs no second finding.
    """
    cling = clinging(config, state, move)
    links = found_chain(config, state, move) if cling else explained_chain(config, state, move)
    told = (links[-1].descriptor, links[-1].to) if links else None
    found = chain_findings(config, state, move, links) if links else []
    return found + clinging_findings(config, state, [one for one in cling
                                                     if (one.descriptor, one.entry.object) != told])


def chain_findings(config, state, move, links):
    """One finding that tells the end of the chain in a sentence."""
    there, last = searched_state(config, state, move), links[-1]
    card, home = config.device(last.device), config.partition(there.devices[last.device])
    verb = {w.READ: "read", w.WRITE: "write", w.BOTH: "read and write"}[last.mode]
    if last.kind == "names":
        end = f"which leaves, while card {card} stays in {home}"
    elif config.objects[last.to].kind == w.HARDCODED:
        end = "a hard-wired descriptor"
    else:
        stands = "is" if state.devices[last.device] == there.devices[last.device] else "would be"
        end = f"which is {place(config, there.objects[last.to])}, while card {card} {stands} in {home}"
    text = f"card {card} could {verb} {config.describe(last.to)}, {end}: a chain of {len(links)} links"
    return [Finding(text, [("object", last.to), (w.DEVICE, last.device)], links)]
