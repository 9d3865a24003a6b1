"""A chain of links from hardcoded descriptors to the entry behind an answer 19 to 21, and its independent check."""
from dataclasses import dataclass

from . import wording as w


@dataclass(frozen=True)
class Link:
    """One step of a device, made from a value that it reads in a descriptor.

    kind    what the device does                               to           stored
    wired   reads its own hardcoded descriptor, holding value
    reads   reads the descriptor `to`, and in it the value     descriptor   value
    puts    could store a value there                          descriptor   value
    outside has an entry for an object it must not get at      object
    names   has an entry for an object that is to leave        object
    """
    kind: str
    device: int
    descriptor: int
    value: int
    to: int = 0
    stored: int = 0
    mode: int = 0


class BrokenChain(Exception):
    """A link that the tables and the moves accepted so far do not bear out."""


def hold(ok, number, why):
    if not ok:
        raise BrokenChain(f"link {number}: {why}")


def confirm(config, state, links, leaving=(), gone=0):
    """Checks a chain link by link against the configuration and the state, taking nothing from the search.

    With `leaving` the last link must name one of these objects, by a device other than `gone`; without, it must cross.
    """
    read, put = set(), set()
    hold(links, 0, "there is none")
    for number, link in enumerate(links, 1):
        last = number == len(links)
        hold(link.device in config.devices and state.devices[link.device] != 0, number, "the card is not active")
        hold((link.kind in ("outside", "names")) == last, number, "the chain ends elsewhere")
        if link.kind == "wired":
            confirm_wired(config, state, link, number)
            read.add((link.device, link.descriptor, link.value))
            continue
        hold((link.device, link.descriptor, link.value) in read, number, "the card was not shown to read this value")
        if link.kind == "reads":
            confirm_reads(config, state, link, number, put)
            read.add((link.device, link.to, link.stored))
        elif link.kind == "puts":
            confirm_puts(config, link, number)
            put.add((link.to, link.stored))
        else:
            confirm_last(config, state, link, number, leaving, gone)


def entries_for(config, link):
    return [entry for entry in config.entries(link.value) if entry.object == link.to]


def confirm_wired(config, state, link, number):
    one = config.objects[link.descriptor]
    own = (one.kind, one.owner_class, one.owner) == (w.HARDCODED, w.DEVICE, link.device)
    hold(own, number, "this is not the card's hard-wired descriptor")
    hold(state.contents[link.descriptor] == link.value, number, "the descriptor holds another value")


def confirm_reads(config, state, link, number, put):
    hold(config.objects[link.to].kind in w.DESCRIPTORS, number, "this is no descriptor")
    hold(any(entry.mode != w.WRITE for entry in entries_for(config, link)), number, "no entry reads it")
    holds = state.objects[link.to] != 0 and state.contents[link.to] == link.stored
    hold(holds or (link.to, link.stored) in put, number, "the descriptor does not come to hold this value")


def confirm_puts(config, link, number):
    hold(config.objects[link.to].kind == w.TRANSFER, number, "this is no transfer descriptor")
    fits = [entry for entry in entries_for(config, link) if entry.mode != w.READ and entry.stored == link.stored]
    hold(fits, number, "no entry puts this value there")


def confirm_last(config, state, link, number, leaving, gone):
    hold(any(entry.mode == link.mode for entry in entries_for(config, link)), number, "no such entry")
    if leaving:
        hold(link.kind == "names" and link.to in leaving, number, "the object does not leave")
        hold(link.device != gone, number, "the card itself leaves")
    else:
        other = state.objects[link.to] != state.devices[link.device]
        hold(link.kind == "outside", number, "the chain ends elsewhere")
        hold(other or config.objects[link.to].kind == w.HARDCODED, number, "the object is in the card's partition")


def link_words(config, state, link, links, written=()):
    """A link as a sentence; `written` are the descriptors that the move itself would fill."""
    card, value = f"card {config.device(link.device)}", f"'{config.value(link.value)}'"
    target, stored = config.object(link.to), f"'{config.value(link.stored)}'"
    if link.kind == "wired":
        own = config.object(link.descriptor)
        return f"Card {config.device(link.device)} reads its hard-wired descriptor {own}, which holds {value}."
    if link.kind == "puts":
        return f"{value} has an entry that writes {target}: {card} could put {stored} there."
    if link.kind == "reads":
        held = how_held(state, link, links, written)
        return f"{value} has an entry that reads {target}: {card} reads {stored} there, {held}."
    return f"{value} has an entry that {w.MODE_VERBS[link.mode]} {target}, {where_words(config, state, link)}"


def how_held(state, link, links, written):
    """Why a descriptor holds the value read: by this move, by an earlier link, or as things stand."""
    if state.objects[link.to] != 0 and state.contents[link.to] == link.stored:
        return "put there by this very move" if link.to in written else "which it holds now"
    numbers = [n for n, one in enumerate(links, 1)
               if one.kind == "puts" and (one.to, one.stored) == (link.to, link.stored)]
    return f"once it is put there (link {numbers[0]})"


def where_words(config, state, link):
    """The end of the chain: why this entry must not be."""
    name, home = config.device(link.device), config.partition(state.devices[link.device])
    if link.kind == "names":
        return f"which is to leave, while card {name} stays active in {home}."
    if config.objects[link.to].kind == w.HARDCODED:
        return f"a hard-wired descriptor: card {name} may not be led to one."
    there = state.objects[link.to]
    place = f"which is in {config.partition(there)}" if there else "which is in no partition"
    return f"{place}, while card {name} is in {home}: here card {name} leaves its partition."
