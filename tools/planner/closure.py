"""The closure of descriptor writes (document 01: reach), searched for the shortest explanation of an answer 19 to 21.

The program has judged already; what is found here is shown only after chain.confirm has checked it link by link.
"""
from . import wording as w
from .book import NONE
from .chain import Link

MOST_TRIED = 200


class Closure:
    """Pairs (descriptor, value) that come about, and those that each device reads, each with what first led to it.

    pairs[(descriptor, value)] is None if the descriptor holds the value, else the read (device, descriptor, value) from
    which it is stored. reads[(device, descriptor, value)] is None for the hardcoded descriptor, else the pair before.
    """

    def __init__(self, config, state):
        self.config, self.pairs, self.reads, self.rounds = config, {}, {}, []
        self.values, self.readers = {}, {}
        for number in config.objects:
            if config.is_descriptor(number) and state.objects[number] != NONE:
                self.collect((number, state.contents[number]), None, {})
        fresh = {}
        for device in config.devices:
            if state.devices[device] != NONE:
                number = config.hardcoded_object(device)
                self.read(device, (number, state.contents[number]), None, fresh)
        while fresh:
            self.rounds.append(list(fresh))
            fresh = self.turn(fresh)

    def turn(self, last):
        """One step from each pair that was read last; what devices read then."""
        fresh = {}
        for device, descriptor, value in last:
            for entry in self.config.entries(value):
                if entry.reads and self.config.is_descriptor(entry.object):
                    self.let_read(device, entry.object, (descriptor, value), fresh)
                if entry.writes and self.config.objects[entry.object].kind == w.TRANSFER:
                    self.collect((entry.object, entry.stored), (device, descriptor, value), fresh)
        return fresh

    def collect(self, pair, writer, fresh):
        """A pair comes about; whoever reads its descriptor reads it."""
        if pair not in self.pairs:
            self.pairs[pair] = writer
            self.values.setdefault(pair[0], []).append(pair)
            for device, before in self.readers.get(pair[0], {}).items():
                self.read(device, pair, before, fresh)

    def let_read(self, device, descriptor, before, fresh):
        """A device comes to read a descriptor, and so every pair collected for it, now and later."""
        readers = self.readers.setdefault(descriptor, {})
        if device not in readers:
            readers[device] = before
            for pair in self.values.get(descriptor, []):
                self.read(device, pair, before, fresh)

    def read(self, device, pair, before, fresh):
        if (device, *pair) not in self.reads:
            self.reads[(device, *pair)] = before
            fresh[(device, *pair)] = None

    def links_to(self, read, done):
        """The links that establish a read and all that it rests on, without those already in `done`."""
        device, descriptor, value = read
        if ("reads", read) in done:
            return []
        done.add(("reads", read))
        before = self.reads[read]
        if before is None:
            return [Link("wired", device, descriptor, value)]
        links = []
        writer = self.pairs[(descriptor, value)]
        if writer is not None and ("puts", descriptor, value) not in done:
            links += self.links_to(writer, done)
            if ("puts", descriptor, value) not in done:
                done.add(("puts", descriptor, value))
                links.append(Link("puts", writer[0], writer[1], writer[2], descriptor, value))
        links += self.links_to((device, *before), done)
        return links + [Link("reads", device, *before, descriptor, value)]

    def shortest(self, wanted, kind):
        """The shortest chain to an entry that `wanted(device, entry)` accepts; None if there is none."""
        for reads in self.rounds:
            chains, tried = [], 0
            for device, descriptor, value in reads:
                for entry in self.config.entries(value):
                    if tried < MOST_TRIED and wanted(device, entry):
                        tried += 1
                        last = Link(kind, device, descriptor, value, entry.object, mode=entry.mode)
                        chains.append(self.links_to((device, descriptor, value), set()) + [last])
            if chains:
                return min(chains, key=len)
        return None


def outside_chain(config, state, entering=0):
    """For 19 and 21: a chain to an entry outside, in the state that would follow.

    Where a device enters the chain begins there, or, if that is no part of it, at the device that crosses.
    """
    def crosses(device, entry):
        hard = config.objects[entry.object].kind == w.HARDCODED
        return hard or state.objects[entry.object] != state.devices[device]

    links = Closure(config, state).shortest(crosses, "outside")
    if not links or not entering:
        return links
    return beginning_at(links, entering if any(link.device == entering for link in links) else links[-1].device)


def beginning_at(links, device):
    """A chain with all that rests on one device's hardcoded descriptor alone put first, each part in its order."""
    awaited = {(link.to, link.stored) for link in links if link.kind == "puts"}
    read, first = set(), []
    for link in links:
        wired = link.kind == "wired" and link.device == device
        if not wired and (link.device, link.descriptor, link.value) not in read:
            continue
        if link.kind == "reads" and (link.to, link.stored) in awaited:
            continue
        first.append(link)
        if wired:
            read.add((device, link.descriptor, link.value))
        elif link.kind == "reads":
            read.add((link.device, link.to, link.stored))
        elif link.kind == "puts":
            awaited.discard((link.to, link.stored))
    return first + [link for link in links if link not in first]


def leaving_chain(config, state, leaving, gone):
    """For 20: a chain by which a device other than `gone` has an entry naming one of the objects that leave."""
    def names(device, entry):
        return device != gone and entry.object in leaving

    return Closure(config, state).shortest(names, "names")
