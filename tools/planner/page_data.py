"""What the page's script is given: names, what each move sets, what a refusal failed on, and the links of its chain.

The states are not there: the script puts them together from what the moves set, and judges nothing.
"""
import json

from . import wording as w
from .area import DESTROYED, EXISTING, GREEN
from .reach import searched_state
from .visit import raw_words

PLACES = (("driver", "drivers"), ("card", "devices"), ("object", "objects"))


class Words:
    """Texts by number, each kept once."""

    def __init__(self):
        self.texts = {}

    def number(self, text):
        return self.texts.setdefault(text, len(self.texts))


def stops(plan):
    """Where one can stop: at refused moves of the bring-up, where the visit begins (None), and at its moves."""
    return plan.failed_bringup + [None] + plan.visit


def stop_key(step):
    """A stop in the page's address: 'row-17', 'bringup-4', 'start'."""
    if step is None:
        return "start"
    return f"{'bringup' if step.move.bringup else 'row'}-{step.move.row}"


def page_data(plan):
    """All of it, as it is put into the page."""
    config, words = plan.config, Words()
    start = plan.steps[0].before if plan.steps else plan.last_state()
    held = [words.number(contents(config, number, start)) for number in config.objects]
    steps = [step_data(plan, step, words) for step in plan.steps]
    there = sorted({*config.partitions, *plan.last_state().created, *(step.move.where for step in plan.steps)} - {0})
    return {
        "drivers": list(config.drivers.values()),
        "cards": [device.name for device in config.devices.values()],
        "serials": [config.serial(w.DEVICE, number) for number in config.devices],
        "objects": [[one.name, one.kind, one.owner_class, one.owner] for one in config.objects.values()],
        "partitions": {number: config.partition(number) for number in there},
        "held": held,
        "steps": steps,
        "stops": [{"key": stop_key(step), "step": None if step is None else step.place - 1,
                   "done": plan.first if step is None else step.place} for step in stops(plan)],
        "words": list(words.texts),
        "afterwards": list(w.AFTERWARDS),
        "standings": {"plain": EXISTING, "green": GREEN},
    }


def contents(config, number, state):
    """What an object holds, in words."""
    held = state.contents[number]
    return config.value(held) if config.is_descriptor(number) else raw_words(held)


def step_data(plan, step, words):
    """A move: what it sets, or for a refusal by 19 or 21 would set; what it reads; what it failed on; the chain."""
    config = plan.config
    findings = plan.findings(step)
    chain = next((finding.chain for finding in findings if finding.chain), ())
    after = searched_state(config, step.before, step.move) if step.answer in w.AFTERWARDS and chain else step.after
    data = {"answer": step.answer, "set": settings(config, step.before, after, words, step.move.stored_to())}
    if step.accepted and step.move.code in w.READS:
        data["read"] = [pair.source for pair in step.move.what]
    if not step.accepted:
        data["failed"] = [list(thing) for thing in dict.fromkeys(t for one in findings for t in one.things)]
    if chain:
        data["chain"] = [link_data(config, link) for link in chain]
    return data


def settings(config, before, after, words, stored):
    """What differs between two states, and what was stored without a difference."""
    found = [["partition", number, GREEN if number in after.green else EXISTING] for number in after.created
             if number not in before.created]
    found += [["partition", number, DESTROYED] for number in after.destroyed if number not in before.destroyed]
    for sort, column in PLACES:
        old, new = getattr(before, column), getattr(after, column)
        found += [[sort, number, new[number]] for number in new if new[number] != old[number]]
    found += [["lock", number, int(number in after.locked)] for number in config.devices
              if (number in after.locked) != (number in before.locked)]
    found += [["holds", number, words.number(contents(config, number, after))] for number in config.objects
              if after.contents[number] != before.contents[number] or number in stored and after is not before]
    return found


def link_data(config, link):
    data = {"kind": link.kind, "card": link.device, "from": link.descriptor, "to": link.to}
    if link.kind == "puts":
        data["put"] = config.value(link.stored)
    data["mode"] = link.mode or (w.WRITE if link.kind == "puts" else w.READ)
    return data


def as_json(data):
    """JSON that can stand in a page: nothing in it ends the element that it is in."""
    text = json.dumps(data, ensure_ascii=False, separators=(",", ":"))
    for mark in "<>&\u2028\u2029":
        text = text.replace(mark, f"\\u{ord(mark):04x}")
    return text
