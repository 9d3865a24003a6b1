"""Names in the tables: which are allowed, and what each stands for. Capitals and runs of blanks do not matter."""
import difflib

from . import wording as w
from .table import squeezed

CONTENT_WORDS = ("text", "bytes")
# Digits of the largest number that a record can hold.
MOST_DIGITS = len(str(w.LIMITS["a number"]))
RESERVED = {"object": (), "value": (w.CLEARED,), "owner": (w.OWNERS[w.EXTERNAL],), "partition": ()}


def key(name):
    return squeezed(name).casefold()


def likely(name, known):
    """A question after the known word that is nearest to an unknown one; nothing if none is near."""
    spelled = {key(word): word for word in known}
    near = difflib.get_close_matches(key(name), spelled, 1)
    return f"; did you mean '{spelled[near[0]]}'?" if near else ""


def number_of(text):
    """The number in '#12'; None for anything else."""
    digits = text[1:]
    plain = text[:1] == "#" and digits.isascii() and digits.isdigit()
    return int(digits) if plain and len(digits) <= MOST_DIGITS else None


def check_name(row, column, name, sort):
    """A fault if a name could be taken for something else in visit.csv."""
    for mark in (";", "=", "->"):
        if mark in name:
            raise row.fault(column, f"'{name}' has '{mark}' in it, which separates names in visit.csv")
    if name.startswith("#"):
        raise row.fault(column, f"'{name}' begins with '#', which is kept for numbers")
    if key(name) in RESERVED[sort] or sort == "value" and key(name).split()[0] in CONTENT_WORDS:
        raise row.fault(column, f"'{name}' is kept for something else; choose another name")


class Names:
    """A set of names of one sort, each standing for one thing."""

    def __init__(self, sort):
        self.sort, self.things, self.spelled, self.rows = sort, {}, {}, {}

    def add(self, row, column, thing):
        """Takes the name in a cell for a thing; a fault if it is taken."""
        name = row.needed(column)
        check_name(row, column, name, self.sort)
        if key(name) in self.things:
            raise row.fault(column, self.taken(name))
        self.things[key(name)], self.spelled[key(name)], self.rows[key(name)] = thing, name, row
        return name

    def taken(self, name):
        """Where else a name stands, and how it is spelled there."""
        other, spelled = self.rows[key(name)], self.spelled[key(name)]
        unlike = f" ('{spelled}')" if spelled != name else ""
        return f"'{name}' stands twice: here and in {other.file}, row {other.number}{unlike}"

    def get(self, name):
        return self.things.get(key(name))

    def find(self, row, column, name, what=None):
        """What a name stands for; a fault with a likely name if there is none."""
        if key(name) in self.things:
            return self.things[key(name)]
        hint = likely(name, self.spelled.values())
        raise row.fault(column, f"there is no {what or self.sort} called '{name}'{hint}")
