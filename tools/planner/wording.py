"""The papers' numbers as data: operation codes, questions, kinds, modes and limits, with the planner's words for each.

The rows between `begin` and `end` are made from the repository's tables: a new code, question or limit is a row there.
Nothing in this module judges anything.
"""
from dataclasses import dataclass

TRANSFER, FUNCTION, DATA, HARDCODED = 1, 2, 3, 4
KINDS = {TRANSFER: "transfer descriptor", FUNCTION: "function descriptor", DATA: "data",
         HARDCODED: "hard-wired descriptor"}
DESCRIPTORS = (TRANSFER, HARDCODED)

EXTERNAL, DRIVER, DEVICE = 0, 1, 2
OWNERS = {EXTERNAL: "external", DRIVER: "driver", DEVICE: "card"}

READ, WRITE, BOTH = 1, 2, 3
MODES = {READ: "read", WRITE: "write", BOTH: "both"}
MODE_VERBS = {READ: "reads", WRITE: "writes", BOTH: "reads and writes"}

CLEARED = "cleared"
CONTENT_BYTES = 16
VALUE_FORM, RAW_FORM = 0, 1
# The editions of line.bin: the first, and the one in which each card's serial stands.
EDITIONS = PLAIN_EDITION, SERIAL_EDITION = 1, 2
ACCEPTED = 0

# begin limits: made by tests/tables from tables/numbers.ini
LIMITS = {
    "drivers": 16,
    "cards": 16,
    "objects": 192,
    "objects of a small line": 96,
    "values": 47,
    "entries of a value": 6,
    "items of a move": 8,
    "bytes of line.bin": 4096,
    "bytes of session.bin": 32768,
    "partitions": 63,
    "a number": 2097151,
}
# end limits


@dataclass(frozen=True)
class Code:
    """An operation: its number, the word in visit.csv, who acts, the record's fields in order, and a sentence."""
    number: int
    verb: str
    actor: int
    fields: tuple
    sentence: str


# Fields: "who" a driver or card, "where" a partition, and one of three lists in the column `what`:
# "items" (object = contents), "pairs" (source -> destination), "objects" (names).
NOBODY = EXTERNAL
# begin codes: made by tests/tables from tables/codes.ini
CODES = {code.number: code for code in (
    Code(1, "write", DRIVER, ("who", "items"), "driver {who} writes {what}"),
    Code(2, "write", DEVICE, ("who", "items"), "card {who} writes {what}"),
    Code(3, "read", DRIVER, ("who", "pairs"), "driver {who} reads {what}"),
    Code(4, "read", DEVICE, ("who", "pairs"), "card {who} reads {what}"),
    Code(5, "create", NOBODY, ("where",), "create {partition}"),
    Code(6, "destroy", NOBODY, ("where",), "destroy {partition}"),
    Code(7, "activate", DRIVER, ("who", "where"), "activate driver {who} in {where}"),
    Code(8, "activate", DEVICE, ("who", "where"), "activate card {who} in {where}"),
    Code(9, "activate", NOBODY, ("where", "objects"), "activate in {where}: {what}"),
    Code(10, "deactivate", DRIVER, ("who",), "deactivate driver {who}"),
    Code(11, "deactivate", DEVICE, ("who",), "deactivate card {who}"),
    Code(12, "deactivate", NOBODY, ("where", "objects"), "deactivate from {where}: {what}"),
    Code(13, "create green", NOBODY, ("where",), "create green {partition}"),
    Code(14, "lock", DEVICE, ("who",), "lock card {who}"),
    Code(15, "unlock", DEVICE, ("who",), "unlock card {who}"),
)}
# end codes


def codes_that(verb):
    """The codes of a verb."""
    return {code.number for code in CODES.values() if code.verb == verb}


def verbs():
    """The words of the column `operation`; those that begin alike stand side by side."""
    words = list(dict.fromkeys(code.verb for code in CODES.values()))
    first = [word.partition(" ")[0] for word in words]
    return sorted(words, key=lambda word: (first.index(word.partition(" ")[0]), word))


WRITES, READS = codes_that("write"), codes_that("read")
# Green zones are created by a code of their own, and destroyed like any other.
GREENS = codes_that("create green")
CREATES, DESTROYS = codes_that("create") | GREENS, codes_that("destroy")
ACTIVATES, DEACTIVATES = codes_that("activate"), codes_that("deactivate")
LOCKS, UNLOCKS = codes_that("lock"), codes_that("unlock")
# What these bring in, lock or unlock must be in no partition; whoever acts or leaves by another code must be in one.
OF_INACTIVE = ACTIVATES | LOCKS | UNLOCKS
LISTS = ("items", "pairs", "objects")

# Of the line file (1 to 6), of the calls' areas (7 to 9, which the office program never gets wrong), of a move (from
# 10). Each is worded so that 'no' is the refusal.
# begin questions: made by tests/tables from tables/questions.ini
QUESTIONS = {
    1: "Is every number of line.bin complete?",
    2: "Is every number of line.bin well written?",
    3: "Is every number of the line in its range?",
    4: "Is line.bin used to its last byte?",
    5: "Has each card exactly one hard-wired descriptor, and each hard-wired descriptor a card as owner?",
    6: "Does each hard-wired value name only its own card's objects, none hard-wired?",
    7: "Has the state area the length that the line needs?",
    8: "Is the answer area long enough?",
    9: "Is the state well formed?",
    10: "Can the move be read to its end?",
    11: "Does everything named exist?",
    12: "Is everything named only once?",
    13: "Do the kinds of the objects fit the move?",
    14: "Does the partition exist?",
    15: "Is the partition empty?",
    16: "Is whoever acts or leaves active?",
    17: "Are all objects in the driver's partition?",
    18: "Is each transfer described now, in a descriptor that the card reads?",
    19: "With this done, is every card kept inside its partition?",
    20: "Is what leaves out of reach of every card that stays?",
    21: "With this card brought in, is every card kept inside its partition?",
    22: "Does each stored value keep to the green zone, name nothing hard-wired, and write no transfer descriptor?",
    23: "Is the card locked or unlocked as it must be?",
}
# Where a question is put in other words for some codes.
QUESTIONS_BY_CODE = {
    (14, 5): "Was the partition never used before?",
    (14, 13): "Was the partition never used before?",
    (16, 7): "Is what is brought in inactive?",
    (16, 8): "Is what is brought in inactive?",
    (16, 9): "Is what is brought in inactive?",
    (16, 14): "Is the card to be locked inactive?",
    (16, 15): "Is the card to be unlocked inactive?",
    (17, 12): "Are all objects in the partition named?",
    (22, 8): "Does the card's hard-wired value write no transfer descriptor, as a green zone asks?",
    (23, 8): "Is the card to be brought in free of a padlock?",
    (23, 14): "Is the card to be locked free of a padlock until now?",
    (23, 15): "Does a padlock hang on the card to be unlocked?",
}
# Where it is put in other words for what is in a green zone.
QUESTIONS_IN_GREEN = {
    20: "Is what leaves out of reach of cards that stay, and named by no descriptor that stays in the green zone?",
}
OUTSIDE = 19
IN_REACH = 20
ENTERS_OUTSIDE = 21
GREEN_RULE = 22
LOCKED = 23
# end questions
# The questions that are answered with no for a chain of descriptor writes; those put on the state that would follow.
# (For what leaves a green zone 20 is also answered with no without a chain: green.py has that, and 22.)
BY_CHAIN = (OUTSIDE, IN_REACH, ENTERS_OUTSIDE)
AFTERWARDS = (OUTSIDE, ENTERS_OUTSIDE)
FIRST_OF_TABLES = 5


def question(number, code=None, green=False):
    """The question of a number, or a plain word for a number that this table does not have yet.

    `green` is whether it is put to what is in a green zone.
    """
    plain = QUESTIONS.get(number, "(a question that this tool has no words for)")
    if green and number in QUESTIONS_IN_GREEN:
        return QUESTIONS_IN_GREEN[number]
    return QUESTIONS_BY_CODE.get((number, code), plain)
