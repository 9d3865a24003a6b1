#!/usr/bin/env python3
"""Writes the examples of docs/QUESTIONS.md: for each question NN a folder with the bytes that it refuses.

    examples/questions/make.py            write the folders
    examples/questions/make.py --check    fail if what is stored differs, or a file is there that is not made here

All are over file L of document 01: two drivers, two cards, six objects, five values. Object 1 is card 1's hard-wired
descriptor (value 1: read object 2), object 2 its transfer descriptor; 3 and 4 are card 2's (value 2: read object 4); 5
is external data, 6 is data of driver 1. Value 3 writes object 5; value 4 puts value 3 into object 4; value 5 puts value
4 into object 2. Every number of these examples is below 128, so that a number is one byte, but for two that are written
out below. Examples 1 to 6 and 21 have a line of their own: L with a change.
"""
import pathlib
import sys

HOME = pathlib.Path(__file__).resolve().parent
# The state area of L and of every line of at most 96 objects; that of a longer line; the least answer area.
STATE_BYTES, STATE_BYTES_WIDE, ANSWER_BYTES = 1744, 3376, 128
# Where the state area has the contents of object 1.
FIRST_CONTENT = 64 + 16 + 16 + 1

# File L: counts; objects (kind, owner class, owner); hard-wired values; values of one entry.
L = (HOME.parents[1] / "crates" / "office" / "data" / "line.bin").read_bytes()
COUNTS, HARDWIRED = list(L[:5]), list(L[23:25])
OBJECTS = [list(L[at:at + 3]) for at in range(5, 23, 3)]
VALUES = [list(L[at:at + 4]) for at in range(25, 45, 4)]


def line(counts=None, objects=None, hardwired=None, values=None):
    """File L, with a group replaced."""
    return bytes(sum([counts or COUNTS, *(objects or OBJECTS), hardwired or HARDWIRED, *(values or VALUES)], []))


def session(*records):
    """Each record after its length."""
    return b"".join(bytes([len(r), *r]) for r in records)


def fresh(length=STATE_BYTES):
    """The fresh state of L: all 0 but the value numbers of objects 1 and 3; of another length, what would be one."""
    area = bytearray(length)
    area[FIRST_CONTENT], area[FIRST_CONTENT + 2 * 17] = HARDWIRED
    return area


# 70,000 in three bytes, and 2,097,152, the least number that has four.
LARGE, FOUR_BYTES = [240, 162, 4], [128, 128, 128, 1]
# File L with a ring: value 1 reads and writes object 2, card 1's own, and puts value 3 there.
RING = line(values=[[1, 2, 3, 3]] + VALUES[1:])
CREATE_1, CREATE_2, DESTROY_1, GREEN_1, LOCK_1 = [5, 1], [5, 2], [6, 1], [13, 1], [14, 1]
DRIVER_1_IN, CARD_1_IN, CARD_2_IN, OBJECT_5_IN = [7, 1, 1], [8, 1, 1], [8, 2, 2], [9, 1, 1, 5]
READY = [CREATE_1, CREATE_2, DRIVER_1_IN, CARD_1_IN, CARD_2_IN, OBJECT_5_IN]
LINES = {
    1: (L[:-1], "file L without its last byte: the last number is missing"),
    2: (bytes([1, *FOUR_BYTES]) + L[2:], "file L, but its count of drivers is 2,097,152, which takes four bytes"),
    3: (bytes([3]) + L[1:], "file L, but of edition 3, and there are 1 and 2"),
    4: (L + bytes([0]), "file L and one byte more"),
    5: (line(objects=OBJECTS[:2] + [[3, 2, 2]] + OBJECTS[3:]), "file L, but object 3 is data: card 2 has no hard-wired "
        "descriptor"),
    6: (line(hardwired=[2, 2]), "file L, but card 1's hard-wired value is 2, which names object 4 of card 2"),
}
CALLS = {
    7: (fresh(STATE_BYTES_WIDE), ANSWER_BYTES, f"a state area of {STATE_BYTES_WIDE:,} bytes, which a line of over 96 "
        f"objects needs; L has six, and needs {STATE_BYTES:,}"),
    8: (fresh(), ANSWER_BYTES - 1, "an answer area of 127 bytes"),
    9: (fresh(), ANSWER_BYTES, "a state area of another line: card 1's hard-wired descriptor holds 2, in L it is 1"),
}
CALLS[9][0][FIRST_CONTENT] = 2
SESSIONS = {
    10: ([CREATE_1, DRIVER_1_IN, [1, 1, *LARGE, 2, 0, 3]], "driver 1 writes 70,000 items, and a count is at most 8"),
    11: ([CREATE_1, [5, *LARGE]], "partition 70,000 is created, and the last one is 63"),
    12: ([CREATE_1, [9, 1, 2, 5, 5]], "object 5 is listed twice"),
    13: ([CREATE_1, DRIVER_1_IN, CARD_1_IN, [1, 1, 1, 1, 0, 0]], "driver 1 writes object 1, a hard-wired descriptor"),
    14: ([CREATE_1, DESTROY_1, CREATE_1], "partition 1 is created again after it was destroyed"),
    15: ([CREATE_1, CARD_1_IN, DESTROY_1], "partition 1 is destroyed with card 1 in it"),
    16: ([CREATE_1, CREATE_2, CARD_1_IN, [8, 1, 2]], "card 1 is brought into partition 2 and was not taken out of 1"),
    17: ([CREATE_1, CREATE_2, DRIVER_1_IN, CARD_2_IN, [1, 1, 1, 4, 0, 0]], "driver 1, in partition 1, clears object 4, "
         "which is in 2"),
    18: ([CREATE_1, CARD_1_IN, OBJECT_5_IN, [2, 1, 1, 5, 1] + [7] * 16], "card 1 writes object 5 before a descriptor "
         "tells it to"),
    19: (READY + [[1, 1, 1, 2, 0, 5]], "driver 1 writes value 5 to object 2: it would put value 4 there, which writes "
         "object 4 of partition 2"),
    20: (READY + [[1, 1, 1, 2, 0, 3], [12, 1, 1, 5]], "object 5 is taken out while card 1's descriptor writes it"),
    21: ([CREATE_1, CARD_1_IN], "file L, but value 1 reads and writes object 2 and puts value 3 there: card 1 is "
         "brought in before object 5, which value 3 writes"),
    22: ([GREEN_1, DRIVER_1_IN, CARD_1_IN, [1, 1, 1, 2, 0, 5]], "driver 1 writes value 5 to object 2 in a green zone: "
         "it puts value 4 into object 2, and no value there may write a transfer descriptor"),
    23: ([CREATE_1, LOCK_1, CARD_1_IN], "card 1 is brought in while its padlock hangs"),
}
# The lines of sessions that are not over L.
SESSION_LINES = {21: RING}


def files():
    """Every file, by its path from here."""
    made = {}
    for number, (data, text) in LINES.items():
        made[number] = {"line.bin": data, "session.bin": session(CREATE_1)}, text
    for number, (state, room, text) in CALLS.items():
        made[number] = {"line.bin": L, "state.bin": bytes(state), "record.bin": bytes(CREATE_1),
                        "answer.bin": bytes(room)}, text
    for number, (records, text) in SESSIONS.items():
        made[number] = {"line.bin": SESSION_LINES.get(number, L), "session.bin": session(*records)}, text
    return {f"{number:02}/{name}": data for number, (folder, text) in made.items()
            for name, data in {**folder, "README": f"Question {number}: {text}.\n".encode()}.items()}


def main():
    made = files()
    if sys.argv[1:] == ["--check"]:
        stored = {str(path.relative_to(HOME)): path.read_bytes() for path in HOME.glob("[0-9][0-9]/*")}
        wrong = sorted(name for name in made.keys() | stored.keys() if made.get(name) != stored.get(name))
        if wrong:
            sys.exit(f"examples/questions: not what make.py makes: {', '.join(wrong)}")
    elif sys.argv[1:]:
        sys.exit("examples/questions/make.py [--check]")
    else:
        for name, data in made.items():
            path = HOME / name
            path.parent.mkdir(exist_ok=True)
            path.write_bytes(data)
    print(f"questions: {len(made)} files in {len({name[:2] for name in made})} folders")


if __name__ == "__main__":
    main()
