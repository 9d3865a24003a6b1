"""The state area that a controller stores: taken apart into a book's state, looked at, and put together again.

How long it is goes by how many objects the line has, and by nothing else: `room`.
"""
from . import finding
from . import wording as w
from .book import NONE, State
from .visit import raw_words

STANDINGS = w.LIMITS["partitions"] + 1
DRIVERS_AT = STANDINGS
CARDS_AT = DRIVERS_AT + w.LIMITS["drivers"]
OBJECTS_AT = CARDS_AT + w.LIMITS["cards"]
BYTES_OF = {w.DRIVER: range(DRIVERS_AT, CARDS_AT), w.DEVICE: range(CARDS_AT, OBJECTS_AT)}
RECORD = 1 + w.CONTENT_BYTES
SMALL_ROOM, WIDE_ROOM = w.LIMITS["objects of a small line"], w.LIMITS["objects"]
# The standings of a partition. One that is destroyed no longer shows whether it was green.
NEVER, EXISTING, DESTROYED, GREEN = 0, 1, 2, 3
STANDING_WORDS = {NEVER: "never used", EXISTING: "there", DESTROYED: "destroyed", GREEN: "there as a green zone"}
# The lock bytes stand behind the object records, one for each card that there may be.
LOCK_BYTES = w.LIMITS["cards"]
OPEN, LOCKED = 0, 1
LOCK_WORDS = {False: "unlocked", True: "locked"}
# As the example controller stores an area: a mark, a digest of the line file, the area, a digest of all before. Areas
# of before there were locks end with the records, and were stored with the older mark.
MARK, OLDER_MARK = b"SGSTATE2", b"SGSTATE1"
DIGEST_BYTES = 8
WRAPPING = len(MARK) + 2 * DIGEST_BYTES
IN_AREA = "in the area"


class AreaError(Exception):
    """A file that is no state area of this line; each line says one fault."""


def digest(data):
    """FNV-1a of 64 bits, lowest byte first: the example controller's checksum."""
    total = 0xcbf29ce484222325
    for byte in data:
        total = (total ^ byte) * 0x100000001b3 % 2 ** 64
    return total.to_bytes(DIGEST_BYTES, "little")


def room(config):
    """How many object records the area of a line has, those of absent objects included."""
    return SMALL_ROOM if len(config.objects) <= SMALL_ROOM else WIDE_ROOM


def locks_at(records):
    """Where the lock bytes of an area of so many object records begin; an older area ends there."""
    return OBJECTS_AT + RECORD * records


def length_for(records):
    """How long an area of so many object records is."""
    return locks_at(records) + LOCK_BYTES


def other_length(config, count):
    """What is said of a file whose length is not that of the line's area; those of the other lines are known."""
    own = length_for(room(config))
    records, words = (WIDE_ROOM, "more than") if room(config) == SMALL_ROOM else (SMALL_ROOM, "at most")
    known = [length + more for length in (length_for(records), locks_at(records)) for more in (0, WRAPPING)]
    sort = f", as for a line of {words} {SMALL_ROOM} objects" if count in known else ""
    return (f"has {count:,} bytes{sort}; the state area of this line has {own:,}, and {own + WRAPPING:,} as the "
            "example controller stores it")


def is_older(config, data):
    """Whether a stored file has the length of one of before there were locks."""
    return len(data) in (locks_at(room(config)), locks_at(room(config)) + WRAPPING)


def unwrap(data, config, line):
    """The area in a stored file: the plain area, or one with the example controller's mark and checksums.

    One of before there were locks is taken with zeros for them: no padlock hangs in it.
    """
    length, older = length_for(room(config)), is_older(config, data)
    mark, wrapped = (OLDER_MARK, length - LOCK_BYTES + WRAPPING) if older else (MARK, length + WRAPPING)
    if len(data) == wrapped - WRAPPING:
        return data.ljust(length, b"\0")
    # One that was stored with locks is no older one, though it were cut to this length.
    if len(data) != wrapped or older and data.startswith(MARK):
        raise AreaError(other_length(config, len(data)))
    if not data.startswith(mark):
        raise AreaError(f"does not begin with {mark.decode()}, as the example controller stores it")
    body = data[len(mark):-DIGEST_BYTES]
    own, area = body[:DIGEST_BYTES] == digest(line), body[DIGEST_BYTES:].ljust(length, b"\0")
    if digest(data[:-DIGEST_BYTES]) != data[-DIGEST_BYTES:]:
        # It is not to be used, whatever is in it; but what shows of the damage may help.
        shown = take_area(config, area)[1] if own else []
        raise AreaError("\n".join(["is damaged: its checksum does not fit"] + shown))
    if not own:
        raise AreaError("was stored with another line file than these tables make")
    return area


def read_area(config, data):
    """The state in an area; AreaError with all that cannot be a state of this line."""
    state, faults = take_area(config, data)
    if faults:
        raise AreaError("\n".join(faults))
    return state


def take_area(config, data):
    """The state in an area, and the faults for which it can be none of this line.

    A fault in an object's record has the object's number behind the byte. The first of these is the record that the
    library's `gate_first_bad` names; stored cases hold the two together.
    """
    state, faults = State(), []
    for number in range(STANDINGS):
        if data[number] > GREEN or number == NONE and data[number]:
            faults.append(f"byte {number}: {data[number]} is no standing of a partition")
        elif data[number]:
            state.created[number] = IN_AREA
            if data[number] == DESTROYED:
                state.destroyed[number] = IN_AREA
            elif data[number] == GREEN:
                state.green[number] = IN_AREA
    state.drivers = places(config, state, data, w.DRIVER, faults)
    state.devices = places(config, state, data, w.DEVICE, faults)
    for number in range(1, room(config) + 1):
        at = OBJECTS_AT + RECORD * (number - 1)
        take_object(config, state, number, data[at:at + RECORD], at, faults)
    take_locks(config, state, data, faults)
    return state, faults


def places(config, state, data, owner_class, faults):
    """The partitions of drivers or cards."""
    found, crew = {}, config.drivers if owner_class == w.DRIVER else config.devices
    for number, at in enumerate(BYTES_OF[owner_class], 1):
        if number in crew:
            found[number] = data[at]
            check_place(config, state, data[at], f"byte {at}: {config.actor(owner_class, number)}", faults)
        elif data[at]:
            faults.append(f"byte {at}: the tables have no {w.OWNERS[owner_class]} {number}, and the area has it "
                          f"{finding.place(config, data[at])}")
    return found


def check_place(config, state, place, what, faults):
    if place and not state.exists(place):
        faults.append(f"{what} is in {config.full_partition(place)}, which does not exist in the area")


def take_object(config, state, number, record, at, faults):
    """An object's partition and contents, which must fit its owner and its kind."""
    spot, inside = f"byte {at}, object {number}:", f"byte {at + 1}, object {number}:"
    if number not in config.objects:
        if any(record):
            faults.append(f"{spot} the tables have no such object, and the area has something there")
        return
    one, place, raw = config.objects[number], record[0], record[1:]
    state.objects[number] = place
    check_place(config, state, place, f"{spot} {config.describe(number)}", faults)
    home = state.actor(one.owner_class, one.owner)
    if one.owner_class != w.EXTERNAL and place != home:
        faults.append(f"{spot} {config.describe(number)} is {finding.place(config, place)}, and "
                      f"{config.actor(one.owner_class, one.owner)} is {finding.place(config, home)}")
    if not config.is_descriptor(number):
        state.contents[number] = raw
        return
    state.contents[number] = raw[0]
    if raw[0] > len(config.values) or any(raw[1:]):
        faults.append(f"{inside} what {config.describe(number)} holds is no value of the tables")
    elif one.kind == w.HARDCODED and one.owner in config.devices and raw[0] != config.devices[one.owner].hardcoded:
        faults.append(f"{inside} {config.describe(number)} holds '{config.value(raw[0])}', and by cards.csv "
                      f"'{config.value(config.devices[one.owner].hardcoded)}'")


def take_locks(config, state, data, faults):
    """The cards on which a padlock hangs: cards of the line, in no partition."""
    for number, at in enumerate(range(locks_at(room(config)), len(data)), 1):
        name, place = config.actor(w.DEVICE, number), state.devices.get(number, NONE)
        if number not in config.devices and data[at]:
            faults.append(f"byte {at}: the tables have no {w.OWNERS[w.DEVICE]} {number}, and the area has a lock of it")
        elif data[at] not in (OPEN, LOCKED):
            faults.append(f"byte {at}: {data[at]} is no lock of {name}")
        elif data[at] == LOCKED and place:
            faults.append(f"byte {at}: {name} is locked, and is {finding.place(config, place)}")
        elif data[at] == LOCKED:
            state.locked[number] = IN_AREA


def standing_of(state, number):
    """The standing byte of a partition."""
    if number not in state.created:
        return NEVER
    return DESTROYED if number in state.destroyed else GREEN if state.is_green(number) else EXISTING


def area_bytes(config, state):
    """The area of a state, in the layout of document 01."""
    data = bytearray(length_for(room(config)))
    for number in state.created:
        data[number] = standing_of(state, number)
    for start, where in ((DRIVERS_AT, state.drivers), (CARDS_AT, state.devices)):
        for number, place in where.items():
            data[start + number - 1] = place
    for number, content in state.contents.items():
        at = OBJECTS_AT + RECORD * (number - 1)
        raw = bytes([content]) if config.is_descriptor(number) else content
        data[at:at + 1 + len(raw)] = bytes([state.objects[number]]) + raw
    for number in state.locked:
        data[locks_at(room(config)) + number - 1] = LOCKED
    return bytes(data)


def content_words(config, number, content):
    """What an object holds, in words."""
    if config.is_descriptor(number):
        return f"'{config.value(content)}'" if content else w.CLEARED
    return raw_words(content)


def differences(config, wanted, made):
    """What is another in two states, in words: how it is in the first, and in the second."""
    found = [(config.full_partition(n), *(STANDING_WORDS[standing_of(state, n)] for state in (wanted, made)))
             for n in range(1, STANDINGS)]
    for owner_class in (w.DRIVER, w.DEVICE):
        crew = wanted.drivers if owner_class == w.DRIVER else wanted.devices
        found += [(config.actor(owner_class, n),
                   *(finding.place(config, state.actor(owner_class, n)) for state in (wanted, made))) for n in crew]
    found += [(config.actor(w.DEVICE, n), *(LOCK_WORDS[n in state.locked] for state in (wanted, made)))
              for n in wanted.devices]
    for n, one in config.objects.items():
        if one.owner_class == w.EXTERNAL:
            found.append((config.describe(n),
                          *(finding.place(config, state.objects[n]) for state in (wanted, made))))
        found.append((f"what {config.describe(n)} holds",
                      *(content_words(config, n, state.contents[n]) for state in (wanted, made))))
    return [f"{what}: {first}, and not {second}" for what, first, second in found if first != second]
