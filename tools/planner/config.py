"""A configuration (document 01: line) with its names, as the tables tell it; numbers are places there, from 1."""
from dataclasses import dataclass, field

from . import wording as w


@dataclass(frozen=True)
class Device:
    """A device (document 01: card): the value number of its hardcoded (hard-wired) descriptor, and its serial.

    Serial 0 is none that is known.
    """
    name: str
    hardcoded: int
    serial: int = 0


@dataclass(frozen=True)
class Object:
    """An object: its kind, and its owner as a class and a number."""
    name: str
    kind: int
    owner_class: int
    owner: int


@dataclass(frozen=True)
class Entry:
    """A transfer entry: an object, a mode and the value stored (document 01: put value)."""
    object: int
    mode: int
    stored: int

    @property
    def reads(self):
        return self.mode in (w.READ, w.BOTH)

    @property
    def writes(self):
        return self.mode in (w.WRITE, w.BOTH)


@dataclass(frozen=True)
class Value:
    """A descriptor value: a list of entries."""
    name: str
    entries: tuple


@dataclass
class Config:
    """Everything by number: drivers' names, devices, objects, values, and the partitions that have a name."""
    drivers: dict = field(default_factory=dict)
    devices: dict = field(default_factory=dict)
    objects: dict = field(default_factory=dict)
    values: dict = field(default_factory=dict)
    partitions: dict = field(default_factory=dict)

    @property
    def edition(self):
        """The edition of its line file: the first unless it has serials, so that plans without any keep their bytes."""
        return w.SERIAL_EDITION if any(device.serial for device in self.devices.values()) else w.PLAIN_EDITION

    def entries(self, value):
        """The entries of a value; value 0 has none."""
        return self.values[value].entries if value in self.values else ()

    def is_descriptor(self, number):
        return number in self.objects and self.objects[number].kind in w.DESCRIPTORS

    def owned(self, owner_class, owner):
        """The objects that a driver or device owns."""
        return [n for n, one in self.objects.items() if (one.owner_class, one.owner) == (owner_class, owner)]

    def holder(self, number):
        """With whom an object comes and goes: its owner's class and number, or an external object's own number."""
        one = self.objects[number]
        return (one.owner_class, number if one.owner_class == w.EXTERNAL else one.owner)

    def holder_words(self, number):
        """The same in words: 'card Scale', 'Barcode table'."""
        owner_class, owner = self.holder(number)
        return self.object(owner) if owner_class == w.EXTERNAL else self.actor(owner_class, owner)

    def hardcoded_object(self, device):
        """The device's hardcoded descriptor."""
        return next(n for n in self.owned(w.DEVICE, device) if self.objects[n].kind == w.HARDCODED)

    def driver(self, number):
        return self.drivers.get(number, f"#{number}")

    def device(self, number):
        return self.devices[number].name if number in self.devices else f"#{number}"

    def object(self, number):
        return self.objects[number].name if number in self.objects else f"#{number}"

    def value(self, number):
        if number == 0:
            return w.CLEARED
        return self.values[number].name if number in self.values else f"#{number}"

    def partition(self, number):
        """A partition's name; without one it is called by its number: 'partition 3'."""
        return self.partitions.get(number, f"partition {number}")

    def full_partition(self, number):
        """A partition with the word before its name: 'partition Live loop', 'partition 3'."""
        return f"partition {self.partitions.get(number, number)}"

    def serial(self, owner_class, number):
        """A card's serial in words, 'serial 70000'; nothing where none is known, and for who is no card."""
        known = owner_class == w.DEVICE and number in self.devices and self.devices[number].serial
        return f"serial {known}" if known else ""

    def actor(self, owner_class, number):
        """A driver or device with its class: 'card Scale'."""
        return f"{w.OWNERS[owner_class]} {self.driver(number) if owner_class == w.DRIVER else self.device(number)}"

    def describe(self, number):
        """An object with its owner: 'Weight record (data of card Scale)'."""
        if number not in self.objects:
            return f"object #{number}"
        one = self.objects[number]
        kind = w.KINDS[one.kind]
        if one.owner_class == w.EXTERNAL:
            return f"{one.name} (external {kind})"
        return f"{one.name} ({kind} of {self.actor(one.owner_class, one.owner)})"
