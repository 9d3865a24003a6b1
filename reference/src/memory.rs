//! A configuration in memory (document 01: line), as the writer is given it: its edition, counts, and columns of bytes
//! and of serials, which may hold anything, also what no file gives. Number n stands at place n of its column. Place 0
//! names nothing, nor do places past the counts, nor entries past a value's count.

use crate::config::Config;
use crate::limits::{FIRST_EDITION, MAX_DEVICES, MAX_ENTRIES, MAX_OBJECTS, MAX_VALUES, SMALL_ROOM};

/// The numbers 1 to the most there can be, and place 0.
pub const OBJECT_PLACES: usize = MAX_OBJECTS + 1;
/// The places that small configurations use.
pub const SMALL_OBJECT_PLACES: usize = SMALL_ROOM + 1;
pub const DEVICE_PLACES: usize = MAX_DEVICES + 1;
pub const VALUE_PLACES: usize = MAX_VALUES + 1;

/// An entry's object, mode and stored value stand side by side.
pub const ENTRY_BYTES: usize = 3;
/// The last entry of the last value ends the column.
pub const ENTRIES_BYTES: usize = ENTRY_BYTES * (MAX_ENTRIES * VALUE_PLACES + 1);

pub const COUNTS: usize = 4;
/// Kind, class and owner.
pub const OBJECT_COLUMNS: usize = 3;
/// A serial has four bytes, the lowest first. The edition and the serials stand before the counts.
pub const SERIAL_BYTES: usize = 4;
pub const HEAD_BYTES: usize = 1 + SERIAL_BYTES * DEVICE_PLACES;
/// All of it as a row of bytes.
pub const MEMORY_BYTES: usize = HEAD_BYTES + row_bytes(OBJECT_PLACES);

/// A row of bytes without edition and serials, in which each column for objects has so many places: the counts, these
/// columns, one for devices, one for values, and the entries.
const fn row_bytes(places: usize) -> usize {
    COUNTS + OBJECT_COLUMNS * places + DEVICE_PLACES + VALUE_PLACES + ENTRIES_BYTES
}

#[derive(Clone, Debug, PartialEq, Eq)]
pub struct Memory {
    pub edition: u8,
    /// The serial of each device.
    pub serials: [u32; DEVICE_PLACES],
    /// D, V, N and K.
    pub drivers: u8,
    pub devices: u8,
    pub objects: u8,
    pub values: u8,
    pub kind: [u8; OBJECT_PLACES],
    pub class: [u8; OBJECT_PLACES],
    pub owner: [u8; OBJECT_PLACES],
    /// The value number of each device's hardcoded descriptor.
    pub hardcoded: [u8; DEVICE_PLACES],
    /// How many entries each value has.
    pub count: [u8; VALUE_PLACES],
    pub entries: [u8; ENTRIES_BYTES],
}

/// Where entry j, from 1, of a value begins.
pub fn entry_place(value: usize, entry: usize) -> usize {
    ENTRY_BYTES * (MAX_ENTRIES * value + entry)
}

impl Memory {
    /// A loaded configuration; what names nothing is 0.
    pub fn of(config: &Config) -> Memory {
        let mut memory = Memory::empty();
        memory.edition = config.edition as u8;
        memory.drivers = config.drivers as u8;
        memory.devices = config.devices() as u8;
        memory.objects = config.objects.len() as u8;
        memory.values = config.values.len() as u8;
        for (place, object) in (1..).zip(&config.objects) {
            let (class, owner) = object.owner.numbers();
            memory.kind[place] = object.kind.number() as u8;
            memory.class[place] = class as u8;
            memory.owner[place] = owner as u8;
        }
        for (place, value) in (1..).zip(&config.hardcoded) {
            memory.hardcoded[place] = *value as u8;
        }
        for (place, serial) in (1..).zip(&config.serials) {
            memory.serials[place] = *serial as u32;
        }
        for (value, entries) in (1..).zip(&config.values) {
            memory.count[value] = entries.len() as u8;
            for (place, entry) in (1..).zip(entries) {
                memory.set_entry(value, place, [entry.object as u8, entry.mode as u8, entry.stored as u8]);
            }
        }
        memory
    }

    /// Nothing at all, in the first edition.
    pub fn empty() -> Memory {
        Memory { edition: FIRST_EDITION as u8, ..Memory::filled(|| 0) }
    }

    /// A memory of these bytes, one after the other in the order of the fields.
    pub fn filled(mut next: impl FnMut() -> u8) -> Memory {
        Memory {
            edition: next(),
            serials: std::array::from_fn(|_| u32::from_le_bytes(std::array::from_fn(|_| next()))),
            drivers: next(),
            devices: next(),
            objects: next(),
            values: next(),
            kind: std::array::from_fn(|_| next()),
            class: std::array::from_fn(|_| next()),
            owner: std::array::from_fn(|_| next()),
            hardcoded: std::array::from_fn(|_| next()),
            count: std::array::from_fn(|_| next()),
            entries: std::array::from_fn(|_| next()),
        }
    }

    /// The same from a row of bytes: those missing at its end are 0, and a longer row is none.
    pub fn from_bytes(bytes: &[u8]) -> Option<Memory> {
        let mut next = bytes.iter().copied();
        (bytes.len() <= MEMORY_BYTES).then(|| Memory::filled(|| next.next().unwrap_or(0)))
    }

    /// The same from a row without edition and serials, in which the columns for objects have so many places: the first
    /// edition, with no serials. The places behind the columns are 0.
    pub fn from_row(bytes: &[u8], places: usize) -> Option<Memory> {
        if bytes.len() > row_bytes(places) {
            return None;
        }
        let mut row = bytes.to_vec();
        row.resize(row_bytes(places), 0);
        let (counts, rest) = row.split_at(COUNTS);
        let (columns, rest) = rest.split_at(OBJECT_COLUMNS * places);
        let behind = [0; OBJECT_PLACES];
        let columns: Vec<u8> = columns.chunks(places).flat_map(|column| [column, &behind[places..]].concat()).collect();
        let head = &Memory::empty().to_bytes()[..HEAD_BYTES];
        Memory::from_bytes(&[head, counts, &columns, rest].concat())
    }

    pub fn to_bytes(&self) -> Vec<u8> {
        let serials: Vec<u8> = self.serials.iter().flat_map(|serial| serial.to_le_bytes()).collect();
        [&[self.edition][..], &serials, &self.to_row(OBJECT_PLACES)].concat()
    }

    /// The row without edition and serials in which the columns for objects are cut to so many places.
    pub fn to_row(&self, places: usize) -> Vec<u8> {
        let counts = [self.drivers, self.devices, self.objects, self.values];
        let of_objects = [&self.kind[..places], &self.class[..places], &self.owner[..places]].concat();
        [&counts[..], &of_objects, &self.hardcoded, &self.count, &self.entries].concat()
    }

    /// Object, mode and stored value of entry j, from 1, of a value.
    pub fn entry(&self, value: usize, entry: usize) -> [u8; ENTRY_BYTES] {
        std::array::from_fn(|part| self.entries[entry_place(value, entry) + part])
    }

    pub fn set_entry(&mut self, value: usize, entry: usize, parts: [u8; ENTRY_BYTES]) {
        let place = entry_place(value, entry);
        self.entries[place..place + ENTRY_BYTES].copy_from_slice(&parts);
    }

    /// The entries of a value, for a count in range. Value 0 has none, whatever stands at place 0.
    pub fn entries_of(&self, value: usize) -> impl Iterator<Item = [u8; ENTRY_BYTES]> {
        let count = if value == 0 { 0 } else { usize::from(self.count[value]) };
        (1..=count).map(move |entry| self.entry(value, entry))
    }
}
