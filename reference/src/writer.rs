//! The writer of configuration files (request N1): questions 3, 5 and 6, put to a configuration in memory that may hold
//! anything, and then its file, put into an area.

use crate::limits::{
    FIRST_EDITION, LAST_EDITION, MAX_DEVICES, MAX_DRIVERS, MAX_ENTRIES, MAX_OBJECTS, MAX_SERIAL, MAX_VALUES,
    SERIALS_FROM,
};
use crate::memory::{ENTRY_BYTES, Memory};
use crate::varint;

/// Kinds of objects that the questions tell from the others.
const TRANSFER: u8 = 1;
const HARDCODED: u8 = 4;

/// Owner classes.
const EXTERNAL: u8 = 0;
const BY_DRIVER: u8 = 1;
const BY_DEVICE: u8 = 2;

/// Modes of entries.
const READ: u8 = 1;
const WRITE: u8 = 2;
const BOTH: u8 = 3;

/// The writer's answer.
#[derive(Clone, Copy, Debug, PartialEq, Eq)]
pub enum Written {
    /// The file stands at the start of the area and has this length.
    Length(usize),
    /// The first of the questions that was answered with no.
    Refused(u8),
    /// The area is too short: the file has this length.
    Short(usize),
}

/// The kinds of an answer that is one number.
const KIND_DONE: u64 = 0;
const KIND_REFUSED: u64 = 1;
const KIND_SHORT: u64 = 2;

/// The answer as one number: its kind times 2^32, and what it tells.
pub fn coded(written: Written) -> u64 {
    let (kind, number) = match written {
        Written::Length(length) => (KIND_DONE, length as u64),
        Written::Refused(question) => (KIND_REFUSED, u64::from(question)),
        Written::Short(length) => (KIND_SHORT, length as u64),
    };
    (kind << 32) + number
}

/// Puts the file of a configuration at the start of an area. All other bytes of the area stay, and at any answer but a
/// length the whole area does.
pub fn write(memory: &Memory, area: &mut [u8]) -> Written {
    if let Some(question) = refusal(memory) {
        return Written::Refused(question);
    }
    let file = file(memory);
    match area.get_mut(..file.len()) {
        Some(start) => {
            start.copy_from_slice(&file);
            Written::Length(file.len())
        }
        None => Written::Short(file.len()),
    }
}

/// A question, answered with yes or no.
type Question = fn(&Memory) -> bool;

/// Each is put to the whole configuration before the next.
const QUESTIONS: [(u8, Question); 3] = [(3, fields_fit), (5, hardcoded_owners_fit), (6, hardcoded_values_fit)];

/// The first question that is answered with no.
fn refusal(memory: &Memory) -> Option<u8> {
    QUESTIONS.into_iter().find(|(_, question)| !question(memory)).map(|(number, _)| number)
}

/// The file's bytes in the configuration's own edition, for one that question 3 has passed.
fn file(memory: &Memory) -> Vec<u8> {
    let mut out = Vec::new();
    let mut put = |number: u32| varint::write(number as usize, &mut out);
    let counts = [memory.edition, memory.drivers, memory.devices, memory.objects, memory.values];
    counts.into_iter().for_each(|count| put(u32::from(count)));
    for object in objects(memory) {
        let parts = [memory.kind[object], memory.class[object], memory.owner[object]];
        parts.into_iter().for_each(|part| put(u32::from(part)));
    }
    for device in devices(memory) {
        put(u32::from(memory.hardcoded[device]));
        if has_serials(memory) {
            put(memory.serials[device]);
        }
    }
    for value in values(memory) {
        put(u32::from(memory.count[value]));
        memory.entries_of(value).flatten().for_each(|part| put(u32::from(part)));
    }
    out
}

/// Whether the configuration is of an edition that gives each device a serial (request N7).
fn has_serials(memory: &Memory) -> bool {
    usize::from(memory.edition) >= SERIALS_FROM
}

fn objects(memory: &Memory) -> impl Iterator<Item = usize> {
    1..=usize::from(memory.objects)
}

fn devices(memory: &Memory) -> impl Iterator<Item = usize> {
    1..=usize::from(memory.devices)
}

fn values(memory: &Memory) -> impl Iterator<Item = usize> {
    1..=usize::from(memory.values)
}

/// Question 3, for every field in the order of the file. Nothing is looked at behind a count that is out of range.
fn fields_fit(memory: &Memory) -> bool {
    counts_fit(memory)
        && objects(memory).all(|object| object_fits(memory, object))
        && devices(memory).all(|device| memory.hardcoded[device] <= memory.values && serial_fits(memory, device))
        && values(memory).all(|value| value_fits(memory, value))
}

/// A serial is at most the largest one, and 0 in an edition that has none.
fn serial_fits(memory: &Memory, device: usize) -> bool {
    memory.serials[device] as usize <= if has_serials(memory) { MAX_SERIAL } else { 0 }
}

fn counts_fit(memory: &Memory) -> bool {
    (FIRST_EDITION..=LAST_EDITION).contains(&usize::from(memory.edition))
        && usize::from(memory.drivers) <= MAX_DRIVERS
        && usize::from(memory.devices) <= MAX_DEVICES
        && usize::from(memory.objects) <= MAX_OBJECTS
        && usize::from(memory.values) <= MAX_VALUES
}

fn object_fits(memory: &Memory, object: usize) -> bool {
    let owner = memory.owner[object];
    let owner_fits = match memory.class[object] {
        EXTERNAL => owner == 0,
        BY_DRIVER => (1..=memory.drivers).contains(&owner),
        BY_DEVICE => (1..=memory.devices).contains(&owner),
        _ => false,
    };
    (TRANSFER..=HARDCODED).contains(&memory.kind[object]) && owner_fits
}

fn value_fits(memory: &Memory, value: usize) -> bool {
    usize::from(memory.count[value]) <= MAX_ENTRIES && memory.entries_of(value).all(|entry| entry_fits(memory, entry))
}

/// The stored value is at most K where a write puts one into an object of kind 1, and else 0.
fn entry_fits(memory: &Memory, [object, mode, stored]: [u8; ENTRY_BYTES]) -> bool {
    (1..=memory.objects).contains(&object)
        && match (mode, memory.kind[usize::from(object)]) {
            (WRITE | BOTH, TRANSFER) => stored <= memory.values,
            (READ | WRITE | BOTH, _) => stored == 0,
            _ => false,
        }
}

fn is_of_device(memory: &Memory, object: usize, device: usize) -> bool {
    memory.class[object] == BY_DEVICE && usize::from(memory.owner[object]) == device
}

/// Question 5: each device has exactly one kind 4 object, and each kind 4 object a device as owner.
fn hardcoded_owners_fit(memory: &Memory) -> bool {
    let hardcoded: Vec<usize> = objects(memory).filter(|object| memory.kind[*object] == HARDCODED).collect();
    let count = |device: usize| hardcoded.iter().filter(|object| is_of_device(memory, **object, device)).count();
    hardcoded.iter().all(|object| memory.class[*object] == BY_DEVICE)
        && devices(memory).all(|device| count(device) == 1)
}

/// Question 6: each hardcoded value names only its own device's objects, none of kind 4, by any mode.
fn hardcoded_values_fit(memory: &Memory) -> bool {
    devices(memory).all(|device| {
        memory.entries_of(usize::from(memory.hardcoded[device])).all(|[object, _, _]| {
            let object = usize::from(object);
            is_of_device(memory, object, device) && memory.kind[object] != HARDCODED
        })
    })
}
