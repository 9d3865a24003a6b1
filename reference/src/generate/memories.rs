//! Configurations in memory that no file gives: one field out of its range, for each field; faults of questions 5 and
//! 6; bytes changed anywhere; and any bytes in the places that name nothing. `cases` has all of these of one line.

use super::rng::Rng;
use crate::limits::{
    FIRST_EDITION, LAST_EDITION, MAX_DEVICES, MAX_DRIVERS, MAX_ENTRIES, MAX_OBJECTS, MAX_SERIAL, MAX_VALUES,
    SERIALS_FROM,
};
use crate::memory::{COUNTS, HEAD_BYTES, MEMORY_BYTES, Memory, entry_place};

/// The fields that question 3 is put to, in the order of the file.
#[derive(Clone, Copy, Debug, PartialEq, Eq)]
pub enum Field {
    Edition,
    Drivers,
    Devices,
    Objects,
    Values,
    Kind,
    Class,
    Owner,
    Hardcoded,
    Serial,
    Count,
    Object,
    Mode,
    Stored,
}

pub const FIELDS: [Field; 14] = [
    Field::Edition,
    Field::Drivers,
    Field::Devices,
    Field::Objects,
    Field::Values,
    Field::Kind,
    Field::Class,
    Field::Owner,
    Field::Hardcoded,
    Field::Serial,
    Field::Count,
    Field::Object,
    Field::Mode,
    Field::Stored,
];

/// A sound configuration with one field, at one of its places, out of range; nothing if the line has no such field.
pub fn broken(rng: &mut Rng, sound: &Memory, field: Field) -> Option<Memory> {
    let mut memory = sound.clone();
    match field {
        Field::Edition => memory.edition = none_or_above(rng, LAST_EDITION),
        Field::Drivers => memory.drivers = above(rng, MAX_DRIVERS),
        Field::Devices => memory.devices = above(rng, MAX_DEVICES),
        Field::Objects => memory.objects = above(rng, MAX_OBJECTS),
        Field::Values => memory.values = above(rng, MAX_VALUES),
        Field::Kind => memory.kind[one_of(rng, sound.objects)?] = none_or_above(rng, 4),
        Field::Class => memory.class[one_of(rng, sound.objects)?] = above(rng, 2),
        Field::Owner => {
            let object = one_of(rng, sound.objects)?;
            memory.owner[object] = match sound.class[object] {
                0 => above(rng, 0),
                1 => none_or_above(rng, usize::from(sound.drivers)),
                _ => none_or_above(rng, usize::from(sound.devices)),
            };
        }
        Field::Hardcoded => memory.hardcoded[one_of(rng, sound.devices)?] = above(rng, usize::from(sound.values)),
        Field::Serial => memory.serials[one_of(rng, sound.devices)?] = no_serial(rng, sound.edition),
        Field::Count => memory.count[one_of(rng, sound.values)?] = [7, 200, above(rng, MAX_ENTRIES)][rng.below(3)],
        Field::Object | Field::Mode | Field::Stored => break_entry(rng, &mut memory, field)?,
    }
    Some(memory)
}

fn break_entry(rng: &mut Rng, memory: &mut Memory, field: Field) -> Option<()> {
    let (value, entry) = rng.pick(&entries(memory))?;
    let [object, mode, _] = memory.entry(value, entry);
    let most_stored = if takes_value(memory, object, mode) { usize::from(memory.values) } else { 0 };
    let place = entry_place(value, entry);
    match field {
        Field::Object => memory.entries[place] = none_or_above(rng, usize::from(memory.objects)),
        Field::Mode => memory.entries[place + 1] = none_or_above(rng, 3),
        _ => memory.entries[place + 2] = above(rng, most_stored),
    }
    Some(())
}

/// Whether an entry stores a value: a write to an object of kind 1.
fn takes_value(memory: &Memory, object: u8, mode: u8) -> bool {
    memory.kind[usize::from(object)] == 1 && mode != 1
}

/// All entries of a configuration: their values and their places in these, from 1.
fn entries(memory: &Memory) -> Vec<(usize, usize)> {
    let of_value = |value: usize| (1..=usize::from(memory.count[value])).map(move |entry| (value, entry));
    (1..=usize::from(memory.values)).flat_map(of_value).collect()
}

/// A number from 1 to `count`, often the first or the last; nothing if there is none.
fn one_of(rng: &mut Rng, count: u8) -> Option<usize> {
    let last = usize::from(count);
    (last > 0).then(|| [1, last, rng.between(1, last)][rng.below(3)])
}

/// The next number, the largest byte, or one between them.
fn above(rng: &mut Rng, most: usize) -> u8 {
    [most + 1, 255, rng.between(most + 1, 255)][rng.below(3)] as u8
}

/// The same, or 0.
fn none_or_above(rng: &mut Rng, most: usize) -> u8 {
    if rng.percent(40) { 0 } else { above(rng, most) }
}

/// Serials above the limit: the next number, one whose lowest three bytes are 0, the largest, and others of which
/// something is in range if it is cut.
const TOO_LARGE: [u32; 6] =
    [MAX_SERIAL as u32 + 1, 1 << 24, u32::MAX, (1 << 24) + 1, MAX_SERIAL as u32 + 70_001, 1 << 31];

/// A serial that no device of this edition can have: one above the limit, or any in an edition that has none, also one
/// whose lowest bytes are 0.
fn no_serial(rng: &mut Rng, edition: u8) -> u32 {
    if usize::from(edition) < SERIALS_FROM && rng.percent(60) {
        return [1, 256, 1 << 16, MAX_SERIAL as u32, rng.between(1, MAX_SERIAL) as u32][rng.below(5)];
    }
    TOO_LARGE[rng.below(TOO_LARGE.len())]
}

/// The configuration with a fault that question 3, 5 or 6 refuses; nothing if the line has no room for one. A fault of
/// 5 or 6 leaves every field in its range, so that others can be added, one of 3 the last.
pub fn refused(rng: &mut Rng, memory: &Memory, question: u8) -> Option<Memory> {
    match question {
        3 => {
            let field = FIELDS[rng.below(FIELDS.len())];
            broken(rng, memory, field)
        }
        5 => break_owners(rng, memory),
        _ => break_hardcoded(rng, memory),
    }
}

/// A device with two kind 4 objects or none, or a kind 4 object of a driver or of nobody. Kind 1 is neither given nor
/// taken, so that stored values stay in range.
fn break_owners(rng: &mut Rng, memory: &Memory) -> Option<Memory> {
    let mut memory = memory.clone();
    let all = 1..=usize::from(memory.objects);
    let candidates: Vec<usize> = all.filter(|object| memory.kind[*object] != 1).collect();
    let object = rng.pick(&candidates)?;
    if memory.kind[object] != 4 {
        memory.kind[object] = 4;
        return Some(memory);
    }
    match rng.below(3) {
        0 => memory.kind[object] = [2, 3][rng.below(2)],
        1 if memory.devices > 1 => memory.owner[object] = memory.owner[object] % memory.devices + 1,
        _ => (memory.class[object], memory.owner[object]) = (0, 0),
    }
    Some(memory)
}

/// A hardcoded value with an entry that names what it may not.
fn break_hardcoded(rng: &mut Rng, memory: &Memory) -> Option<Memory> {
    let mut memory = memory.clone();
    let device = one_of(rng, memory.devices)?;
    let value = match usize::from(memory.hardcoded[device]) {
        0 => one_of(rng, memory.values)?,
        value => value,
    };
    let forbidden: Vec<(u8, u8)> = (1..=memory.objects)
        .filter(|object| is_forbidden(&memory, device, usize::from(*object)))
        .flat_map(|object| [(object, 1), (object, 2), (object, 3)])
        .collect();
    let (object, mode) = rng.pick(&forbidden)?;
    let stored = if takes_value(&memory, object, mode) { rng.between(0, usize::from(memory.values)) as u8 } else { 0 };
    let count = usize::from(memory.count[value]);
    let place = if count < MAX_ENTRIES { rng.between(1, count + 1) } else { rng.between(1, count) };
    memory.count[value] = count.max(place) as u8;
    memory.set_entry(value, place, [object, mode, stored]);
    memory.hardcoded[device] = value as u8;
    Some(memory)
}

fn is_forbidden(memory: &Memory, device: usize, object: usize) -> bool {
    let own = memory.class[object] == 2 && usize::from(memory.owner[object]) == device;
    !own || memory.kind[object] == 4
}

/// The same configuration with any bytes in the places that name nothing: place 0, those past the counts, and entries
/// past a value's count.
pub fn noisy(rng: &mut Rng, sound: &Memory) -> Memory {
    let mut memory = Memory::filled(|| rng.word() as u8);
    memory.edition = sound.edition;
    (memory.drivers, memory.devices) = (sound.drivers, sound.devices);
    (memory.objects, memory.values) = (sound.objects, sound.values);
    for object in 1..=usize::from(sound.objects) {
        memory.kind[object] = sound.kind[object];
        memory.class[object] = sound.class[object];
        memory.owner[object] = sound.owner[object];
    }
    for device in 1..=usize::from(sound.devices) {
        memory.hardcoded[device] = sound.hardcoded[device];
        memory.serials[device] = sound.serials[device];
    }
    for value in 1..=usize::from(sound.values) {
        memory.count[value] = sound.count[value];
    }
    for (value, entry) in entries(sound) {
        memory.set_entry(value, entry, sound.entry(value, entry));
    }
    memory
}

/// A configuration with a few bytes changed anywhere, mostly to small numbers; its edition is the other one now and
/// then.
pub fn shaken(rng: &mut Rng, memory: &Memory) -> Memory {
    let mut bytes = memory.to_bytes();
    for _ in 0..rng.between(1, 4) {
        // One change in four is near the counts, and some are in the serials.
        let place = match rng.weighted(&[25, 8, 67]) {
            0 => rng.between(HEAD_BYTES, HEAD_BYTES + 2 * COUNTS - 1),
            1 => rng.below(HEAD_BYTES),
            _ => rng.between(HEAD_BYTES, MEMORY_BYTES - 1),
        };
        let most = [3, 7, 100, 255][rng.below(4)];
        bytes[place] = rng.between(0, most) as u8;
    }
    if rng.percent(6) {
        bytes[0] = [FIRST_EDITION, LAST_EDITION][rng.below(2)] as u8;
    }
    let mut bytes = bytes.into_iter();
    Memory::filled(|| bytes.next().unwrap_or(0))
}

/// Faults of which the first of 3, 5 and 6 decides. One of 3 comes last: the others leave every field in its range.
pub const FAULTS: [&[u8]; 7] = [&[5], &[6], &[5, 6], &[5, 3], &[6, 3], &[5, 6, 3], &[3]];

/// How many configurations of a line have bytes changed anywhere.
const SHAKEN: usize = 4;

/// The configuration with several faults; nothing if the line has no room for one of them.
pub fn faulty(rng: &mut Rng, sound: &Memory, faults: &[u8]) -> Option<Memory> {
    faults.iter().try_fold(sound.clone(), |memory, number| refused(rng, &memory, *number))
}

/// What a line gives: itself, with noise, broken in each field, with faults of each question and of several, and with
/// bytes changed anywhere.
pub fn cases(rng: &mut Rng, sound: &Memory) -> Vec<Memory> {
    let mut out = vec![sound.clone(), noisy(rng, sound)];
    out.extend(FIELDS.iter().filter_map(|field| broken(rng, sound, *field)));
    out.extend(FAULTS.iter().filter_map(|faults| faulty(rng, sound, faults)));
    out.extend((0..SHAKEN).map(|_| shaken(rng, sound)));
    out
}
