//! State areas of every length for configurations of both kinds, those with locks (request N6) around the lengths of
//! before and of now, lock bytes of every value, and files of wide configurations and of edition 2, cut at every byte.

use super::calls::{Call, Function};
use super::rng::Rng;
use super::serials::{label, labelled};
use super::worlds::{Size, WIDE_COUNTS, World, world};
use crate::config::load;
use crate::limits::{ANSWER_BYTES, FIRST_EDITION, MAX_DEVICES, MAX_OBJECTS, SMALL_ROOM, area_bytes, locks_place};
use crate::operation::{Actor, Operation};
use crate::state::{EXISTING, LOCKED, State};
use crate::tokens::row;

/// The longest area that is tried.
pub const LONGEST_AREA: usize = 4_096;

/// The objects of the configurations that are tried with areas of every length: the least and the most of each kind.
pub const EDGES: [usize; 4] = [0, SMALL_ROOM, SMALL_ROOM + 1, MAX_OBJECTS];

/// The file of a configuration with so many external objects and nothing else.
pub fn plain_line(objects: usize) -> Vec<u8> {
    row(&[vec![FIRST_EDITION, 0, 0, objects, 0], [3, 0, 0].repeat(objects)].concat())
}

/// A call that creates a partition, if it is an operation.
fn call(function: Function, line: &[u8], state: Vec<u8>) -> Call {
    let record = Operation::Create { partition: 1, green: false }.to_bytes();
    Call { function, line: line.to_vec(), state, record, answer: vec![0; ANSWER_BYTES], carried: false }
}

/// A fresh state and an operation in areas of every length; the operation finds the fresh state, cut or with zeros
/// behind it, and is accepted where the length is right.
pub fn areas(rng: &mut Rng, objects: usize) -> impl Iterator<Item = Call> {
    let line = plain_line(objects);
    let fresh = load(&line).map_or(Vec::new(), |config| State::fresh(&config).to_bytes());
    (0..=LONGEST_AREA).flat_map(move |length| {
        let mut state = fresh.clone();
        state.resize(length, 0);
        [call(Function::Fresh, &line, rng.bytes(length)), call(Function::Operate, &line, state)]
    })
}

/// The file of a configuration with so many devices and objects; each device owns its hardcoded descriptor, which names
/// nothing, and the other objects are external.
pub fn device_line(devices: usize, objects: usize) -> Vec<u8> {
    let owned: Vec<usize> = (1..=devices).flat_map(|device| [4, 2, device]).collect();
    let external = [3, 0, 0].repeat(objects - devices);
    row(&[vec![FIRST_EDITION, 0, devices, objects, 0], owned, external, vec![0; devices]].concat())
}

/// Configurations with devices, the least and the most of both kinds, by devices and objects.
pub const LOCKABLE: [(usize, usize); 6] = [
    (1, 1),
    (MAX_DEVICES, MAX_DEVICES),
    (MAX_DEVICES, SMALL_ROOM),
    (3, SMALL_ROOM + 1),
    (MAX_DEVICES, SMALL_ROOM + 1),
    (MAX_DEVICES, MAX_OBJECTS),
];

/// The records that have to do with locks, for one device.
fn lock_records(device: usize) -> [Vec<u8>; 3] {
    let actor = Actor::Device(device);
    let lock = |locked: bool| Operation::Lock { actor, locked }.to_bytes();
    [lock(true), lock(false), Operation::Activate { actor, partition: 1 }.to_bytes()]
}

/// Around both lengths, that of before there were locks and that of now: a fresh state, and operations about locks on a
/// state in which partition 1 exists and every second device is locked, cut or with zeros behind it.
pub fn lock_lengths(rng: &mut Rng, devices: usize, objects: usize) -> Vec<Call> {
    let line = device_line(devices, objects);
    let Ok(config) = load(&line) else { return Vec::new() };
    let mut locked = State::fresh(&config);
    locked.status[1] = EXISTING;
    (0..devices).step_by(2).for_each(|place| locked.locks[place] = LOCKED);
    let area = locked.to_bytes();
    let mut calls = Vec::new();
    for length in locks_place(config.room()) - 1..=area_bytes(config.room()) + 1 {
        calls.push(call(Function::Fresh, &line, rng.bytes(length)));
        let mut state = area.clone();
        state.resize(length, 0);
        for record in [1, 2, devices, devices + 1].into_iter().flat_map(lock_records) {
            calls.push(Call { record, ..call(Function::Operate, &line, state.clone()) });
        }
    }
    calls
}

/// Lock bytes with every value, of the first and of the last device that there can be, and of any, in an area whose
/// devices are active or not; each with an operation about the device.
pub fn lock_bytes(rng: &mut Rng, devices: usize, objects: usize) -> Vec<Call> {
    let line = device_line(devices, objects);
    let Ok(config) = load(&line) else { return Vec::new() };
    let mut calls = Vec::new();
    for active in [false, true] {
        let mut state = State::fresh(&config);
        state.status[1] = EXISTING;
        if active {
            state.devices[..devices].fill(1);
            state.objects[..devices].iter_mut().for_each(|record| record.partition = 1);
        }
        for device in [1, MAX_DEVICES, rng.between(1, MAX_DEVICES)] {
            for lock in 0..=u8::MAX {
                let mut state = state.clone();
                state.locks[device - 1] = lock;
                let records = lock_records(device);
                let record = records[rng.below(records.len())].clone();
                calls.push(Call { record, ..call(Function::Operate, &line, state.to_bytes()) });
            }
        }
    }
    calls
}

/// A wide world of each count of objects.
pub fn wide_worlds(rng: &mut Rng) -> [World; WIDE_COUNTS.len()] {
    WIDE_COUNTS.map(|count| {
        loop {
            let world = world(rng, Size::Wide);
            if world.config.objects.len() == count {
                return world;
            }
        }
    })
}

/// Worlds of the edition with serials (request N7), small ones and a wide one.
pub fn serial_worlds(rng: &mut Rng) -> [World; 4] {
    [Size::Small, Size::Medium, Size::Full, Size::Wide].map(|size| {
        let mut world = labelled(rng, size);
        label(rng, &mut world);
        world
    })
}

/// Calls with the world's file cut at every byte, the whole file last; areas as the whole file needs them.
pub fn cuts(world: &World) -> impl Iterator<Item = Call> {
    let state = State::fresh(&world.config).to_bytes();
    (0..=world.line.len()).flat_map(move |length| {
        let line = &world.line[..length];
        [Function::LoadCheck, Function::Fresh, Function::Operate].map(|function| call(function, line, state.clone()))
    })
}
