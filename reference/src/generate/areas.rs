//! State areas that no list of calls makes: broken in one place for each rule of question 9, and well formed ones at
//! random.

use super::rng::Rng;
use crate::config::{Config, Kind, Owner};
use crate::limits::{LOCK_BYTES, MAX_DEVICES, MAX_DRIVERS, MAX_PARTITION, RECORD_BYTES, locks_place, record_place};
use crate::state::{DESTROYED, EXISTING, GREEN, LOCKED, NEVER_USED, NONE, State, UNLOCKED, exists, holding};

/// The least status that there is not.
pub(super) const NO_STATUS: u8 = GREEN + 1;

/// How many ways `broken_by` knows, and how many `broken_at`.
const RULES: usize = 17;
const PLACES: usize = 5;

/// The state with one byte, or one record, that likely breaks a rule of question 9.
pub fn broken(rng: &mut Rng, config: &Config, state: &State) -> Vec<u8> {
    let rule = rng.below(RULES + PLACES);
    let mut state = state.clone();
    broken_by(rng, config, &mut state, rule);
    let mut area = state.to_bytes();
    if let Some(place) = rule.checked_sub(RULES) {
        broken_at(rng, config, &mut area, place);
    }
    area
}

/// Sets a byte: in the record behind the last object's, in the last record, in a lock, at the end, or anywhere.
fn broken_at(rng: &mut Rng, config: &Config, area: &mut [u8], place: usize) {
    let (objects, room) = (config.objects.len(), config.room());
    let (from, length) = match place {
        0 if objects < room => (record_place(objects + 1), RECORD_BYTES),
        0 | 1 => (record_place(room), RECORD_BYTES),
        2 => (locks_place(room), LOCK_BYTES),
        3 => (area.len() - 1, 1),
        _ => (0, area.len()),
    };
    area[from + rng.below(length)] = rng.between(1, 255) as u8;
}

fn broken_by(rng: &mut Rng, config: &Config, state: &mut State, rule: usize) {
    let object = rng.below(config.objects.len());
    let wrong = wrong_partition(rng, state);
    match rule {
        0 => state.status[0] = rng.between(1, usize::from(NO_STATUS)) as u8,
        1 => state.status[rng.between(1, MAX_PARTITION)] = [NO_STATUS, 5, 255][rng.below(3)],
        2 => state.drivers[rng.below(config.drivers)] = wrong,
        3 => state.devices[rng.below(config.devices())] = wrong,
        4 => state.objects[object].partition = wrong,
        5 => state.objects[object].partition = some_partition(rng, state),
        6 => absent(rng, &mut state.drivers, config.drivers, MAX_DRIVERS),
        7 => absent(rng, &mut state.devices, config.devices(), MAX_DEVICES),
        8 if config.objects.len() < config.room() => {
            let place = rng.between(config.objects.len(), config.room() - 1);
            state.objects[place].partition = some_partition(rng, state);
        }
        9 if config.objects.len() < config.room() => {
            let place = rng.between(config.objects.len(), config.room() - 1);
            state.objects[place].contents[rng.below(16)] = rng.between(1, 255) as u8;
        }
        10 => descriptor(rng, config, state, |contents, rng| contents[rng.between(1, 15)] = rng.between(1, 255) as u8),
        11 => {
            let beyond = config.values.len() + 1;
            descriptor(rng, config, state, |contents, rng| contents[0] = rng.between(beyond, beyond + 2) as u8);
        }
        12 => other_hardcoded_value(rng, config, state),
        13 => {
            let used = zones(state, exists);
            let zone = rng.pick(&used).unwrap_or(1);
            state.status[usize::from(zone)] = [NEVER_USED, DESTROYED, NO_STATUS][rng.below(3)];
        }
        14 => state.locks[some_device(rng, MAX_DEVICES) - 1] = rng.between(2, 255) as u8,
        15 if config.devices() < MAX_DEVICES => {
            let device = [config.devices() + 1, MAX_DEVICES, rng.between(config.devices() + 1, MAX_DEVICES)];
            state.locks[device[rng.below(3)] - 1] = LOCKED;
        }
        16 => lock_of_active(rng, config, state),
        _ => (),
    }
}

/// A device's number, often the first or the last.
fn some_device(rng: &mut Rng, last: usize) -> usize {
    [1, last, rng.between(1, last)][rng.below(3)]
}

/// Locks a device that is in a partition.
fn lock_of_active(rng: &mut Rng, config: &Config, state: &mut State) {
    let active: Vec<usize> = (1..=config.devices()).filter(|device| state.device(*device) != NONE).collect();
    let ends = [active.first().copied(), active.last().copied(), rng.pick(&active)];
    if let Some(device) = ends[rng.below(3)] {
        state.locks[device - 1] = LOCKED;
    }
}

/// Puts any value of the file into a hardcoded descriptor.
fn other_hardcoded_value(rng: &mut Rng, config: &Config, state: &mut State) {
    let devices: Vec<usize> = (1..=config.devices()).collect();
    if let Some(device) = rng.pick(&devices) {
        let value = holding(rng.between(0, config.values.len()));
        state.objects[config.hardcoded_object(device) - 1].contents = value;
    }
}

/// The partitions with a status that is asked for.
pub(super) fn zones(state: &State, asked: impl Fn(u8) -> bool) -> Vec<u8> {
    (1..=MAX_PARTITION as u8).filter(|zone| asked(state.status[usize::from(*zone)])).collect()
}

/// A partition byte that names no existing partition.
pub(super) fn wrong_partition(rng: &mut Rng, state: &State) -> u8 {
    let gone = zones(state, |status| !exists(status));
    match rng.below(3) {
        0 => [64, 128, 255][rng.below(3)],
        _ => rng.pick(&gone).unwrap_or(64),
    }
}

/// 0 or an existing partition.
fn some_partition(rng: &mut Rng, state: &State) -> u8 {
    let mut some = zones(state, exists);
    some.push(NONE);
    rng.pick(&some).unwrap_or(NONE)
}

/// A byte other than 0 for one that is not there.
fn absent(rng: &mut Rng, bytes: &mut [u8], count: usize, room: usize) {
    if count < room {
        bytes[rng.between(count, room - 1)] = rng.between(1, 63) as u8;
    }
}

/// Changes the contents of a descriptor.
fn descriptor(rng: &mut Rng, config: &Config, state: &mut State, change: impl Fn(&mut [u8; 16], &mut Rng)) {
    let all: Vec<usize> = (1..=config.objects.len()).filter(|object| config.kind(*object).is_descriptor()).collect();
    if let Some(object) = rng.pick(&all) {
        change(&mut state.objects[object - 1].contents, rng);
    }
}

/// A state area of before there were locks (request N6): what it shows but the locks, sixteen bytes shorter.
pub fn older(config: &Config, area: &[u8]) -> Vec<u8> {
    area[..locks_place(config.room())].to_vec()
}

/// The area that an older one becomes, by zeros at its end.
pub fn carried_over(older: &[u8]) -> Vec<u8> {
    [older, &[UNLOCKED; LOCK_BYTES]].concat()
}

/// Any well formed state: partitions, contents and locks at random.
pub fn scrambled(rng: &mut Rng, config: &Config) -> State {
    let mut state = State::fresh(config);
    for _ in 0..rng.between(1, 5) {
        state.status[rng.between(1, MAX_PARTITION)] = [EXISTING, EXISTING, GREEN, GREEN, DESTROYED][rng.below(5)];
    }
    let inactive = rng.below(30);
    let place = |rng: &mut Rng, state: &State| {
        if rng.percent(inactive) { NONE } else { some_partition(rng, state) }
    };
    (0..config.drivers).for_each(|driver| state.drivers[driver] = place(rng, &state));
    (0..config.devices()).for_each(|device| state.devices[device] = place(rng, &state));
    let locked = rng.below(80);
    for device in 0..config.devices() {
        if state.devices[device] == NONE && rng.percent(locked) {
            state.locks[device] = LOCKED;
        }
    }
    let few = rng.percent(60);
    let read = |object: usize| config.hardcoded.iter().flat_map(|v| config.value(*v)).any(|e| e.object == object);
    for number in 1..=config.objects.len() {
        let object = config.object(number);
        let partition = match object.owner {
            Owner::External => place(rng, &state),
            Owner::Driver(driver) => state.driver(driver),
            Owner::Device(device) => state.device(device),
        };
        state.objects[number - 1].partition = partition;
        match object.kind {
            Kind::Transfer if few && rng.percent(if read(number) { 10 } else { 80 }) => (),
            Kind::Transfer => state.objects[number - 1].contents = holding(rng.between(0, config.values.len())),
            Kind::Function | Kind::Data => state.objects[number - 1].contents = rng.contents(),
            Kind::Hardcoded => (),
        }
    }
    if rng.percent(40) {
        spy(rng, config, &mut state);
    }
    state
}

/// Lets a device read another's hardcoded descriptor, which no list of calls does: a value with such an entry is put
/// where a hardcoded value reads it.
fn spy(rng: &mut Rng, config: &Config, state: &mut State) {
    let named = config.hardcoded.iter().flat_map(|value| config.value(*value));
    let read: Vec<usize> = named.map(|entry| entry.object).filter(|o| config.kind(*o) == Kind::Transfer).collect();
    let spies = |value: &usize| {
        config.value(*value).iter().any(|entry| entry.reads() && config.kind(entry.object) == Kind::Hardcoded)
    };
    let values: Vec<usize> = (1..=config.values.len()).filter(spies).collect();
    if let (Some(object), Some(value)) = (rng.pick(&read), rng.pick(&values)) {
        state.objects[object - 1].contents = holding(value);
    }
}
