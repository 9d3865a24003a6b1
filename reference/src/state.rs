//! The state (document 01: what a state area shows, the plain book): status of partitions, partitions of drivers,
//! devices and objects, contents of objects, locks of devices; to and from the bytes of the state area; fresh; well
//! formed (question 9), and the first record that is not (request N3).

use crate::config::{Config, Kind, Owner};
use crate::limits::{CONTENT_BYTES, LOCK_BYTES, MAX_DEVICES, MAX_DRIVERS, MAX_PARTITION, RECORD_BYTES, STATUS_BYTES};

pub type Contents = [u8; CONTENT_BYTES];

/// Cleared: value 0, or sixteen zero bytes.
pub const CLEARED: Contents = [0; CONTENT_BYTES];

/// The status of a partition (document 01: standing). A green zone (request N5) exists, with a status of its own.
pub const NEVER_USED: u8 = 0;
pub const EXISTING: u8 = 1;
pub const DESTROYED: u8 = 2;
pub const GREEN: u8 = 3;

/// Whether a partition of this status exists, green or not.
pub fn exists(status: u8) -> bool {
    status == EXISTING || status == GREEN
}

/// The lock byte of a device (request N6).
pub const UNLOCKED: u8 = 0;
pub const LOCKED: u8 = 1;

/// Partition 0: none. What is in it is inactive.
pub const NONE: u8 = 0;

/// The contents of a descriptor that holds a value.
pub fn holding(value: usize) -> Contents {
    let mut contents = CLEARED;
    contents[0] = value as u8;
    contents
}

#[derive(Clone, Copy, Debug, PartialEq, Eq)]
pub struct Record {
    pub partition: u8,
    pub contents: Contents,
}

const EMPTY: Record = Record { partition: NONE, contents: CLEARED };

/// All columns have the room of the area. Partition p stands at place p of `status`; number n at place n - 1 elsewhere.
#[derive(Clone, Debug, PartialEq, Eq)]
pub struct State {
    pub status: Vec<u8>,
    pub drivers: Vec<u8>,
    pub devices: Vec<u8>,
    pub objects: Vec<Record>,
    pub locks: Vec<u8>,
}

impl State {
    /// All 0 except the hardcoded value numbers.
    pub fn fresh(config: &Config) -> State {
        let mut state = State {
            status: vec![NEVER_USED; STATUS_BYTES],
            drivers: vec![NONE; MAX_DRIVERS],
            devices: vec![NONE; MAX_DEVICES],
            objects: vec![EMPTY; config.room()],
            locks: vec![UNLOCKED; LOCK_BYTES],
        };
        for device in 1..=config.devices() {
            let descriptor = config.hardcoded_object(device);
            state.objects[descriptor - 1].contents = holding(config.hardcoded[device - 1]);
        }
        state
    }

    /// What an area shows; nothing if it has not the length that the configuration needs (question 7).
    pub fn from_bytes(config: &Config, area: &[u8]) -> Option<State> {
        if area.len() != config.state_bytes() {
            return None;
        }
        let (status, rest) = area.split_at(STATUS_BYTES);
        let (drivers, rest) = rest.split_at(MAX_DRIVERS);
        let (devices, rest) = rest.split_at(MAX_DEVICES);
        let (records, locks) = rest.split_at(config.room() * RECORD_BYTES);
        let objects = records.chunks_exact(RECORD_BYTES).map(|record| {
            let mut contents = CLEARED;
            contents.copy_from_slice(&record[1..]);
            Record { partition: record[0], contents }
        });
        Some(State {
            status: status.to_vec(),
            drivers: drivers.to_vec(),
            devices: devices.to_vec(),
            objects: objects.collect(),
            locks: locks.to_vec(),
        })
    }

    pub fn to_bytes(&self) -> Vec<u8> {
        let mut area = [&self.status[..], &self.drivers[..], &self.devices[..]].concat();
        for record in &self.objects {
            area.push(record.partition);
            area.extend_from_slice(&record.contents);
        }
        area.extend_from_slice(&self.locks);
        area
    }

    pub fn driver(&self, number: usize) -> u8 {
        self.drivers[number - 1]
    }

    pub fn device(&self, number: usize) -> u8 {
        self.devices[number - 1]
    }

    /// Whether a device has a padlock.
    pub fn is_locked(&self, device: usize) -> bool {
        self.locks[device - 1] == LOCKED
    }

    /// The partition of an object.
    pub fn object(&self, number: usize) -> u8 {
        self.objects[number - 1].partition
    }

    pub fn contents(&self, object: usize) -> Contents {
        self.objects[object - 1].contents
    }

    /// The value number that a descriptor holds.
    pub fn held(&self, descriptor: usize) -> usize {
        usize::from(self.contents(descriptor)[0])
    }

    /// The partition of an object's owner, if it has one.
    pub fn owner(&self, owner: Owner) -> Option<u8> {
        match owner {
            Owner::External => None,
            Owner::Driver(driver) => Some(self.driver(driver)),
            Owner::Device(device) => Some(self.device(device)),
        }
    }

    pub fn is_green(&self, partition: u8) -> bool {
        self.status.get(usize::from(partition)) == Some(&GREEN)
    }

    fn is_none_or_existing(&self, partition: u8) -> bool {
        partition == NONE || self.status.get(usize::from(partition)).is_some_and(|status| exists(*status))
    }
}

/// Question 9: the rules of the head, no record breaks one, and those of the lock bytes.
pub fn well_formed(config: &Config, state: &State) -> bool {
    head_fits(config, state) && first_bad(config, state) == 0 && locks_fit(config, state)
}

/// The number, from 1, of the first object record that breaks a rule of Well formed; 0 if none does. It is right
/// whatever stands in the head, and looks at no lock byte.
pub fn first_bad(config: &Config, state: &State) -> usize {
    (1..=state.objects.len()).find(|number| !record_fits(config, state, *number)).unwrap_or(0)
}

/// The rules on the bytes before the records: statuses, drivers' and devices' partitions.
pub fn head_fits(config: &Config, state: &State) -> bool {
    statuses_fit(state)
        && actors_fit(state, &state.drivers, config.drivers)
        && actors_fit(state, &state.devices, config.devices())
}

/// The rules on the lock bytes behind the records: each is 0 or 1, an absent device's is 0, and a locked device is in
/// no partition.
pub fn locks_fit(config: &Config, state: &State) -> bool {
    let known = state.locks.iter().all(|lock| matches!(*lock, UNLOCKED | LOCKED));
    let absent = state.locks[config.devices()..].iter().all(|lock| *lock == UNLOCKED);
    let mut locked = (1..=config.devices()).filter(|device| state.is_locked(*device));
    known && absent && locked.all(|device| state.device(device) == NONE)
}

/// The rules on one record. Every record behind the last object's is an absent object's, as many as the area has.
pub fn record_fits(config: &Config, state: &State, number: usize) -> bool {
    if number <= config.objects.len() { object_fits(config, state, number) } else { state.objects[number - 1] == EMPTY }
}

fn statuses_fit(state: &State) -> bool {
    debug_assert_eq!(state.status.len(), MAX_PARTITION + 1);
    state.status[0] == NEVER_USED && state.status.iter().all(|status| *status <= GREEN)
}

/// The partition bytes of the drivers, or of the devices, of which the first `count` are there.
fn actors_fit(state: &State, partitions: &[u8], count: usize) -> bool {
    partitions[..count].iter().all(|partition| state.is_none_or_existing(*partition))
        && partitions[count..].iter().all(|partition| *partition == NONE)
}

fn object_fits(config: &Config, state: &State, number: usize) -> bool {
    let object = config.object(number);
    let partition = state.object(number);
    let at_home = state.owner(object.owner).is_none_or(|owner| owner == partition);
    state.is_none_or_existing(partition) && at_home && contents_fit(config, state, number)
}

fn contents_fit(config: &Config, state: &State, number: usize) -> bool {
    let object = config.object(number);
    let value = state.held(number);
    let only_a_value = state.contents(number) == holding(value);
    match (object.kind, object.owner) {
        (Kind::Function | Kind::Data, _) => true,
        (Kind::Transfer, _) => only_a_value && value <= config.values.len(),
        (Kind::Hardcoded, Owner::Device(device)) => only_a_value && value == config.hardcoded[device - 1],
        (Kind::Hardcoded, _) => false,
    }
}
