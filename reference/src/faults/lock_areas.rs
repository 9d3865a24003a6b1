//! What goes wrong with the lock bytes of a state area (request N6): questions 7 and 9, and making a fresh state. No
//! session shows any of these.

use super::walks::Formed;
use crate::config::Config;
use crate::limits::{LOCK_BYTES, SMALL_ROOM, area_bytes, locks_place};
use crate::state::{LOCKED, NONE, State, UNLOCKED, locks_fit, well_formed};

/// Questions 9, by what each does wrong. The last one is about wide configurations.
pub const FORMED_LOCKS: [(&str, Formed); 10] = [
    ("9 looks at no lock", |config, state| seen_as(config, state, |_, state| state.locks.fill(UNLOCKED))),
    ("9 takes any byte for a lock", |config, state| {
        seen_as(config, state, |_, state| state.locks.iter_mut().for_each(|lock| *lock = (*lock).min(LOCKED)))
    }),
    ("9 takes any byte for no lock", |config, state| {
        seen_as(config, state, |_, state| state.locks.iter_mut().for_each(known))
    }),
    ("9 lets absent devices be locked", |config, state| seen_as(config, state, without_absent)),
    ("9 asks nothing of absent devices' locks", |config, state| {
        seen_as(config, state, |config, state| state.locks[config.devices()..].fill(UNLOCKED))
    }),
    ("9 lets active devices be locked", |config, state| seen_as(config, state, without_active)),
    ("9 lets no device be locked", |config, state| well_formed(config, state) && !state.locks.contains(&LOCKED)),
    ("9 leaves the first lock out", |config, state| seen_as(config, state, |_, state| state.locks[0] = UNLOCKED)),
    ("9 leaves the last lock out", |config, state| {
        seen_as(config, state, |_, state| state.locks[LOCK_BYTES - 1] = UNLOCKED)
    }),
    (SMALL_PLACE, |config, state| seen_as(config, state, |_, state| in_record(state))),
];

/// The question 9 that shows in wide configurations only.
pub const SMALL_PLACE: &str = "9 looks for locks at the place of small configurations";

/// Question 9 about the state that this one is taken for.
fn seen_as(config: &Config, state: &State, change: fn(&Config, &mut State)) -> bool {
    let mut state = state.clone();
    change(config, &mut state);
    well_formed(config, &state)
}

/// A byte that is no lock is taken for 0.
fn known(lock: &mut u8) {
    if *lock > LOCKED {
        *lock = UNLOCKED;
    }
}

fn without_absent(config: &Config, state: &mut State) {
    state.locks[config.devices()..].iter_mut().filter(|lock| **lock == LOCKED).for_each(|lock| *lock = UNLOCKED);
}

fn without_active(_: &Config, state: &mut State) {
    let active = state.locks.iter_mut().zip(&state.devices).filter(|(lock, place)| **lock == LOCKED && **place != NONE);
    active.for_each(|(lock, _)| *lock = UNLOCKED);
}

/// Where small configurations have their lock bytes, wide ones have the record behind the small room.
pub(super) fn in_record(state: &mut State) {
    if let Some(record) = state.objects.get(SMALL_ROOM) {
        let bytes = [&[record.partition], &record.contents[..]].concat();
        state.locks.copy_from_slice(&bytes[..LOCK_BYTES]);
    }
}

/// The first record that is taken for bad by a walk that goes on to the lock bytes.
pub fn walk_with_locks(config: &Config, state: &State, found: usize) -> usize {
    if found == 0 && !locks_fit(config, state) { config.room() + 1 } else { found }
}

/// What is taken for the area that a fresh state leaves, by what it was.
pub type Freshened = fn(&Config, &[u8]) -> Vec<u8>;

pub const FRESH: [(&str, Freshened); 3] = [
    ("fresh leaves the lock bytes as they were", |config, area| {
        let place = locks_place(config.room());
        [&State::fresh(config).to_bytes()[..place], &area[place..]].concat()
    }),
    ("fresh leaves the last lock byte as it was", |config, area| {
        let place = area_bytes(config.room()) - 1;
        [&State::fresh(config).to_bytes()[..place], &area[place..]].concat()
    }),
    ("fresh locks all devices", |config, _| {
        let mut state = State::fresh(config);
        state.locks[..config.devices()].fill(LOCKED);
        state.to_bytes()
    }),
];

/// Whether a length is taken for that of a configuration's state area.
pub type Measured = fn(&Config, usize) -> bool;

pub const LENGTHS: [(&str, Measured); 4] = [
    ("7 passes areas of before", |config, length| {
        length == area_bytes(config.room()) || length == locks_place(config.room())
    }),
    ("7 passes only areas of before", |config, length| length == locks_place(config.room())),
    ("7 passes everything between", |config, length| {
        (locks_place(config.room())..=area_bytes(config.room())).contains(&length)
    }),
    (SHORTER, |_, length| length == area_bytes(SMALL_ROOM)),
];

/// The question 7 that shows in wide configurations only.
pub const SHORTER: &str = "7 wants the shorter length of all configurations";
