//! The lock bytes behind the records (request N6), broken alone in each of their rules: of the first device, of the
//! last one, and of any between.

use super::Damaged;
use crate::config::Config;
use crate::generate::rng::Rng;
use crate::limits::MAX_DEVICES;
use crate::state::{LOCKED, NONE, State};

/// The state with one lock byte set.
fn with_lock(name: &str, sound: &State, device: usize, lock: u8) -> Damaged {
    let mut state = sound.clone();
    state.locks[device - 1] = lock;
    Damaged { locks_fit: false, ..Damaged::nothing(name, state) }
}

/// The first and the last of a list, and one of it, each with the place in its name.
fn some(rng: &mut Rng, list: &[usize]) -> Vec<(&'static str, usize)> {
    let any = rng.pick(list);
    let named = [("the first", list.first().copied()), ("the last", list.last().copied()), ("any", any)];
    named.into_iter().filter_map(|(name, device)| device.map(|device| (name, device))).collect()
}

/// A byte that is no lock, often the least.
fn no_lock(rng: &mut Rng) -> u8 {
    if rng.percent(40) { LOCKED + 1 } else { rng.between(usize::from(LOCKED) + 1, usize::from(u8::MAX)) as u8 }
}

pub fn alone(rng: &mut Rng, config: &Config, sound: &State) -> Vec<Damaged> {
    let there = 1..=config.devices();
    let (active, inactive): (Vec<usize>, Vec<usize>) = there.partition(|device| sound.device(*device) != NONE);
    let absent: Vec<usize> = (config.devices() + 1..=MAX_DEVICES).collect();
    let mut out = Vec::new();
    for (rule, list) in [("an active device", &active), ("an absent device", &absent)] {
        for (place, device) in some(rng, list) {
            out.push(with_lock(&format!("a lock of {rule}, {place}"), sound, device, LOCKED));
        }
    }
    for (rule, list) in
        [("an active device", &active), ("an inactive device", &inactive), ("an absent device", &absent)]
    {
        for (place, device) in some(rng, list) {
            let lock = no_lock(rng);
            out.push(with_lock(&format!("a byte that is no lock, of {rule}, {place}"), sound, device, lock));
        }
    }
    out
}
