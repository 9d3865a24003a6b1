//! Searches that stand in the place of the closure and find less.

use crate::closure::{Closure, Pair, closure, limited};
use crate::config::{Config, Entry, Kind};
use crate::limits::CONTENT_BYTES;
use crate::state::{NONE, State};
use crate::trace;
use std::collections::{BTreeMap, BTreeSet};
use std::ops::Bound::{Excluded, Unbounded};

/// So many walks over the pairs that are read, by rising numbers; what a pair brings is there for those behind it.
pub fn rising<const SWEEPS: usize>(config: &Config, state: &State) -> Closure {
    swept(config, state, SWEEPS, |reads, last| match last {
        None => reads.first().copied(),
        Some(last) => reads.range((Excluded(last), Unbounded)).next().copied(),
    })
}

/// The same by falling numbers.
pub fn falling<const SWEEPS: usize>(config: &Config, state: &State) -> Closure {
    swept(config, state, SWEEPS, |reads, last| match last {
        None => reads.last().copied(),
        Some(last) => reads.range(..last).next_back().copied(),
    })
}

/// A device and a pair that it reads.
type Read = (usize, Pair);

/// What comes behind a place of the walk.
type Behind = fn(&BTreeSet<Read>, Option<Read>) -> Option<Read>;

fn swept(config: &Config, state: &State, sweeps: usize, behind: Behind) -> Closure {
    let mut now = limited::<0>(config, state);
    for _ in 0..sweeps {
        let mut last = None;
        while let Some(read) = behind(&now.reads, last) {
            take_in(config, &mut now, read);
            last = Some(read);
        }
    }
    now
}

/// What a pair that is read brings, its writes first.
fn take_in(config: &Config, now: &mut Closure, (device, (_, value)): Read) {
    let is_written = |entry: &&Entry| entry.writes() && config.kind(entry.object) == Kind::Transfer;
    let written = config.value(value).iter().filter(is_written);
    now.pairs.extend(written.map(|entry| (entry.object, entry.stored)));
    for entry in config.value(value).iter().filter(|entry| entry.reads()) {
        let of_object = now.pairs.range((entry.object, 0)..=(entry.object, usize::MAX));
        now.reads.extend(of_object.map(|pair| (device, *pair)));
    }
}

/// Beyond so many whole states the search is given up, and the closure stands in its place.
const MOST_STATES: usize = 300;

/// Whole descriptor states, each made from another by one write, in place of pairs.
pub fn whole_states(config: &Config, state: &State) -> Closure {
    let mut found = Closure::default();
    let mut seen = BTreeSet::from([state.to_bytes()]);
    let mut waiting = vec![state.clone()];
    while let Some(now) = waiting.pop() {
        if seen.len() > MOST_STATES {
            return closure(config, state);
        }
        for device in (1..=config.devices()).filter(|device| now.device(*device) != NONE) {
            let descriptors = trace::readable(config, &now, device);
            found.reads.extend(descriptors.iter().map(|descriptor| (device, (*descriptor, now.held(*descriptor)))));
            for entry in trace::described(config, &now, device).iter().filter(|entry| entry.writes()) {
                let mut next = now.clone();
                if config.kind(entry.object) == Kind::Transfer {
                    trace::write(config, &mut next, entry, [0; CONTENT_BYTES]);
                }
                if seen.insert(next.to_bytes()) {
                    waiting.push(next);
                }
            }
        }
    }
    found
}

/// What one device writes is not there for the others.
pub fn each_alone(config: &Config, state: &State) -> Closure {
    let mut found = Closure::default();
    for device in 1..=config.devices() {
        let mut alone = state.clone();
        alone.devices.fill(NONE);
        alone.devices[device - 1] = state.device(device);
        found.reads.extend(closure(config, &alone).reads);
    }
    found
}

/// A descriptor's last pair replaces the one before it, until a step repeats or has been made often enough.
pub fn one_pair_each(config: &Config, state: &State) -> Closure {
    let mut found = limited::<0>(config, state);
    let mut held: BTreeMap<usize, usize> = found.pairs.iter().copied().collect();
    for _ in 0..2 * config.values.len() {
        for (device, (_, value)) in found.reads.clone() {
            for entry in config.value(value) {
                if entry.writes() && config.kind(entry.object) == Kind::Transfer {
                    held.insert(entry.object, entry.stored);
                }
                if let Some(value) = held.get(&entry.object).filter(|_| entry.reads()) {
                    found.reads.insert((device, (entry.object, *value)));
                }
            }
        }
    }
    found
}

/// The configuration with one mode taken as another; 0 neither reads nor writes.
pub fn with_mode(config: &Config, from: usize, to: usize) -> Config {
    let mut config = config.clone();
    for entry in config.values.iter_mut().flatten().filter(|entry| entry.mode == from) {
        entry.mode = to;
    }
    config
}

/// Entries of one mode are taken as of another.
pub fn taken_as<const FROM: usize, const TO: usize>(config: &Config, state: &State) -> Closure {
    closure(&with_mode(config, FROM, TO), state)
}

/// Entries of mode 1 read nothing but in the values of hardcoded descriptors.
pub fn mode_1_reads_in_hardcoded_only(config: &Config, state: &State) -> Closure {
    let mut other = with_mode(config, 1, 0);
    for value in config.hardcoded.iter().filter(|value| **value != 0) {
        other.values[*value - 1] = config.value(*value).to_vec();
    }
    closure(&other, state)
}
