//! The closure (document 01: reach): the pairs (descriptor, value number) that the active devices' descriptor writes
//! can bring about, and which of them each device reads; grown as the paper says, until nothing changes.

use crate::config::{Config, Entry, Kind};
use crate::state::{NONE, State};
use std::collections::BTreeSet;

/// A descriptor and a value number.
pub type Pair = (usize, usize);

#[derive(Clone, Debug, Default, PartialEq, Eq)]
pub struct Closure {
    /// The pairs collected.
    pub pairs: BTreeSet<Pair>,
    /// The pairs that each device reads.
    pub reads: BTreeSet<(usize, Pair)>,
}

/// A way to search: the closure itself, or a faulty stand-in for it in tests.
pub type Search = fn(&Config, &State) -> Closure;

/// The least collection.
pub fn closure(config: &Config, state: &State) -> Closure {
    grow(config, state, usize::MAX).0
}

/// Faulty on purpose: at most so many steps. Tests show that they can tell it from the closure.
pub fn limited<const STEPS: usize>(config: &Config, state: &State) -> Closure {
    grow(config, state, STEPS).0
}

/// How many steps it takes until nothing changes.
pub fn rounds(config: &Config, state: &State) -> usize {
    grow(config, state, usize::MAX).1
}

/// Steps until nothing changes, at most `limit` of them, and their count.
fn grow(config: &Config, state: &State, limit: usize) -> (Closure, usize) {
    let mut now = start(config, state);
    let mut count = 0;
    while count < limit {
        let next = step(config, &now);
        if next == now {
            break;
        }
        now = next;
        count += 1;
    }
    (now, count)
}

/// Every active descriptor starts with the pair that it holds now; an active device reads that of its hardcoded one.
fn start(config: &Config, state: &State) -> Closure {
    let active = |object: &usize| config.kind(*object).is_descriptor() && state.object(*object) != NONE;
    let pair = |descriptor: usize| (descriptor, state.held(descriptor));
    Closure {
        pairs: (1..=config.objects.len()).filter(active).map(pair).collect(),
        reads: (1..=config.devices())
            .filter(|device| state.device(*device) != NONE)
            .map(|device| (device, pair(config.hardcoded_object(device))))
            .collect(),
    }
}

/// One step from every pair that is read: a read entry for a descriptor lets the device read every pair collected for
/// it, a write entry for a kind 1 object adds that object with the stored value.
fn step(config: &Config, now: &Closure) -> Closure {
    let mut next = now.clone();
    for (device, (_, value)) in &now.reads {
        for entry in config.value(*value) {
            let kind = config.kind(entry.object);
            if entry.reads() && kind.is_descriptor() {
                let of_object = now.pairs.range((entry.object, 0)..=(entry.object, usize::MAX));
                next.reads.extend(of_object.map(|pair| (*device, *pair)));
            }
            if entry.writes() && kind == Kind::Transfer {
                next.pairs.insert((entry.object, entry.stored));
            }
        }
    }
    next
}

/// The devices' entries in the closure (document 01: a card's entry in reach).
pub fn entries<'a>(config: &'a Config, closure: &'a Closure) -> impl Iterator<Item = (usize, &'a Entry)> {
    closure.reads.iter().flat_map(|(device, (_, value))| config.value(*value).iter().map(|entry| (*device, entry)))
}

/// Whether a device's entry crosses (document 01: is outside): its object is of kind 4, or not in the device's
/// partition.
pub fn crosses(config: &Config, state: &State, device: usize, entry: &Entry) -> bool {
    config.kind(entry.object) == Kind::Hardcoded || state.object(entry.object) != state.device(device)
}

/// Whether any entry in the closure crosses.
pub fn any_crosses(config: &Config, state: &State, search: Search) -> bool {
    let found = search(config, state);
    entries(config, &found).any(|(device, entry)| crosses(config, state, device, entry))
}
