//! What a device can do at one moment, with the values of that moment, and traces (document 01: runs): transfers one
//! after the other with no call between.

use crate::config::{Config, Entry, Kind};
use crate::state::{Contents, NONE, State, holding};
use std::collections::BTreeSet;

/// The descriptors that an active device can read now: its hardcoded one and, step by step, each active one for which a
/// descriptor that it can read has an entry of mode 1 or 3.
pub fn readable(config: &Config, state: &State, device: usize) -> BTreeSet<usize> {
    let mut found = BTreeSet::from([config.hardcoded_object(device)]);
    loop {
        let mut next = found.clone();
        for descriptor in &found {
            let entries = config.value(state.held(*descriptor)).iter();
            let read = entries.filter(|entry| entry.reads() && config.kind(entry.object).is_descriptor());
            next.extend(read.map(|entry| entry.object).filter(|object| state.object(*object) != NONE));
        }
        if next == found {
            return found;
        }
        found = next;
    }
}

/// The entries that describe the device's transfers now.
pub fn described(config: &Config, state: &State, device: usize) -> Vec<Entry> {
    let descriptors = readable(config, state, device);
    descriptors.iter().flat_map(|descriptor| config.value(state.held(*descriptor)).iter().copied()).collect()
}

/// What a write by this entry leaves: the stored value in kind 1, the device's bytes in kind 2 or 3, nothing in kind 4.
pub fn write(config: &Config, state: &mut State, entry: &Entry, bytes: Contents) {
    match config.kind(entry.object) {
        Kind::Transfer => state.objects[entry.object - 1].contents = holding(entry.stored),
        Kind::Function | Kind::Data => state.objects[entry.object - 1].contents = bytes,
        Kind::Hardcoded => (),
    }
}
