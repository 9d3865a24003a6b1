//! Green zones (request N5): what a descriptor in one may hold, and who there names what leaves.

use crate::config::{Config, Entry, Kind};
use crate::operation::{Operation, Put};
use crate::state::State;

/// The green rule for an entry: its object is in the zone, not of kind 4, and, if it is of kind 1, only read.
pub fn is_green_entry(config: &Config, state: &State, zone: u8, entry: &Entry) -> bool {
    let is_inside = state.object(entry.object) == zone;
    match config.kind(entry.object) {
        Kind::Hardcoded => false,
        Kind::Transfer => is_inside && entry.mode == 1,
        Kind::Function | Kind::Data => is_inside,
    }
}

/// Whether every entry of a value keeps the green rule of a zone.
pub fn is_green_value(config: &Config, state: &State, zone: u8, value: usize) -> bool {
    config.value(value).iter().all(|entry| is_green_entry(config, state, zone, entry))
}

/// The value numbers that a write or a copy stores into kind 1 objects, in the record's order: a copy stores what its
/// source holds before the call.
pub fn stored_values(config: &Config, state: &State, operation: &Operation) -> Vec<usize> {
    match operation {
        Operation::Write { items, .. } => items
            .iter()
            .filter_map(|item| match item.put {
                Put::Value(value) => Some(value),
                Put::Raw(_) => None,
            })
            .collect(),
        Operation::Read { pairs, .. } => pairs
            .iter()
            .filter(|pair| pair.destination != 0 && config.kind(pair.destination) == Kind::Transfer)
            .map(|pair| state.held(pair.source))
            .collect(),
        _ => Vec::new(),
    }
}

/// The descriptors, of kind 1 or 4, that stay in a green zone and hold an entry, of any mode, that names an object of
/// the zone that leaves; each with that object. No device has to read such a descriptor.
pub fn names_of_what_stays(config: &Config, state: &State, leaving: &[usize]) -> Vec<(usize, usize)> {
    let mut list = Vec::new();
    for object in leaving.iter().copied().filter(|object| state.is_green(state.object(*object))) {
        let stays = |descriptor: &usize| {
            config.kind(*descriptor).is_descriptor()
                && state.object(*descriptor) == state.object(object)
                && !leaving.contains(descriptor)
        };
        let names =
            |descriptor: &usize| config.value(state.held(*descriptor)).iter().any(|entry| entry.object == object);
        let found = (1..=config.objects.len()).filter(|number| stays(number) && names(number));
        list.extend(found.map(|descriptor| (descriptor, object)));
    }
    list
}
