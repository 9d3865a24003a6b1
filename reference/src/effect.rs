//! What an accepted operation does to the state, and what a read puts into the answer area.

use crate::config::{Config, Kind, Owner};
use crate::operation::{Actor, Operation, Put};
use crate::state::{CLEARED, Contents, DESTROYED, EXISTING, GREEN, LOCKED, NONE, State, UNLOCKED, holding};

/// Objects concerned: codes 7 and 10 the driver's, 8 and 11 the device's (its kind 4 too), 9 and 12 the listed.
pub fn concerned(config: &Config, operation: &Operation) -> Vec<usize> {
    match operation {
        Operation::Activate { actor, .. } | Operation::Deactivate { actor } => config.owned_by(match actor {
            Actor::Driver(driver) => Owner::Driver(*driver),
            Actor::Device(device) => Owner::Device(*device),
        }),
        Operation::ActivateExternal { objects, .. } | Operation::DeactivateExternal { objects, .. } => objects.clone(),
        _ => Vec::new(),
    }
}

/// The state that follows. All sources are read before anything is stored.
pub fn apply(config: &Config, state: &State, operation: &Operation) -> State {
    let mut next = state.clone();
    match operation {
        Operation::Write { items, .. } => {
            for item in items {
                next.objects[item.object - 1].contents = match item.put {
                    Put::Value(value) => holding(value),
                    Put::Raw(bytes) => bytes,
                };
            }
        }
        Operation::Read { pairs, .. } => {
            for pair in pairs.iter().filter(|pair| pair.destination != 0) {
                next.objects[pair.destination - 1].contents = state.contents(pair.source);
            }
        }
        Operation::Create { partition, green } => next.status[*partition] = if *green { GREEN } else { EXISTING },
        Operation::Destroy { partition } => next.status[*partition] = DESTROYED,
        Operation::Activate { partition, .. } | Operation::ActivateExternal { partition, .. } => {
            moved(config, &mut next, operation, *partition as u8);
            cleared(config, &mut next, operation);
        }
        Operation::Deactivate { .. } | Operation::DeactivateExternal { .. } => {
            moved(config, &mut next, operation, NONE);
        }
        Operation::Lock { actor, locked } => {
            next.locks[actor.number() - 1] = if *locked { LOCKED } else { UNLOCKED };
        }
    }
    next
}

/// Moves the actor, if there is one, and all objects concerned.
fn moved(config: &Config, state: &mut State, operation: &Operation, partition: u8) {
    match operation.actor() {
        Some(Actor::Driver(driver)) => state.drivers[driver - 1] = partition,
        Some(Actor::Device(device)) => state.devices[device - 1] = partition,
        None => (),
    }
    for object in concerned(config, operation) {
        state.objects[object - 1].partition = partition;
    }
}

/// Clears all objects concerned but kind 4.
fn cleared(config: &Config, state: &mut State, operation: &Operation) {
    for object in concerned(config, operation) {
        if config.kind(object) != Kind::Hardcoded {
            state.objects[object - 1].contents = CLEARED;
        }
    }
}

/// What a read puts into the answer area, in order: the contents of each source, before the call.
pub fn answers(state: &State, operation: &Operation) -> Vec<Contents> {
    operation.sources().into_iter().map(|source| state.contents(source)).collect()
}
