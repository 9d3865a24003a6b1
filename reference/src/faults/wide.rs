//! What goes wrong with more objects than a state area had room for, and with their numbers of two bytes.

use super::answers::plain;
use crate::closure::{Closure, closure};
use crate::config::{Config, Entry};
use crate::effect;
use crate::generate::names::{Name, names};
use crate::limits::{MAX_ONE_BYTE, SMALL_ROOM};
use crate::operation::Operation;
use crate::questions::Case;
use crate::state::{CLEARED, NONE, Record, State};

/// The configuration with its entries' objects renumbered; refused by 3 if one is 0 then.
fn renumbered(config: &Config, number: fn(usize) -> usize) -> Result<Config, u8> {
    let mut config = config.clone();
    for entry in config.values.iter_mut().flatten() {
        entry.object = number(entry.object);
    }
    let fits = config.values.iter().flatten().all(|entry| entry.object != 0);
    if fits { Ok(config) } else { Err(3) }
}

/// The second byte of an entry's object is lost.
pub fn entries_modulo(config: &Config) -> Result<Config, u8> {
    renumbered(config, |object| object % (MAX_ONE_BYTE + 1))
}

/// An entry's object has the limit of small configurations.
pub fn entries_of_small(config: &Config) -> Result<Config, u8> {
    renumbered(config, |object| if object <= SMALL_ROOM { object } else { 0 })
}

/// The second byte of a record's object is lost.
pub fn records_modulo(mut operation: Operation) -> Operation {
    for (name, number) in names(&mut operation) {
        if matches!(name, Name::Object | Name::Destination) {
            *number %= MAX_ONE_BYTE + 1;
        }
    }
    operation
}

/// With one object more than the shorter area has room for, the last object has no record: it is in none and holds
/// nothing, whatever is stored there.
pub fn without_last(config: &Config, state: &State) -> State {
    let mut state = state.clone();
    if config.objects.len() == SMALL_ROOM + 1 {
        state.objects[SMALL_ROOM] = Record { partition: NONE, contents: CLEARED };
    }
    state
}

/// Descriptors whose numbers have two bytes are read by nobody: mode 1 does nothing there, mode 3 writes only.
pub fn none_above_one_byte(config: &Config, state: &State) -> Closure {
    let mut other = config.clone();
    let is_lost = |entry: &&mut Entry| entry.reads() && entry.object > MAX_ONE_BYTE;
    for entry in other.values.iter_mut().flatten().filter(is_lost) {
        entry.mode -= 1;
    }
    closure(&other, state)
}

/// Question 15 without the objects behind those of small configurations.
pub fn few_are_in_it(case: &Case) -> bool {
    let mut state = case.state.clone();
    state.objects.truncate(SMALL_ROOM);
    plain(15, &Case { state: &state, ..*case })
}

/// Whoever comes or leaves takes along only objects that small configurations can have.
pub fn few_are_moved(config: &Config, state: &State, operation: &Operation) -> State {
    let mut next = effect::apply(config, state, operation);
    if matches!(operation, Operation::Activate { .. } | Operation::Deactivate { .. }) {
        next.objects[SMALL_ROOM..].clone_from_slice(&state.objects[SMALL_ROOM..]);
    }
    next
}
