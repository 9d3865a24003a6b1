//! Walks over the records of a state area (request N3), and questions 9, that are faulty on purpose, each in one point.

use super::lock_areas::walk_with_locks;
use crate::config::{Config, Kind, Owner};
use crate::limits::SMALL_ROOM;
use crate::state::{
    CLEARED, DESTROYED, EXISTING, GREEN, NEVER_USED, NONE, State, first_bad, head_fits, holding, record_fits,
    well_formed,
};

/// What is taken for the first record that breaks a rule.
pub type Walk = fn(&Config, &State) -> usize;

/// The walks, by what each does wrong.
pub const WALKS: [(&str, Walk); 18] = [
    ("starts at record 2", |config, state| bad(config, state).find(|number| *number > 1).unwrap_or(0)),
    ("leaves the last record out", |config, state| kept(config, state, state.objects.len() - 1)),
    ("passes over absent records", |config, state| kept(config, state, config.objects.len())),
    ("asks the first 96 records", |config, state| kept(config, state, SMALL_ROOM)),
    ("counts from 0", |config, state| first_bad(config, state).saturating_sub(1)),
    ("goes on to the last", |config, state| bad(config, state).last().unwrap_or(0)),
    ("lets owned objects stay in none", |config, state| seen_as(config, state, brought_home)),
    ("asks no contents in none", |config, state| seen_as(config, state, contents_right_in_none)),
    ("asks only if the head is right", |config, state| behind_head(config, state, 0)),
    ("names the first record where the head is not right", |config, state| behind_head(config, state, 1)),
    ("asks owned objects for their owner alone", |config, state| seen_as(config, state, as_owners_are)),
    ("takes destroyed partitions for existing", |config, state| seen_as(config, state, nothing_destroyed)),
    ("asks absent objects for their partition alone", |config, state| seen_as(config, state, absent_cleared)),
    ("asks absent objects for their contents alone", |config, state| seen_as(config, state, absent_in_none)),
    ("asks hardcoded descriptors for any value", |config, state| seen_as(config, state, right_if_hardcoded)),
    ("takes unknown statuses for existing", |config, state| seen_as(config, state, |_, state| known(state, EXISTING))),
    (NO_GREEN, |config, state| seen_as(config, state, |_, state| nothing_green(state))),
    ("goes on to the lock bytes", |config, state| walk_with_locks(config, state, first_bad(config, state))),
];

/// The walk that names records in sound states too.
pub const NO_GREEN: &str = "takes green zones for destroyed";

/// What is taken for question 9.
pub type Formed = fn(&Config, &State) -> bool;

/// Questions 9 about green zones (request N5), by what each does wrong.
pub const FORMED: [(&str, Formed); 8] = [
    ("9 knows no status 3", |config, state| well_formed(config, state) && !state.status.contains(&GREEN)),
    ("9 lets 3 stand at place 0", |config, state| formed_as(config, state, |state| cleared(state, GREEN))),
    ("9 lets status 4 by", |config, state| formed_as(config, state, |state| taken(state, GREEN + 1, DESTROYED))),
    ("9 takes status 4 for existing", |config, state| formed_as(config, state, |state| taken(state, GREEN + 1, GREEN))),
    ("9 lets every status by", |config, state| formed_as(config, state, |state| known(state, DESTROYED))),
    ("9 lets no driver be in a green zone", |config, state| no_green(config, state, &state.drivers)),
    ("9 lets no device be in a green zone", |config, state| no_green(config, state, &state.devices)),
    ("9 lets no object be in a green zone", |config, state| {
        let places: Vec<u8> = state.objects.iter().map(|record| record.partition).collect();
        no_green(config, state, &places)
    }),
];

/// Question 9 about the state that this one is taken for.
fn formed_as(config: &Config, state: &State, change: fn(&mut State)) -> bool {
    let mut state = state.clone();
    change(&mut state);
    well_formed(config, &state)
}

fn no_green(config: &Config, state: &State, places: &[u8]) -> bool {
    well_formed(config, state) && places.iter().all(|place| !state.is_green(*place))
}

/// Place 0 is seen as never used if it has this status.
fn cleared(state: &mut State, status: u8) {
    if state.status[0] == status {
        state.status[0] = NEVER_USED;
    }
}

/// One status is seen as another.
fn taken(state: &mut State, from: u8, to: u8) {
    state.status[1..].iter_mut().filter(|status| **status == from).for_each(|status| *status = to);
}

/// Statuses that there are not are seen as this one.
fn known(state: &mut State, to: u8) {
    state.status[1..].iter_mut().filter(|status| **status > GREEN).for_each(|status| *status = to);
}

fn nothing_green(state: &mut State) {
    taken(state, GREEN, DESTROYED);
}

/// The records that break a rule.
fn bad(config: &Config, state: &State) -> impl Iterator<Item = usize> {
    (1..=state.objects.len()).filter(|number| !record_fits(config, state, *number))
}

/// The first bad one of so many records.
fn kept(config: &Config, state: &State, count: usize) -> usize {
    bad(config, state).find(|number| *number <= count).unwrap_or(0)
}

/// The first bad record if the head keeps its rules; else this one.
fn behind_head(config: &Config, state: &State, otherwise: usize) -> usize {
    if head_fits(config, state) { first_bad(config, state) } else { otherwise }
}

/// The first bad one of the state that the walk takes this one for.
fn seen_as(config: &Config, state: &State, change: fn(&Config, &mut State)) -> usize {
    let mut state = state.clone();
    change(config, &mut state);
    first_bad(config, &state)
}

/// Owned objects in none are seen where their owner is.
fn brought_home(config: &Config, state: &mut State) {
    for number in 1..=config.objects.len() {
        if let (NONE, Some(home)) = (state.object(number), state.owner(config.object(number).owner)) {
            state.objects[number - 1].partition = home;
        }
    }
}

/// Objects in none are seen with contents that they may have.
fn contents_right_in_none(config: &Config, state: &mut State) {
    for number in 1..=config.objects.len() {
        if state.object(number) == NONE {
            state.objects[number - 1].contents = match config.object(number).owner {
                Owner::Device(device) if config.kind(number) == Kind::Hardcoded => {
                    holding(config.hardcoded[device - 1])
                }
                _ => CLEARED,
            };
        }
    }
}

/// Owned objects are seen in none, like their owners, if they are where these are; else nowhere.
fn as_owners_are(config: &Config, state: &mut State) {
    for number in 1..=config.objects.len() {
        if let Some(home) = state.owner(config.object(number).owner) {
            let partition = &mut state.objects[number - 1].partition;
            *partition = if *partition == home { NONE } else { u8::MAX };
        }
    }
    state.drivers.fill(NONE);
    state.devices.fill(NONE);
}

fn nothing_destroyed(_: &Config, state: &mut State) {
    state.status.iter_mut().filter(|status| **status == DESTROYED).for_each(|status| *status = EXISTING);
}

fn absent_cleared(config: &Config, state: &mut State) {
    state.objects[config.objects.len()..].iter_mut().for_each(|record| record.contents = CLEARED);
}

fn absent_in_none(config: &Config, state: &mut State) {
    state.objects[config.objects.len()..].iter_mut().for_each(|record| record.partition = NONE);
}

/// Hardcoded descriptors are seen with the file's value wherever they hold one that the file has.
fn right_if_hardcoded(config: &Config, state: &mut State) {
    for device in 1..=config.devices() {
        let number = config.hardcoded_object(device);
        if state.held(number) <= config.values.len() {
            state.objects[number - 1].contents[0] = config.hardcoded[device - 1] as u8;
        }
    }
}
