//! Questions that are put wrongly, and effects that are wrong.

use super::searches::with_mode;
use crate::closure::{self, closure};
use crate::config::{Config, Entry, Kind};
use crate::effect;
use crate::operation::{Actor, Operation};
use crate::questions::{Case, QUESTIONS, described_by, driver_zone, leaves_in_reach, leaves_named_in_green};
use crate::state::{NONE, State};
use crate::trace;
use std::collections::BTreeSet;

/// The question as the papers have it.
pub fn plain(number: u8, case: &Case) -> bool {
    QUESTIONS.iter().all(|(known, question)| *known != number || question(case))
}

pub fn code_3_passes_19(case: &Case) -> bool {
    case.operation.code() == 3 || plain(19, case)
}

/// Question 19 with another state than the one that would follow.
fn crosses_in(case: &Case, state: &State) -> bool {
    let asked = driver_zone(case).is_some_and(|zone| !case.state.is_green(zone));
    !asked || !closure::any_crosses(case.config, state, case.search)
}

pub fn crosses_before(case: &Case) -> bool {
    crosses_in(case, case.state)
}

pub fn crosses_one_by_one(case: &Case) -> bool {
    crosses_in(case, &one_by_one::<3>(case.config, case.state, case.operation))
}

pub fn leaves_after(case: &Case) -> bool {
    let next = effect::apply(case.config, case.state, case.operation);
    !leaves_in_reach(&Case { state: &next, ..*case }) && !leaves_named_in_green(case)
}

/// Question 20 with the entries of all active devices, the leaving one among them.
pub fn leaves_with_own(case: &Case) -> bool {
    let concerned = effect::concerned(case.config, case.operation);
    let found = (case.search)(case.config, case.state);
    let mut all = closure::entries(case.config, &found);
    let passes = all.all(|(_, entry)| !concerned.contains(&entry.object)) && !leaves_named_in_green(case);
    !(10..=12).contains(&case.operation.code()) || passes
}

/// Question 18 by the descriptors that are at most so many steps from the hardcoded one.
pub fn near<const STEPS: usize>(case: &Case) -> bool {
    described_by(case, |config, state, device| {
        let mut found = BTreeSet::from([config.hardcoded_object(device)]);
        for _ in 0..STEPS {
            let entries: Vec<Entry> = held_entries(config, state, &found);
            let read = entries.iter().filter(|entry| entry.reads() && config.kind(entry.object).is_descriptor());
            found.extend(read.map(|entry| entry.object).filter(|object| state.object(*object) != NONE));
        }
        held_entries(config, state, &found)
    })
}

fn held_entries(config: &Config, state: &State, descriptors: &BTreeSet<usize>) -> Vec<Entry> {
    descriptors.iter().flat_map(|descriptor| config.value(state.held(*descriptor)).to_vec()).collect()
}

/// The entries that describe a device's transfers, with every stored value for kind 1.
fn with_any_value(config: &Config, state: &State, device: usize) -> Vec<Entry> {
    let any = |entry: Entry| match config.kind(entry.object) {
        Kind::Transfer => (0..=config.values.len()).map(|stored| Entry { stored, ..entry }).collect(),
        _ => vec![entry],
    };
    trace::described(config, state, device).into_iter().flat_map(any).collect()
}

/// Question 18 with any value for operations of one code.
pub fn any_stored_value<const CODE: usize>(case: &Case) -> bool {
    if case.operation.code() == CODE { described_by(case, with_any_value) } else { plain(18, case) }
}

/// Question 18 as if nothing was copied.
pub fn any_destination(case: &Case) -> bool {
    let mut operation = case.operation.clone();
    if let Operation::Read { actor: Actor::Device(_), pairs } = &mut operation {
        pairs.iter_mut().for_each(|pair| pair.destination = 0);
    }
    plain(18, &Case { operation: &operation, ..*case })
}

/// Question 18 by all that a device may come to read in place of what it reads now.
pub fn by_closure(case: &Case) -> bool {
    described_by(case, |config, state, device| {
        let found = closure(config, state);
        closure::entries(config, &found).filter(|(who, _)| *who == device).map(|(_, entry)| *entry).collect()
    })
}

/// Question 18 with entries of one mode taken as of another.
pub fn taken_as<const FROM: usize, const TO: usize>(case: &Case) -> bool {
    described_by(case, |config, state, device| trace::described(&with_mode(config, FROM, TO), state, device))
}

/// A copy by operations of one code reads what an earlier pair of the record has stored.
pub fn one_by_one<const CODE: usize>(config: &Config, state: &State, operation: &Operation) -> State {
    match operation {
        Operation::Read { actor, pairs } if operation.code() == CODE => {
            pairs.iter().fold(state.clone(), |now, pair| {
                effect::apply(config, &now, &Operation::Read { actor: *actor, pairs: vec![*pair] })
            })
        }
        _ => effect::apply(config, state, operation),
    }
}

/// What is brought in keeps its contents.
pub fn nothing_cleared(config: &Config, state: &State, operation: &Operation) -> State {
    let mut next = effect::apply(config, state, operation);
    for object in effect::concerned(config, operation) {
        next.objects[object - 1].contents = state.contents(object);
    }
    next
}
