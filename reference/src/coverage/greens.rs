//! What cases show of green zones (request N5). Who names what leaves is looked for here a second time, from the
//! descriptors' side.

use crate::config::{Config, Kind};
use crate::effect;
use crate::operation::{self, Actor, Operation};
use crate::state::{GREEN, State};
use std::collections::BTreeMap;

#[derive(Clone, Debug, Default)]
pub struct Greens {
    /// Cases in which green zones and others exist at once.
    pub cases: usize,
    /// Records of code 13 by their answers, those that cannot be read among them.
    pub created: BTreeMap<u8, usize>,
    /// Accepted writes and copies, by code, that store a value other than 0 into a descriptor of a green zone.
    pub stored: BTreeMap<usize, usize>,
    /// Refusals by 20 that the stricter part alone makes, by code.
    pub strict: BTreeMap<usize, usize>,
    /// Devices, with a ring or without, that came into a green zone.
    pub entered: usize,
}

impl Greens {
    /// Takes in a call on the right state.
    pub fn count(&mut self, config: &Config, before: &State, record: &[u8], number: u8) {
        if record.first() == Some(&13) {
            *self.created.entry(number).or_default() += 1;
        }
        let Some(operation) = operation::read(record).filter(|_| number == 0) else {
            return;
        };
        if is_stored(config, before, &operation) {
            *self.stored.entry(operation.code()).or_default() += 1;
        }
        if let Operation::Activate { actor: Actor::Device(_), partition } = operation {
            self.entered += usize::from(before.status[partition] == GREEN);
        }
    }

    /// Takes in a case by the states that its calls leave.
    pub fn count_case<'a>(&mut self, mut states: impl Iterator<Item = &'a State>) {
        let both = |state: &State| state.status.contains(&GREEN) && state.status.contains(&1);
        self.cases += usize::from(states.any(both));
    }
}

/// Whether a driver's write or copy stores a value with entries into a descriptor of a green zone.
fn is_stored(config: &Config, before: &State, operation: &Operation) -> bool {
    let after = effect::apply(config, before, operation);
    let holds = |object: &usize| {
        config.kind(*object) == Kind::Transfer && after.status[usize::from(after.object(*object))] == GREEN
    };
    matches!(operation.code(), 1 | 3)
        && operation.targets().iter().any(|object| holds(object) && !config.value(after.held(*object)).is_empty())
}

/// Whether what leaves a green zone is named by a descriptor that stays there.
pub fn is_named(config: &Config, state: &State, operation: &Operation) -> bool {
    let leaving = effect::concerned(config, operation);
    let staying = (1..=config.objects.len()).filter(|object| !leaving.contains(object));
    let mut staying = staying.filter(|object| matches!(config.kind(*object), Kind::Transfer | Kind::Hardcoded));
    staying.any(|descriptor| {
        let zone = state.object(descriptor);
        let named = config.value(state.held(descriptor)).iter().map(|entry| entry.object);
        let mut leaving = named.filter(|object| leaving.contains(object) && state.object(*object) == zone);
        state.status[usize::from(zone)] == GREEN && leaving.next().is_some()
    })
}
