//! Questions 11 to 23, each put for the whole operation before the next. A question here is a function that answers yes
//! or no; the first no gives its number.

use crate::closure::{self, Search};
use crate::config::{Config, Entry, Kind, Owner};
use crate::effect;
use crate::green;
use crate::limits::MAX_PARTITION;
use crate::operation::{Actor, Operation, Put};
use crate::state::{NEVER_USED, NONE, State, exists};
use crate::trace;
use std::collections::BTreeSet;

/// An operation before the judge, on a well formed state.
pub struct Case<'a> {
    pub config: &'a Config,
    pub state: &'a State,
    pub operation: &'a Operation,
    pub search: Search,
}

pub type Question = fn(&Case) -> bool;

/// In the order in which they are asked: 23 comes right behind 16; 22 comes before 21, and in a green zone in the place
/// of 19.
pub const QUESTIONS: [(u8, Question); 13] = [
    (11, names_exist),
    (12, nothing_twice),
    (13, kinds_fit),
    (14, partition_fits),
    (15, destroyed_is_empty),
    (16, activity_fits),
    (23, lock_fits),
    (17, objects_are_there),
    (18, transfers_are_described),
    (19, nothing_crosses_after),
    (20, nothing_leaves_named),
    (22, green_rule_is_kept),
    (21, nothing_crosses_with_the_device),
];

/// The first question that is answered with no.
pub fn refusal(case: &Case) -> Option<u8> {
    QUESTIONS.iter().find(|(_, question)| !question(case)).map(|(number, _)| *number)
}

/// Question 11. Destination 0 passes, and value 0; a value number is asked about whatever its object's kind is.
fn names_exist(case: &Case) -> bool {
    let actor = match case.operation.actor() {
        Some(Actor::Driver(driver)) => (1..=case.config.drivers).contains(&driver),
        Some(Actor::Device(device)) => (1..=case.config.devices()).contains(&device),
        None => true,
    };
    let partition = case.operation.partition().is_none_or(|partition| (1..=MAX_PARTITION).contains(&partition));
    let objects = named(case).iter().all(|object| (1..=case.config.objects.len()).contains(object));
    let values = match case.operation {
        Operation::Write { items, .. } => items.iter().all(|item| match item.put {
            Put::Value(value) => value <= case.config.values.len(),
            Put::Raw(_) => true,
        }),
        _ => true,
    };
    actor && partition && objects && values
}

/// All objects that the record names, destination 0 left out.
fn named(case: &Case) -> Vec<usize> {
    [case.operation.sources(), case.operation.targets()].concat()
}

/// Question 12.
fn nothing_twice(case: &Case) -> bool {
    let targets = case.operation.targets();
    targets.iter().collect::<BTreeSet<_>>().len() == targets.len()
}

/// Question 13.
fn kinds_fit(case: &Case) -> bool {
    let kind = |object: usize| case.config.kind(object);
    let is_value = |object: usize| kind(object) == Kind::Transfer;
    let each = match case.operation {
        Operation::Write { items, .. } => {
            items.iter().all(|item| is_value(item.object) == matches!(item.put, Put::Value(_)))
        }
        Operation::Read { pairs, .. } => {
            pairs.iter().all(|pair| pair.destination == 0 || is_value(pair.source) == is_value(pair.destination))
        }
        Operation::ActivateExternal { objects, .. } | Operation::DeactivateExternal { objects, .. } => {
            objects.iter().all(|object| case.config.object(*object).owner == Owner::External)
        }
        _ => true,
    };
    each && named(case).iter().all(|object| kind(*object) != Kind::Hardcoded)
}

/// Question 14.
fn partition_fits(case: &Case) -> bool {
    let creates = matches!(case.operation, Operation::Create { .. });
    let fits = |status: u8| if creates { status == NEVER_USED } else { exists(status) };
    case.operation.partition().is_none_or(|partition| fits(case.state.status[partition]))
}

/// Question 15.
fn destroyed_is_empty(case: &Case) -> bool {
    let Operation::Destroy { partition } = case.operation else {
        return true;
    };
    let objects = case.state.objects.iter().map(|record| &record.partition);
    let mut all = case.state.drivers.iter().chain(&case.state.devices).chain(objects);
    all.all(|place| usize::from(*place) != *partition)
}

/// Question 16: what is brought in, and a device that is locked or unlocked, is inactive; who acts, and what leaves, is
/// active.
fn activity_fits(case: &Case) -> bool {
    let inactive = matches!(
        case.operation,
        Operation::Activate { .. } | Operation::ActivateExternal { .. } | Operation::Lock { .. }
    );
    let actor = case.operation.actor().map(|actor| actor_partition(case.state, actor));
    let listed = match case.operation {
        Operation::ActivateExternal { objects, .. } | Operation::DeactivateExternal { objects, .. } => &objects[..],
        _ => &[],
    };
    let mut places = actor.into_iter().chain(listed.iter().map(|object| case.state.object(*object)));
    places.all(|partition| (partition == NONE) == inactive)
}

fn actor_partition(state: &State, actor: Actor) -> u8 {
    match actor {
        Actor::Driver(driver) => state.driver(driver),
        Actor::Device(device) => state.device(device),
    }
}

/// Question 23 (request N6): a device that is brought in or locked has no padlock, one that is unlocked has one.
/// Nothing else looks at a lock.
fn lock_fits(case: &Case) -> bool {
    match case.operation {
        Operation::Activate { actor: Actor::Device(device), .. } => !case.state.is_locked(*device),
        Operation::Lock { actor, locked } => case.state.is_locked(actor.number()) != *locked,
        _ => true,
    }
}

/// Question 17.
fn objects_are_there(case: &Case) -> bool {
    let partition = match case.operation {
        Operation::Write { actor: Actor::Driver(driver), .. }
        | Operation::Read { actor: Actor::Driver(driver), .. } => usize::from(case.state.driver(*driver)),
        Operation::DeactivateExternal { partition, .. } => *partition,
        _ => return true,
    };
    named(case).iter().all(|object| usize::from(case.state.object(*object)) == partition)
}

/// Question 18.
fn transfers_are_described(case: &Case) -> bool {
    described_by(case, trace::described)
}

/// The same with the entries given that describe a device's transfers now. A copy into a destination is itself a write
/// transfer, of the value that the source holds now.
pub fn described_by(case: &Case, described: fn(&Config, &State, usize) -> Vec<Entry>) -> bool {
    let Some(Actor::Device(device)) = case.operation.actor() else {
        return true;
    };
    let transfers = match case.operation {
        Operation::Write { .. } | Operation::Read { .. } => described(case.config, case.state, device),
        _ => return true,
    };
    let read = |object: usize| transfers.iter().any(|entry| entry.object == object && entry.reads());
    let written = |object: usize, value: Option<usize>| {
        let fits = |stored: usize| case.config.kind(object) != Kind::Transfer || value == Some(stored);
        transfers.iter().any(|entry| entry.object == object && entry.writes() && fits(entry.stored))
    };
    match case.operation {
        Operation::Write { items, .. } => items.iter().all(|item| match item.put {
            Put::Value(value) => written(item.object, Some(value)),
            Put::Raw(_) => written(item.object, None),
        }),
        Operation::Read { pairs, .. } => pairs.iter().all(|pair| {
            let copied = pair.destination == 0 || written(pair.destination, Some(case.state.held(pair.source)));
            read(pair.source) && copied
        }),
        _ => true,
    }
}

/// The zone of the driver that writes or reads (codes 1 and 3), before the call.
pub fn driver_zone(case: &Case) -> Option<u8> {
    match case.operation {
        Operation::Write { actor: Actor::Driver(driver), .. }
        | Operation::Read { actor: Actor::Driver(driver), .. } => Some(case.state.driver(*driver)),
        _ => None,
    }
}

/// Question 19: a driver's write or read in a zone that is not green, on the state that would follow, about every
/// active device of the line, those in green zones too.
fn nothing_crosses_after(case: &Case) -> bool {
    driver_zone(case).is_none_or(|zone| case.state.is_green(zone)) || !crosses_after(case)
}

/// Whether an entry of any active device would cross in the state that would follow.
pub fn crosses_after(case: &Case) -> bool {
    let next = effect::apply(case.config, case.state, case.operation);
    closure::any_crosses(case.config, &next, case.search)
}

/// Question 20: deactivations, on the state before the call.
fn nothing_leaves_named(case: &Case) -> bool {
    !leaves_in_reach(case) && !leaves_named_in_green(case)
}

/// Whether an active device has an entry in reach that names what leaves. A device that leaves counts for nothing
/// itself, but the pairs that it can write count for the others. An entry of any mode names its object.
pub fn leaves_in_reach(case: &Case) -> bool {
    let leaving = match case.operation {
        Operation::Deactivate { actor } => Some(*actor),
        Operation::DeactivateExternal { .. } => None,
        _ => return false,
    };
    let concerned = effect::concerned(case.config, case.operation);
    let found = (case.search)(case.config, case.state);
    let mut others =
        closure::entries(case.config, &found).filter(|(device, _)| leaving != Some(Actor::Device(*device)));
    others.any(|(_, entry)| concerned.contains(&entry.object))
}

/// Whether a descriptor that stays in a green zone names what leaves it (request N5), read by a device or not.
pub fn leaves_named_in_green(case: &Case) -> bool {
    let leaves = matches!(case.operation, Operation::Deactivate { .. } | Operation::DeactivateExternal { .. });
    let concerned = effect::concerned(case.config, case.operation);
    leaves && !green::names_of_what_stays(case.config, case.state, &concerned).is_empty()
}

/// Question 22 (request N5), in a green zone: each value that a driver stores into a descriptor keeps the green rule by
/// itself, and a device that comes in has no ring.
fn green_rule_is_kept(case: &Case) -> bool {
    if let Operation::Activate { actor: Actor::Device(device), partition } = case.operation {
        return !case.state.is_green(*partition as u8) || !case.config.has_ring(*device);
    }
    let Some(zone) = driver_zone(case).filter(|zone| case.state.is_green(*zone)) else {
        return true;
    };
    let stored = green::stored_values(case.config, case.state, case.operation);
    stored.into_iter().all(|value| green::is_green_value(case.config, case.state, zone, value))
}

/// Question 21 (request N4): a device that comes in, with a ring or without, on the state that would follow, about
/// every active device.
fn nothing_crosses_with_the_device(case: &Case) -> bool {
    !matches!(case.operation, Operation::Activate { actor: Actor::Device(_), .. }) || !crosses_after(case)
}
