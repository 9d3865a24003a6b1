//! What goes wrong with devices that advance rings of their own (request N4): questions 6 and 21, and what a hardcoded
//! value's writes bring.

use super::answers::{nothing_cleared, plain};
use super::{Fault, NONE, eighteen, search};
use crate::closure::{self, Closure, closure};
use crate::config::{self, Config, Entry, Kind, Owner, hardcoded_values_fit};
use crate::effect;
use crate::operation::{Actor, Operation};
use crate::questions::{Case, Question, described_by};
use crate::state::{self, CLEARED, State};
use crate::trace;
use std::collections::BTreeSet;

/// Question 21 put wrongly: it passes what it should refuse (21), or the other way round (0).
const fn twenty_one(name: &'static str, touches: &'static [u8], question: Question) -> Fault {
    Fault { name, codes: &[8], touches, instead: Some((21, question)), ..NONE }
}

/// Faults that sessions notice.
pub const RINGS: [Fault; 13] = [
    twenty_one("21 not put", &[21], |_| true),
    twenty_one("21 put for drivers instead", &[21], put_to_drivers),
    twenty_one("21 put on the state before the call", &[21], |case| crosses_in(case, case.state)),
    twenty_one("21 put with the objects as they were", &[0], |case| crosses_in(case, &uncleared(case))),
    twenty_one("21 put with kind 4 cleared", &[21], |case| crosses_in(case, &all_cleared(case))),
    twenty_one("21 looks at the device that comes in", &[21], |case| passes_for(case, |_, who, device| who == device)),
    twenty_one("21 searches for that device alone", &[21], |case| crosses_in(case, &alone(case))),
    Fault { name: "21 before 16", codes: &[8], touches: &[16, 22, 23], asked: &[16], early: Some((21, 16)), ..NONE },
    Fault {
        name: "21 before 14",
        codes: &[8],
        touches: &[14, 16, 22, 23],
        asked: &[14],
        early: Some((21, 14)),
        ..NONE
    },
    Fault { asked: &[21], ..search("closure: hardcoded values write nothing", without_ring_writes) },
    Fault { asked: &[21], ..search("closure: hardcoded values put 0", with_ring_values_0) },
    eighteen("18: hardcoded values write no kind 1", &[0], |case| described_by(case, without_ring)),
    eighteen("18: hardcoded values put any value", &[18], |case| described_by(case, with_any_ring_value)),
];

/// Faults that no session notices: in a state that calls have made, only a device with a ring brings an entry outside,
/// and only to devices of its own partition. They are told by calls on other well formed states.
pub const UNREACHED: [Fault; 2] = [
    twenty_one("21 put for rings only", &[21], |case| !has_ring(case) || plain(21, case)),
    twenty_one("21 looks at the partition named", &[21], |case| {
        passes_for(case, |next, who, device| next.device(who) == next.device(device))
    }),
];

/// Question 6 put wrongly, by what each does.
pub const LOADERS: [(&str, config::Question); 5] = [
    ("6 without 'own device'", |config| all_fit(config, |kind, _, _| kind != Kind::Hardcoded)),
    ("6 lets others' kind 1 be written", |config| {
        all_fit(config, |kind, own, entry| kind != Kind::Hardcoded && (own || config.stores(entry)))
    }),
    ("6 lets kind 4 be named", |config| all_fit(config, |_, own, _| own)),
    ("6 refuses mode 2 still", |config| hardcoded_values_fit(config) && !rings_by(config, 2)),
    ("6 refuses mode 3 still", |config| hardcoded_values_fit(config) && !rings_by(config, 3)),
];

/// Whether every entry of a hardcoded value fits, told by its object's kind and whether that is the device's own.
fn all_fit(config: &Config, fits: impl Fn(Kind, bool, &Entry) -> bool) -> bool {
    (1..=config.devices()).all(|device| {
        config.hardcoded_entries(device).iter().all(|entry| {
            let object = config.object(entry.object);
            fits(object.kind, object.owner == Owner::Device(device), entry)
        })
    })
}

/// Whether a hardcoded value writes kind 1 by this mode.
fn rings_by(config: &Config, mode: usize) -> bool {
    let mut entries = (1..=config.devices()).flat_map(|device| config.hardcoded_entries(device));
    entries.any(|entry| entry.mode == mode && config.stores(entry))
}

/// The device that a call brings in.
fn entering(case: &Case) -> Option<usize> {
    match case.operation {
        Operation::Activate { actor: Actor::Device(device), .. } => Some(*device),
        _ => None,
    }
}

fn has_ring(case: &Case) -> bool {
    entering(case).is_some_and(|device| case.config.has_ring(device))
}

/// Question 21 on another state than the one that would follow.
fn crosses_in(case: &Case, state: &State) -> bool {
    entering(case).is_none() || !closure::any_crosses(case.config, state, case.search)
}

/// Question 21 about some devices only, told by the state that would follow and the device that comes in.
fn passes_for(case: &Case, asked: impl Fn(&State, usize, usize) -> bool) -> bool {
    let Some(device) = entering(case) else { return true };
    let next = after(case);
    let found = (case.search)(case.config, &next);
    let mut entries = closure::entries(case.config, &found).filter(|(who, _)| asked(&next, *who, device));
    entries.all(|(who, entry)| !closure::crosses(case.config, &next, who, entry))
}

fn after(case: &Case) -> State {
    effect::apply(case.config, case.state, case.operation)
}

/// Question 21 put to code 7 and not to code 8.
fn put_to_drivers(case: &Case) -> bool {
    let driver = matches!(case.operation, Operation::Activate { actor: Actor::Driver(_), .. });
    !driver || !closure::any_crosses(case.config, &after(case), case.search)
}

/// The state that would follow if nothing was cleared.
fn uncleared(case: &Case) -> State {
    nothing_cleared(case.config, case.state, case.operation)
}

/// The state that would follow if hardcoded descriptors were cleared too.
fn all_cleared(case: &Case) -> State {
    let mut next = after(case);
    for object in effect::concerned(case.config, case.operation) {
        next.objects[object - 1].contents = CLEARED;
    }
    next
}

/// The state that would follow, with no other device active.
fn alone(case: &Case) -> State {
    let mut next = after(case);
    for device in 1..=case.config.devices() {
        if entering(case) != Some(device) {
            next.devices[device - 1] = state::NONE;
        }
    }
    next
}

/// The configuration with the hardcoded values' writes to kind 1 changed, wherever such a value is held.
fn with_ring_entries(config: &Config, change: fn(&mut Entry)) -> Config {
    let mut other = config.clone();
    let values: BTreeSet<usize> = config.hardcoded.iter().copied().filter(|value| *value != 0).collect();
    for value in values {
        other.values[value - 1].iter_mut().filter(|entry| config.stores(entry)).for_each(change);
    }
    other
}

/// Mode 2 does nothing, mode 3 reads only.
fn writes_no_more(entry: &mut Entry) {
    *entry = Entry { mode: if entry.reads() { 1 } else { 0 }, stored: 0, ..*entry };
}

fn without_ring_writes(config: &Config, state: &State) -> Closure {
    closure(&with_ring_entries(config, writes_no_more), state)
}

fn with_ring_values_0(config: &Config, state: &State) -> Closure {
    closure(&with_ring_entries(config, |entry| entry.stored = 0), state)
}

fn without_ring(config: &Config, state: &State, device: usize) -> Vec<Entry> {
    trace::described(&with_ring_entries(config, writes_no_more), state, device)
}

/// The entries that describe a device's transfers, those of its ring with every value.
fn with_any_ring_value(config: &Config, state: &State, device: usize) -> Vec<Entry> {
    let own = config.hardcoded_entries(device).iter().filter(|entry| config.stores(entry));
    let any = own.flat_map(|entry| (0..=config.values.len()).map(|stored| Entry { stored, ..*entry }));
    any.chain(trace::described(config, state, device)).collect()
}
