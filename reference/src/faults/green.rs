//! What goes wrong with green zones (request N5): the green rule, the place of question 22, and the stricter 20.

use super::answers::plain;
use super::{Fault, NONE};
use crate::closure;
use crate::config::{Entry, Kind};
use crate::effect;
use crate::green::{is_green_value, stored_values};
use crate::operation::{Actor, Operation, Put};
use crate::questions::{Case, Question, crosses_after, driver_zone, leaves_in_reach};
use crate::state::{self, GREEN, State};

/// Question 20 put wrongly: it passes what it should refuse (20), or the other way round (0).
const fn twenty(name: &'static str, touches: &'static [u8], question: Question) -> Fault {
    Fault { name, codes: &[10, 11, 12], touches, instead: Some((20, question)), ..NONE }
}

/// The same for operations of one code.
const fn twenty_of(name: &'static str, codes: &'static [usize], question: Question) -> Fault {
    Fault { codes, ..twenty(name, &[20], question) }
}

/// Question 22 put wrongly to what drivers store.
const fn stored(name: &'static str, touches: &'static [u8], question: Question) -> Fault {
    Fault { name, codes: &[1, 3], touches, instead: Some((22, question)), ..NONE }
}

/// Question 22 put wrongly to devices that come in.
const fn entering(name: &'static str, touches: &'static [u8], question: Question) -> Fault {
    Fault { name, codes: &[8], touches, instead: Some((22, question)), ..NONE }
}

/// A question put before another.
const fn early(name: &'static str, codes: &'static [usize], touches: &'static [u8], question: u8, before: u8) -> Fault {
    Fault { name, codes, touches, early: Some((question, before)), ..NONE }
}

/// Faults that sessions notice.
pub const GREENS: [Fault; 37] = [
    twenty("20 not stricter", &[20], |case| !leaves_in_reach(case)),
    twenty_of("20 not stricter for drivers", &[10], |case| not_stricter_for(case, 10)),
    twenty_of("20 not stricter for devices", &[11], |case| not_stricter_for(case, 11)),
    twenty_of("20 not stricter for external objects", &[12], |case| not_stricter_for(case, 12)),
    twenty("20: an entry of mode 1 names nothing", &[20], |case| strict(case, |by| by.counts() && by.mode != 1)),
    twenty("20: an entry of mode 2 names nothing", &[20], |case| strict(case, |by| by.counts() && by.mode != 2)),
    twenty("20: an entry of mode 3 names nothing", &[20], |case| strict(case, |by| by.counts() && by.mode != 3)),
    twenty("20: only hardcoded descriptors name", &[20], |case| strict(case, |by| by.counts() && by.is_hardcoded)),
    twenty("20 asks the first object that leaves", &[20], |case| strict(case, |by| by.counts() && by.is_first)),
    twenty("20 counts descriptors that leave", &[0], |case| strict(case, |by| by.from_green && by.place == by.zone)),
    twenty("20 stricter in every zone", &[0], |case| strict(case, |by| by.place == by.zone && by.stays)),
    twenty("20 asks descriptors of other zones", &[0], |case| {
        strict(case, |by| by.from_green && by.place != state::NONE && by.stays)
    }),
    twenty("20 asks inactive descriptors", &[0], |case| {
        strict(case, |by| by.counts() || (by.from_green && by.place == state::NONE))
    }),
    stored("22 not put to drivers", &[22], |case| driver_zone(case).is_some() || plain(22, case)),
    stored("22 put by a search", &[22], |case| rule(case, |case| !crosses_after(case))),
    stored("22 lets kind 1 be written", &[22], |case| keeps(case, |entry| entry.is_inside && !entry.is_hardcoded)),
    stored("22 lets kind 1 be written by mode 2", &[22], |case| keeps(case, |entry| entry.is_green_or_by(2))),
    stored("22 lets kind 1 be written by mode 3", &[22], |case| keeps(case, |entry| entry.is_green_or_by(3))),
    stored("22 lets kind 4 be named", &[22], |case| keeps(case, |entry| entry.is_inside && !entry.stores)),
    stored("22 lets other zones' objects be named", &[22], |case| {
        keeps(case, |entry| entry.is_green() || (entry.is_elsewhere && !entry.is_hardcoded && !entry.stores))
    }),
    stored("22 lets inactive objects be named", &[22], |case| {
        keeps(case, |entry| entry.is_green() || (entry.is_inactive && !entry.is_hardcoded && !entry.stores))
    }),
    stored("22 lets kind 1 not be read", &[0], |case| keeps(case, |entry| entry.is_green() && !entry.is_transfer)),
    stored("22 asks the first item", &[22], |case| one_value_is_green(case, |values| values.first())),
    stored("22 asks the last item", &[22], |case| one_value_is_green(case, |values| values.last())),
    stored("22 asks the first entry", &[22], |case| entries_at(case, |entries| entries.first())),
    stored("22 asks the last entry", &[22], |case| entries_at(case, |entries| entries.last())),
    stored("22 takes bytes for value numbers", &[0], bytes_are_green),
    stored("22 put in every zone", &[0], green_in_every_zone),
    Fault { instead: Some((19, twenty_two_is_no_matter)), ..stored("19 put in green zones too", &[22], |_| true) },
    Fault { instead: Some((19, nothing_green_or_19)), ..stored("19 not put beside a green zone", &[19], |_| true) },
    early("22 before 16", &[1, 3, 8], &[16, 17, 23], 22, 16),
    early("22 before 17", &[1, 3], &[17], 22, 17),
    early("22 after 21", &[8], &[22], 21, 22),
    entering("22 not put to devices", &[22], |case| driver_zone(case).is_none() || plain(22, case)),
    entering("22 put to devices in every zone", &[0, 21], |case| plain(22, case) && !has_ring(case, |_| true)),
    entering("22: only mode 2 makes a ring", &[22], |case| ring_rule(case, |entry| entry.mode == 2)),
    entering("22: only mode 3 makes a ring", &[22], |case| ring_rule(case, |entry| entry.mode == 3)),
];

/// Faults that no session notices: what calls have put into a green zone keeps the green rule, so that every copy there
/// passes, and no device of such a zone reads or writes beyond it. They are told by calls on other well formed states.
pub const UNREACHED: [Fault; 9] = [
    stored("22 judges a copy by what its destination held", &[22], |case| copies_by(case, destinations_held)),
    stored("22 asks the first destination", &[22], |case| copies_by(case, |case| values_of(case, 1))),
    stored("22 not put to copies", &[22], |case| copies_by(case, |_| Vec::new())),
    stored("22 judges reads without destination", &[0], |case| copies_by(case, sources_held)),
    stored("19 put behind 22 in green zones", &[0], |case| plain(22, case) && rule(case, |case| !crosses_after(case))),
    twenty("20 asks nothing of reach in green zones", &[20], strict_alone_in_green),
    twenty("20 asks descriptors of every green zone", &[0], |case| {
        strict(case, |by| by.from_green && by.in_green && by.stays)
    }),
    Fault {
        instead: Some((19, devices_beside_green)),
        ..stored("19 asks devices that are not in green zones", &[19], |_| true)
    },
    Fault { instead: Some((21, not_21_in_green)), ..entering("21 not put in green zones", &[21], |_| true) },
];

/// An entry of a descriptor that names an object which leaves: where both are, and what the rule asks about.
struct Naming {
    mode: usize,
    is_hardcoded: bool,
    /// Whether its object is the first that leaves, and whether the descriptor stays.
    is_first: bool,
    stays: bool,
    /// The object's zone and the descriptor's, and whether they are green.
    zone: u8,
    place: u8,
    from_green: bool,
    in_green: bool,
}

impl Naming {
    /// Whether it holds the object back, as the papers have it.
    fn counts(&self) -> bool {
        self.from_green && self.place == self.zone && self.stays
    }
}

/// Question 20 with another stricter part.
fn strict(case: &Case, counts: impl Fn(&Naming) -> bool) -> bool {
    let leaves = matches!(case.operation, Operation::Deactivate { .. } | Operation::DeactivateExternal { .. });
    !leaves || (!leaves_in_reach(case) && !namings(case).iter().any(counts))
}

fn namings(case: &Case) -> Vec<Naming> {
    let Case { config, state, .. } = case;
    let leaving = effect::concerned(config, case.operation);
    let mut list = Vec::new();
    for descriptor in (1..=config.objects.len()).filter(|object| config.kind(*object).is_descriptor()) {
        for entry in config.value(state.held(descriptor)).iter().filter(|entry| leaving.contains(&entry.object)) {
            let (zone, place) = (state.object(entry.object), state.object(descriptor));
            list.push(Naming {
                mode: entry.mode,
                is_hardcoded: config.kind(descriptor) == Kind::Hardcoded,
                is_first: leaving.first() == Some(&entry.object),
                stays: !leaving.contains(&descriptor),
                zone,
                place,
                from_green: state.is_green(zone),
                in_green: state.is_green(place),
            });
        }
    }
    list
}

fn not_stricter_for(case: &Case, code: usize) -> bool {
    if case.operation.code() == code { !leaves_in_reach(case) } else { plain(20, case) }
}

/// An entry of a stored value, as the green rule of a zone sees it.
struct Seen {
    mode: usize,
    is_inside: bool,
    is_elsewhere: bool,
    is_inactive: bool,
    is_hardcoded: bool,
    is_transfer: bool,
    /// Whether it writes kind 1.
    stores: bool,
}

impl Seen {
    fn new(case: &Case, zone: u8, entry: &Entry) -> Seen {
        let place = case.state.object(entry.object);
        let kind = case.config.kind(entry.object);
        Seen {
            mode: entry.mode,
            is_inside: place == zone,
            is_elsewhere: place != zone && place != state::NONE,
            is_inactive: place == state::NONE,
            is_hardcoded: kind == Kind::Hardcoded,
            is_transfer: kind == Kind::Transfer,
            stores: case.config.stores(entry),
        }
    }

    fn is_green(&self) -> bool {
        self.is_inside && !self.is_hardcoded && !self.stores
    }

    fn is_green_or_by(&self, mode: usize) -> bool {
        self.is_green() || (self.is_inside && self.stores && self.mode == mode)
    }
}

/// The zone of a driver that writes or reads, if it is green.
fn green_zone(case: &Case) -> Option<u8> {
    driver_zone(case).filter(|zone| case.state.is_green(*zone))
}

/// Question 22 with another rule for what drivers store in green zones.
fn rule(case: &Case, keeps: impl Fn(&Case) -> bool) -> bool {
    match driver_zone(case) {
        Some(_) => green_zone(case).is_none() || keeps(case),
        None => plain(22, case),
    }
}

/// The first so many values that a call stores.
fn values_of(case: &Case, count: usize) -> Vec<usize> {
    let mut values = stored_values(case.config, case.state, case.operation);
    values.truncate(count);
    values
}

/// Question 22 with another rule for each entry.
fn keeps(case: &Case, fits: fn(&Seen) -> bool) -> bool {
    let zone = driver_zone(case).unwrap_or(state::NONE);
    rule(case, |case| {
        let mut entries = values_of(case, usize::MAX).into_iter().flat_map(|value| case.config.value(value));
        entries.all(|entry| fits(&Seen::new(case, zone, entry)))
    })
}

fn all_green(case: &Case, zone: u8, values: &[usize]) -> bool {
    values.iter().all(|value| is_green_value(case.config, case.state, zone, *value))
}

/// Question 22 about one of the values stored.
fn one_value_is_green(case: &Case, chosen: fn(&[usize]) -> Option<&usize>) -> bool {
    let values: Vec<usize> = chosen(&values_of(case, usize::MAX)).into_iter().copied().collect();
    rule(case, |case| green_zone(case).is_none_or(|zone| all_green(case, zone, &values)))
}

/// Question 22 about one entry of each value.
fn entries_at(case: &Case, chosen: fn(&[Entry]) -> Option<&Entry>) -> bool {
    let zone = driver_zone(case).unwrap_or(state::NONE);
    rule(case, |case| {
        let values = values_of(case, usize::MAX);
        let mut entries = values.iter().filter_map(|value| chosen(case.config.value(*value)));
        entries.all(|entry| Seen::new(case, zone, entry).is_green())
    })
}

/// Question 22 with the first byte of what is stored into kinds 2 and 3 taken for a value number, if it is one.
fn bytes_are_green(case: &Case) -> bool {
    let bytes: Vec<u8> = match case.operation {
        Operation::Write { items, .. } => items
            .iter()
            .filter_map(|item| match item.put {
                Put::Raw(bytes) => Some(bytes[0]),
                Put::Value(_) => None,
            })
            .collect(),
        Operation::Read { pairs, .. } => {
            let copied = pairs.iter().filter(|pair| pair.destination != 0);
            copied.map(|pair| case.state.contents(pair.source)[0]).collect()
        }
        _ => Vec::new(),
    };
    let known = bytes.into_iter().map(usize::from).filter(|value| *value <= case.config.values.len());
    let values: Vec<usize> = known.collect();
    plain(22, case) && rule(case, |case| green_zone(case).is_none_or(|zone| all_green(case, zone, &values)))
}

fn green_in_every_zone(case: &Case) -> bool {
    let values = values_of(case, usize::MAX);
    plain(22, case) && driver_zone(case).is_none_or(|zone| all_green(case, zone, &values))
}

/// Question 19 in every zone.
fn twenty_two_is_no_matter(case: &Case) -> bool {
    driver_zone(case).is_none() || !crosses_after(case)
}

/// Question 19 only where no zone is green.
fn nothing_green_or_19(case: &Case) -> bool {
    case.state.status.contains(&GREEN) || plain(19, case)
}

/// The entries of the hardcoded value of a device that comes in, and the partition.
fn hardcoded_entries<'a>(case: &'a Case) -> (&'a [Entry], u8) {
    match case.operation {
        Operation::Activate { actor: Actor::Device(device), partition } => {
            (case.config.hardcoded_entries(*device), *partition as u8)
        }
        _ => (&[], state::NONE),
    }
}

fn has_ring(case: &Case, asked: fn(&Entry) -> bool) -> bool {
    hardcoded_entries(case).0.iter().any(|entry| case.config.stores(entry) && asked(entry))
}

/// Question 22 with another rule for what a ring is.
fn ring_rule(case: &Case, asked: fn(&Entry) -> bool) -> bool {
    match driver_zone(case) {
        Some(_) => plain(22, case),
        None => !case.state.is_green(hardcoded_entries(case).1) || !has_ring(case, asked),
    }
}

/// Question 22 with other values for copies.
fn copies_by(case: &Case, values: impl Fn(&Case) -> Vec<usize>) -> bool {
    let Operation::Read { actor: Actor::Driver(_), .. } = case.operation else {
        return plain(22, case);
    };
    green_zone(case).is_none_or(|zone| all_green(case, zone, &values(case)))
}

fn destinations_held(case: &Case) -> Vec<usize> {
    let targets = case.operation.targets().into_iter();
    targets.filter(|object| case.config.kind(*object) == Kind::Transfer).map(|o| case.state.held(o)).collect()
}

fn sources_held(case: &Case) -> Vec<usize> {
    let sources = case.operation.sources().into_iter();
    sources.filter(|object| case.config.kind(*object) == Kind::Transfer).map(|o| case.state.held(o)).collect()
}

/// Question 20 with the stricter part alone for what leaves green zones.
fn strict_alone_in_green(case: &Case) -> bool {
    let leaving = effect::concerned(case.config, case.operation);
    let green = !leaving.is_empty() && leaving.iter().all(|object| case.state.is_green(case.state.object(*object)));
    if green { !namings(case).iter().any(Naming::counts) } else { plain(20, case) }
}

/// Question 19 about the devices of zones that are not green.
fn devices_beside_green(case: &Case) -> bool {
    if driver_zone(case).is_none() || green_zone(case).is_some() {
        return true;
    }
    let next: State = effect::apply(case.config, case.state, case.operation);
    let found = (case.search)(case.config, &next);
    let mut entries = closure::entries(case.config, &found).filter(|(device, _)| !next.is_green(next.device(*device)));
    entries.all(|(device, entry)| !closure::crosses(case.config, &next, device, entry))
}

fn not_21_in_green(case: &Case) -> bool {
    case.state.is_green(hardcoded_entries(case).1) || plain(21, case)
}
