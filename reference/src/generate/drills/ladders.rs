//! Chains of descriptor writes of every length, against every order of numbers. One configuration has one long chain of
//! values; a chain of any length begins where a driver writes one of them.

use super::numbers::Numbering;
use super::script::{Drill, Script, Zone, both, reads, writes};
use crate::config::{Entry, Kind, Owner};
use crate::generate::rng::Rng;
use crate::limits::MAX_VALUES;
use crate::operation::Actor;

/// The most links: one value is a hardcoded descriptor's.
const MOST_LINKS: usize = MAX_VALUES - 1;

/// How the descriptors of a chain lie.
#[derive(Clone, Copy, Debug, PartialEq, Eq)]
pub enum Way {
    /// One behind the other, in this order of numbers.
    Over(Numbering),
    /// All links in one descriptor.
    Level,
}

pub const WAYS: [Way; 4] =
    [Way::Over(Numbering::Kept), Way::Over(Numbering::Reversed), Way::Over(Numbering::Shuffled), Way::Level];

/// Values of which each puts the next into a descriptor that the device then reads; the last has no entries yet.
pub(super) fn chain(script: &mut Script, zone: &Zone, links: usize, way: Way) -> Vec<usize> {
    let values = script.values(links);
    let beside = script.plain(zone);
    for two in values.windows(2) {
        let object = if way == Way::Level { zone.head } else { script.descriptor(zone) };
        let mut entries = link(script, object, two[1]);
        if script.rng.percent(12) {
            entries.push(script.touches(beside));
        }
        script.set(two[0], entries);
    }
    script.world.heads.push((zone.head, values[0]));
    values
}

/// A write of the next value and a read of its descriptor, in one entry or in two.
fn link(script: &mut Script, object: usize, stored: usize) -> Vec<Entry> {
    match script.rng.below(2) {
        0 => vec![both(object, stored)],
        _ => vec![writes(object, stored), reads(object)],
    }
}

pub(super) fn ended(script: Script, way: Way) -> Drill {
    let objects = match way {
        Way::Over(numbering) => numbering,
        Way::Level => Numbering::Shuffled,
    };
    let values = Numbering::any(script.rng);
    script.end(objects, values)
}

/// The values of a chain, in any order.
fn starts(script: &mut Script, values: &[usize]) -> Vec<usize> {
    script.rng.some(values, values.len())
}

/// A driver writes, or copies, every value of a chain that leads outside to where the device reads it.
pub fn crossing(rng: &mut Rng, way: Way, copied: bool) -> Drill {
    let mut script = Script::new(rng);
    let zone = script.zone();
    let values = chain(&mut script, &zone, MOST_LINKS, way);
    let outside = script.outside(&zone);
    script.set(values[MOST_LINKS - 1], vec![outside]);
    let spare = script.object(Kind::Transfer, Owner::Driver(zone.driver), zone.partition);
    script.open();
    for value in starts(&mut script, &values) {
        if copied {
            script.write(zone.driver, &[(spare, value)]);
            script.copy(zone.driver, &[(spare, zone.head)]);
        } else {
            script.write(zone.driver, &[(zone.head, value)]);
        }
    }
    ended(script, way)
}

/// A chain that stays inside and ends at what then is to leave: a driver's, a device's or an external object.
pub fn leaving(rng: &mut Rng, way: Way) -> Drill {
    let mut script = Script::new(rng);
    let zone = script.zone();
    let values = chain(&mut script, &zone, MOST_LINKS, way);
    let driver = script.driver(zone.partition);
    let device = script.idle_device(zone.partition);
    let owners = [Owner::Driver(driver), Owner::Device(device), Owner::External];
    let objects = owners.map(|owner| script.object(Kind::Data, owner, zone.partition));
    let ends = objects.map(|object| script.touches(object)).to_vec();
    script.set(values[MOST_LINKS - 1], ends);
    script.open();
    for value in starts(&mut script, &values) {
        script.write(zone.driver, &[(zone.head, value)]);
        match script.rng.below(3) {
            0 => script.leave(Actor::Driver(driver)),
            1 => script.leave(Actor::Device(device)),
            _ => script.leave_external(&zone, objects[2]),
        }
    }
    script.write(zone.driver, &[(zone.head, 0)]);
    script.leave(Actor::Device(device));
    script.leave_external(&zone, objects[2]);
    ended(script, way)
}

/// Devices that take turns: each puts the next value where the next device reads it. The last value leads outside, or
/// names what is to leave.
pub fn relay(rng: &mut Rng, devices: usize, inside: bool) -> Drill {
    let mut script = Script::new(rng);
    let zone = script.zone();
    let mut heads = vec![zone.head];
    for _ in 1..devices {
        heads.push(script.device(zone.partition).1);
    }
    let links = script.rng.between(12, MAX_VALUES - devices);
    let values = script.values(links);
    for (place, two) in values.windows(2).enumerate() {
        let entry = writes(heads[(place + 1) % devices], two[1]);
        script.set(two[0], vec![entry]);
    }
    let object = script.object(Kind::Data, Owner::External, zone.partition);
    let end = if inside { script.touches(object) } else { script.outside(&zone) };
    script.set(values[links - 1], vec![end]);
    script.open();
    let items: Vec<(usize, usize)> =
        values.iter().enumerate().map(|(place, value)| (heads[place % devices], *value)).collect();
    for item in script.rng.some(&items, 10) {
        script.write(zone.driver, &[item]);
        if inside {
            script.leave_external(&zone, object);
            script.write(zone.driver, &[(item.0, 0)]);
        }
    }
    ended(script, Way::Over(Numbering::Shuffled))
}
