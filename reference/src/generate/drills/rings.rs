//! Devices that advance rings of their own (request N4): brought in before and after what their rings lead to.

use super::ladders::{Way, chain, ended};
use super::numbers::Numbering;
use super::script::{Drill, Script, Zone, both, reads, writes};
use crate::config::{Entry, Kind, Owner};
use crate::generate::rng::Rng;
use crate::operation::{Actor, Operation};

/// A partition that no drill creates.
const MISSING: usize = 63;

/// The chain that a ring begins.
#[derive(Clone, Copy, Debug)]
pub struct Leaving {
    /// The descriptor writes after which it leaves.
    pub steps: usize,
    pub way: Way,
    /// So many objects stand before it.
    pub behind: usize,
}

/// Gives a zone's device another hardcoded value.
fn hardcode(script: &mut Script, zone: &Zone, entries: Vec<Entry>) {
    let value = script.world.config.hardcoded[zone.device - 1];
    script.world.config.values[value - 1] = entries;
}

/// A write of a value and a read of its descriptor: in one entry, or in two.
fn ring(script: &mut Script, head: usize, stored: usize) -> Vec<Entry> {
    if script.rng.percent(50) { vec![both(head, stored)] } else { vec![writes(head, stored), reads(head)] }
}

fn enter(script: &mut Script, device: usize, partition: usize) {
    script.operations.push(Operation::Activate { actor: Actor::Device(device), partition });
}

/// A partition with nothing in it.
fn other_partition(script: &mut Script) -> usize {
    script.world.zones.push(script.world.zones.len() + 1);
    script.world.zones.len()
}

/// Creates all partitions and brings everything in but one device, which is tried before it all, in its midst and at
/// the end.
fn open_around(script: &mut Script, device: usize) {
    script.create();
    let mut others = script.entering();
    let partition = script.world.devices[device - 1];
    others.retain(|operation| operation.actor() != Some(Actor::Device(device)));
    script.rng.shuffle(&mut others);
    let midst = script.rng.below(others.len());
    enter(script, device, partition);
    for (place, operation) in others.into_iter().enumerate() {
        script.operations.push(operation);
        if place == midst {
            enter(script, device, partition);
        }
    }
    enter(script, device, partition);
}

/// A ring whose chain ends at an external object, which is outside until it is brought in.
pub fn leaving(rng: &mut Rng, Leaving { steps, way, behind }: Leaving) -> Drill {
    let mut script = Script::new(rng);
    script.fill(behind, Owner::Device(1), 1);
    let zone = script.zone();
    let Zone { device, head, partition, .. } = zone;
    let values = chain(&mut script, &zone, steps, way);
    let end = script.object(Kind::Data, Owner::External, 0);
    let last = script.touches(end);
    script.set(values[steps - 1], vec![last]);
    let entries = ring(&mut script, head, values[0]);
    hardcode(&mut script, &zone, entries);
    let other = other_partition(&mut script);
    open_around(&mut script, device);
    script.enter_external(&zone, end);
    enter(&mut script, device, partition);
    script.leave_external(&zone, end);
    enter(&mut script, device, other);
    go_round(&mut script, &zone, &values);
    script.leave(Actor::Device(device));
    enter(&mut script, device, MISSING);
    enter(&mut script, device, other);
    script.leave_external(&zone, end);
    enter(&mut script, device, partition);
    script.operations.push(Operation::ActivateExternal { partition: other, objects: vec![end] });
    enter(&mut script, device, partition);
    enter(&mut script, device, other);
    ended(script, way)
}

/// A device puts its ring's first value, then the last one, and reads its ring.
fn go_round(script: &mut Script, zone: &Zone, values: &[usize]) {
    let Zone { device, head, .. } = *zone;
    script.device_write(device, &[(head, values[0])]);
    script.device_write(device, &[(head, values[values.len() - 1])]);
    script.device_write(device, &[(head, 0)]);
    script.device_copy(device, &[(head, 0)]);
}

/// A ring that goes round within the device's own objects: it may come in anywhere. What a driver puts there may lead
/// outside.
pub fn inside(rng: &mut Rng, round: usize) -> Drill {
    let mut script = Script::new(rng);
    let zone = script.zone();
    let Zone { device, driver, head, partition } = zone;
    let values = script.values(round);
    for (place, value) in values.iter().enumerate() {
        let own = script.object(Kind::Data, Owner::Device(device), partition);
        let entries = vec![both(head, values[(place + 1) % round]), script.touches(own)];
        script.set(*value, entries);
    }
    let outside = script.outside(&zone);
    let bad = script.value(vec![outside]);
    let entries = ring(&mut script, head, values[0]);
    hardcode(&mut script, &zone, entries);
    let other = other_partition(&mut script);
    open_around(&mut script, device);
    for value in &values {
        script.device_write(device, &[(head, *value)]);
    }
    go_round(&mut script, &zone, &values);
    script.write(driver, &[(head, bad)]);
    script.write(driver, &[(head, values[round - 1])]);
    script.leave(Actor::Device(device));
    enter(&mut script, device, other);
    script.device_write(device, &[(head, values[0])]);
    script.end(Numbering::Shuffled, Numbering::Shuffled)
}

/// A ring that is written and not read: where it leads is nothing to its device, until something reads it.
pub fn unread(rng: &mut Rng) -> Drill {
    let mut script = Script::new(rng);
    let zone = script.zone();
    let Zone { device, driver, head, partition } = zone;
    let second = script.object(Kind::Transfer, Owner::Device(device), partition);
    let outside = script.outside(&zone);
    let bad = script.value(vec![outside]);
    let (harmless, reading) = (script.value(vec![reads(second)]), script.value(vec![reads(head)]));
    hardcode(&mut script, &zone, vec![writes(head, bad), reads(second)]);
    open_around(&mut script, device);
    script.write(driver, &[(second, reading)]);
    script.write(driver, &[(head, 0), (second, harmless)]);
    script.device_copy(device, &[(head, 0)]);
    script.device_write(device, &[(head, harmless)]);
    script.device_write(device, &[(head, bad)]);
    script.device_copy(device, &[(second, 0)]);
    script.write(driver, &[(second, 0)]);
    script.copy(driver, &[(head, 0)]);
    script.write(driver, &[(second, reading)]);
    script.leave(Actor::Device(device));
    enter(&mut script, device, partition);
    script.end(Numbering::Shuffled, Numbering::Shuffled)
}

/// Two devices with rings that feed each other through an external descriptor: the first puts there what the second
/// reads, in turns, until the second leaves the partition. Whichever comes in last is refused.
pub fn pair(rng: &mut Rng, turns: usize) -> Drill {
    let mut script = Script::new(rng);
    let zone = script.zone();
    let Zone { device, head, partition, .. } = zone;
    let (second, second_head) = script.device(partition);
    let shared = script.object(Kind::Transfer, Owner::External, partition);
    let back = script.object(Kind::Transfer, Owner::External, partition);
    let end = script.object(Kind::Data, Owner::External, 0);
    let last = script.touches(end);
    let mut value = script.value(vec![last]);
    // What the second reads puts into `back` what the first reads, which puts the next into `shared`.
    for _ in 1..turns {
        let answer = script.value(vec![writes(shared, value)]);
        value = script.value(vec![writes(back, answer)]);
    }
    let feeding = script.value(vec![writes(shared, value), reads(back)]);
    let reading = script.value(vec![reads(shared)]);
    let entries = ring(&mut script, head, feeding);
    hardcode(&mut script, &zone, entries);
    let entries = ring(&mut script, second_head, reading);
    hardcode(&mut script, &Zone { device: second, head: second_head, ..zone }, entries);
    open_around(&mut script, device);
    enter(&mut script, second, partition);
    for (leaving, entering) in [(device, second), (second, device), (device, second), (second, device)] {
        script.leave(Actor::Device(leaving));
        enter(&mut script, leaving, partition);
        enter(&mut script, entering, partition);
        enter(&mut script, leaving, partition);
    }
    script.enter_external(&zone, end);
    enter(&mut script, second, partition);
    enter(&mut script, device, partition);
    script.leave_external(&zone, end);
    script.leave_external(&zone, shared);
    script.leave(Actor::Device(device));
    script.leave_external(&zone, end);
    enter(&mut script, device, partition);
    script.end(Numbering::Shuffled, Numbering::Shuffled)
}

/// What a ring leads to may be put to B or to C and then not back: C writes x, B reads x. Refused by pairs, passed by
/// whole states.
pub fn choice(rng: &mut Rng) -> Drill {
    let mut script = Script::new(rng);
    let zone = script.zone();
    let Zone { device, driver, head, partition } = zone;
    let outside = script.outside(&zone);
    let bad = script.value(vec![outside]);
    let owners = [Owner::External, Owner::Driver(driver)];
    let [chosen, x] = [0; 2].map(|_| {
        let owner = owners[script.rng.below(2)];
        script.object(Kind::Transfer, owner, partition)
    });
    let (b, c) = (script.value(vec![reads(x)]), script.value(vec![writes(x, bad)]));
    let choice = script.value(vec![writes(chosen, b), writes(chosen, c)]);
    let leading = script.value(vec![reads(chosen)]);
    let entries = ring(&mut script, head, leading);
    hardcode(&mut script, &zone, entries);
    open_around(&mut script, device);
    script.leave(Actor::Device(device));
    for value in [b, choice, c, choice] {
        script.write(driver, &[(chosen, value)]);
        enter(&mut script, device, partition);
        script.leave(Actor::Device(device));
    }
    script.write(driver, &[(chosen, 0)]);
    enter(&mut script, device, partition);
    script.write(driver, &[(chosen, choice)]);
    script.end(Numbering::Shuffled, Numbering::Shuffled)
}

/// A hardcoded value of six entries that puts two values into one descriptor before it reads it; the first leads
/// outside, and so does what another descriptor gets.
pub fn of_six(rng: &mut Rng) -> Drill {
    let mut script = Script::new(rng);
    let zone = script.zone();
    let Zone { device, head, partition, .. } = zone;
    let second = script.object(Kind::Transfer, Owner::Device(device), partition);
    let data = script.object(Kind::Data, Owner::Device(device), partition);
    let ends = [0; 2].map(|_| script.object(Kind::Data, Owner::External, 0));
    let [bad, worse] = ends.map(|end| {
        let entry = script.touches(end);
        script.value(vec![entry])
    });
    let good = script.value(vec![both(second, 0), both(data, 0)]);
    let all = [writes(head, bad), writes(head, good), reads(head), reads(second), writes(second, worse)];
    let own = script.touches(data);
    hardcode(&mut script, &zone, [&all[..], &[own]].concat());
    open_around(&mut script, device);
    script.enter_external(&zone, ends[1]);
    enter(&mut script, device, partition);
    enter(&mut script, device, partition);
    script.enter_external(&zone, ends[0]);
    enter(&mut script, device, partition);
    script.device_write(device, &[(head, good), (second, worse)]);
    script.device_write(device, &[(head, worse)]);
    script.device_write(device, &[(head, bad), (second, 0)]);
    script.leave_external(&zone, ends[0]);
    script.leave_external(&zone, ends[1]);
    script.leave(Actor::Device(device));
    script.leave_external(&zone, ends[0]);
    enter(&mut script, device, partition);
    script.end(Numbering::Shuffled, Numbering::Shuffled)
}

/// A device leaves with a value in its ring that is inside, and comes back when it would be outside: what it held is
/// cleared, so that it may come in.
pub fn returning(rng: &mut Rng) -> Drill {
    let mut script = Script::new(rng);
    let zone = script.zone();
    let Zone { device, driver, head, partition } = zone;
    let end = script.object(Kind::Data, Owner::External, partition);
    let entry = script.touches(end);
    let naming = script.value(vec![entry]);
    let own = script.object(Kind::Transfer, Owner::Device(device), partition);
    let harmless = script.value(vec![reads(own)]);
    let entries = ring(&mut script, head, harmless);
    hardcode(&mut script, &zone, entries);
    let other = other_partition(&mut script);
    open_around(&mut script, device);
    for place in [partition, other] {
        script.write(driver, &[(head, naming)]);
        script.leave_external(&zone, end);
        script.leave(Actor::Device(device));
        script.leave_external(&zone, end);
        enter(&mut script, device, place);
        script.device_write(device, &[(head, harmless)]);
        script.enter_external(&zone, end);
    }
    script.end(Numbering::Shuffled, Numbering::Shuffled)
}

/// A device with a descriptor of its own and hardcoded value 0 has no ring: it may come in anywhere, whatever its
/// descriptor held.
pub fn none(rng: &mut Rng) -> Drill {
    let mut script = Script::new(rng);
    let zone = script.zone();
    let Zone { driver, partition, .. } = zone;
    let idle = script.idle_device(partition);
    let own = script.object(Kind::Transfer, Owner::Device(idle), partition);
    let outside = script.outside(&zone);
    let bad = script.value(vec![outside]);
    let other = other_partition(&mut script);
    open_around(&mut script, idle);
    script.write(driver, &[(own, bad)]);
    script.device_copy(idle, &[(own, 0)]);
    script.leave(Actor::Device(idle));
    enter(&mut script, idle, other);
    script.device_write(idle, &[(own, 0)]);
    script.end(Numbering::Shuffled, Numbering::Shuffled)
}
