//! The standing of green zones (request N5), and devices with rings that are tried in them and in others.

use super::numbers::Numbering;
use super::script::{Drill, Script, Zone, both, reads, writes};
use crate::config::{Entry, Kind, Owner};
use crate::generate::rng::Rng;
use crate::operation::{Actor, Operation};

fn create(script: &mut Script, partition: usize, green: bool) {
    script.operations.push(Operation::Create { partition, green });
}

fn destroy(script: &mut Script, partition: usize) {
    script.operations.push(Operation::Destroy { partition });
}

fn enter(script: &mut Script, actor: Actor, partition: usize) {
    script.operations.push(Operation::Activate { actor, partition });
}

/// Codes 5 and 13 on two partitions, each first as 5 and then as 13.
fn create_again(script: &mut Script, partitions: [usize; 2]) {
    for green in [false, true] {
        partitions.iter().for_each(|partition| create(script, *partition, green));
    }
}

/// What a zone's codes 7, 8, 9 and 6 do, with an external object of it.
fn try_all(script: &mut Script, zone: &Zone, external: usize) {
    let partition = zone.partition;
    let mut tries = vec![
        Operation::Activate { actor: Actor::Driver(zone.driver), partition },
        Operation::Activate { actor: Actor::Device(zone.device), partition },
        Operation::ActivateExternal { partition, objects: vec![external] },
    ];
    script.rng.shuffle(&mut tries);
    script.operations.extend(tries);
    destroy(script, partition);
}

/// Codes 5 and 13 on partitions of every standing, and every code that names a partition on a green one, before it is
/// there, while it is and when it is gone.
pub fn standings(rng: &mut Rng) -> Drill {
    let mut script = Script::new(rng);
    let zone = script.green_zone();
    let Zone { partition, driver, device, .. } = zone;
    let external = script.object(Kind::Data, Owner::External, partition);
    let plain = partition + 1;
    try_all(&mut script, &zone, external);
    script.leave_external(&zone, external);
    create(&mut script, partition, true);
    create(&mut script, plain, false);
    create_again(&mut script, [partition, plain]);
    try_all(&mut script, &zone, external);
    try_all(&mut script, &zone, external);
    script.leave_external(&zone, external);
    script.leave(Actor::Driver(driver));
    script.leave(Actor::Device(device));
    script.leave_external(&zone, external);
    destroy(&mut script, partition);
    destroy(&mut script, plain);
    create_again(&mut script, [partition, plain]);
    try_all(&mut script, &zone, external);
    script.leave_external(&zone, external);
    script.end(Numbering::Shuffled, Numbering::Shuffled)
}

/// A ring: its write by mode 3, or by mode 2 with a read beside it or without.
fn ring(head: usize, stored: usize, way: usize) -> Vec<Entry> {
    match way % 3 {
        0 => vec![both(head, stored)],
        1 => vec![writes(head, stored)],
        _ => vec![writes(head, stored), reads(head)],
    }
}

/// A ring that leads outside by a descriptor that nobody reads: by its own, which is written only, or by one that its
/// value writes. It is harmless until a descriptor that the device reads is let read that one. In a green zone such a
/// write keeps the rule, so that the device has to stay out; elsewhere 19 refuses it, and no zone turns green.
pub fn unread_ring(rng: &mut Rng, direct: bool) -> Drill {
    let mut script = Script::new(rng);
    let (zone, other) = (script.green_zone(), script.zone());
    let (device, head) = script.device(zone.partition);
    let second = script.object(Kind::Transfer, Owner::Device(device), zone.partition);
    let third = script.object(Kind::Transfer, Owner::Device(device), zone.partition);
    let outside = script.outside(&zone);
    let bad = script.value(vec![outside]);
    let (written, ring) = match direct {
        true => (head, writes(head, bad)),
        false => (third, both(head, script.value(vec![writes(third, bad)]))),
    };
    let reading = script.value(vec![reads(written)]);
    let value = script.world.config.hardcoded[device - 1];
    script.set(value, vec![ring, reads(second)]);
    script.open();
    enter(&mut script, Actor::Device(device), zone.partition);
    script.write(zone.driver, &[(second, reading)]);
    enter(&mut script, Actor::Device(device), other.partition);
    create(&mut script, other.partition, true);
    script.write(other.driver, &[(second, reading)]);
    enter(&mut script, Actor::Device(device), zone.partition);
    script.end(Numbering::Shuffled, Numbering::Shuffled)
}

/// A device whose ring stays inside, one whose ring leads outside until an external object is there, and one without a
/// ring that writes its own data: each is tried in a green zone and in another, when it is active too.
pub fn rings(rng: &mut Rng, turn: usize) -> Drill {
    let mut script = Script::new(rng);
    let (zone, other) = (script.green_zone(), script.zone());
    let external = script.object(Kind::Data, Owner::External, other.partition);
    let entry = script.touches(external);
    let leading = script.value(vec![entry]);
    let devices = [0, 1, 2].map(|place| {
        let (device, head) = script.device(other.partition);
        let own = script.object(Kind::Data, Owner::Device(device), other.partition);
        let value = script.world.config.hardcoded[device - 1];
        let stored = if place == 1 { leading } else { 0 };
        // A ring that is not read leads nowhere.
        let way = if place == 1 { 2 * turn } else { turn };
        let mut entries = if place == 2 { vec![reads(head)] } else { ring(head, stored, way) };
        entries.push(both(own, 0));
        script.set(value, entries);
        device
    });
    script.create();
    let mut others = script.entering();
    others.retain(|operation| !devices.iter().any(|device| operation.actor() == Some(Actor::Device(*device))));
    let external_in = others.iter().position(|operation| operation.code() == 9).map(|place| others.remove(place));
    script.operations.extend(others);
    for device in script.rng.some(&devices, 3) {
        enter(&mut script, Actor::Device(device), zone.partition);
        enter(&mut script, Actor::Device(device), other.partition);
        enter(&mut script, Actor::Device(device), zone.partition);
    }
    script.operations.extend(external_in);
    for device in script.rng.some(&devices, 3) {
        enter(&mut script, Actor::Device(device), zone.partition);
        enter(&mut script, Actor::Device(device), other.partition);
        script.leave(Actor::Device(device));
        enter(&mut script, Actor::Device(device), zone.partition);
    }
    script.end(Numbering::Shuffled, Numbering::Shuffled)
}
