//! Locks (request N6): codes 14, 15 and 8 on devices in every standing, other codes while there are locks, question 23
//! before 22 and 21 and behind 14 and 16, and the lock bytes of wide configurations.

use super::numbers::Numbering;
use super::script::{Drill, Script, Zone, both};
use crate::config::{Kind, Owner};
use crate::generate::rng::Rng;
use crate::generate::worlds::WIDE_COUNTS;
use crate::limits::{MAX_DEVICES, SMALL_ROOM};
use crate::operation::{Actor, Operation};

/// What a drill with locks is for.
#[derive(Clone, Copy, Debug, PartialEq, Eq)]
pub enum Locking {
    Standings,
    Drivers,
    Rings,
    Wide,
}

/// A drill with locks; `turn` goes through the counts of objects of wide ones.
pub fn drill(rng: &mut Rng, way: Locking, turn: usize) -> Drill {
    let [fewest, first_of_two_bytes, one_absent, most] = WIDE_COUNTS;
    match way {
        Locking::Standings => standings(rng),
        Locking::Drivers => drivers(rng),
        Locking::Rings => rings(rng),
        Locking::Wide => wide(rng, [fewest, most, first_of_two_bytes, one_absent][turn % 4]),
    }
}

fn script(rng: &mut Rng) -> Script<'_> {
    let mut script = Script::new(rng);
    script.world.locks = true;
    script
}

fn lock(script: &mut Script, device: usize) {
    script.operations.push(Operation::Lock { actor: Actor::Device(device), locked: true });
}

fn unlock(script: &mut Script, device: usize) {
    script.operations.push(Operation::Lock { actor: Actor::Device(device), locked: false });
}

fn enter(script: &mut Script, device: usize, partition: usize) {
    script.operations.push(Operation::Activate { actor: Actor::Device(device), partition });
}

fn create(script: &mut Script, partition: usize, green: bool) {
    script.operations.push(Operation::Create { partition, green });
}

fn destroy(script: &mut Script, partition: usize) {
    script.operations.push(Operation::Destroy { partition });
}

/// Every code that has to do with locks on a device, in this order or another.
fn try_all(script: &mut Script, device: usize, partition: usize) {
    let actor = Actor::Device(device);
    let lock = |locked: bool| Operation::Lock { actor, locked };
    let mut tries = vec![lock(true), lock(false), lock(true), Operation::Activate { actor, partition }];
    script.rng.shuffle(&mut tries);
    script.operations.extend(tries);
}

/// Three devices, of which at least one is locked while the others come and go: a lock is one device's alone, is taken
/// off by code 15 and by nothing else, and stops neither partitions nor drivers nor external objects.
fn standings(rng: &mut Rng) -> Drill {
    let mut script = script(rng);
    let zone = script.zone();
    let (here, away, green) = (zone.partition, zone.partition + 1, zone.partition + 2);
    let external = script.object(Kind::Data, Owner::External, here);
    let mut devices = vec![zone.device, script.idle_device(here), script.idle_device(here)];
    script.rng.shuffle(&mut devices);
    let [one, two, three] = [devices[0], devices[1], devices[2]];
    lock(&mut script, one);
    lock(&mut script, one);
    enter(&mut script, one, here);
    create(&mut script, here, false);
    enter(&mut script, one, here);
    enter(&mut script, two, here);
    try_all(&mut script, two, here);
    script.operations.push(Operation::Activate { actor: Actor::Driver(zone.driver), partition: here });
    script.enter_external(&zone, external);
    script.copy(zone.driver, &[(external, 0)]);
    create(&mut script, green, true);
    lock(&mut script, three);
    unlock(&mut script, one);
    enter(&mut script, three, green);
    unlock(&mut script, one);
    script.leave(Actor::Device(two));
    enter(&mut script, one, here);
    enter(&mut script, three, away);
    enter(&mut script, three, here);
    destroy(&mut script, green);
    try_all(&mut script, one, here);
    lock(&mut script, two);
    script.leave_external(&zone, external);
    in_turn(&mut script, &zone, [one, two, three]);
    script.end(Numbering::Shuffled, Numbering::Shuffled)
}

/// The first device is active, the others are locked: the driver leaves, and the devices come and leave in turn.
fn in_turn(script: &mut Script, zone: &Zone, [one, two, three]: [usize; 3]) {
    let here = zone.partition;
    script.leave(Actor::Driver(zone.driver));
    script.leave(Actor::Device(two));
    unlock(script, three);
    enter(script, two, here);
    enter(script, three, here);
    script.leave(Actor::Device(one));
    try_all(script, one, here);
    try_all(script, two, here);
    script.leave(Actor::Device(three));
    destroy(script, here);
}

/// A driver of each number that a device has, which comes in while the device is locked.
fn drivers(rng: &mut Rng) -> Drill {
    let mut script = script(rng);
    let zone = script.zone();
    let partition = zone.partition;
    let more = script.rng.between(2, 3);
    let devices: Vec<usize> = (0..more).map(|_| script.idle_device(partition)).chain([zone.device]).collect();
    let mut drivers = vec![zone.driver];
    (0..more).for_each(|_| drivers.push(script.driver(partition)));
    create(&mut script, partition, false);
    devices.iter().for_each(|device| lock(&mut script, *device));
    for driver in drivers {
        script.operations.push(Operation::Activate { actor: Actor::Driver(driver), partition });
    }
    for device in devices {
        enter(&mut script, device, partition);
        unlock(&mut script, device);
        enter(&mut script, device, partition);
    }
    script.end(Numbering::Shuffled, Numbering::Shuffled)
}

/// A device whose ring leads outside until an external object is there, locked before a green zone and another: 14, 16
/// and 23 come before 22 and 21.
fn rings(rng: &mut Rng) -> Drill {
    let mut script = script(rng);
    let (zone, other) = (script.green_zone(), script.zone());
    let external = script.object(Kind::Data, Owner::External, other.partition);
    let (device, head) = script.device(other.partition);
    let entry = script.touches(external);
    let leading = script.value(vec![entry]);
    let value = script.world.config.hardcoded[device - 1];
    script.set(value, vec![both(head, leading)]);
    script.create();
    for locked in [false, true, false] {
        enter(&mut script, device, zone.partition);
        enter(&mut script, device, other.partition);
        enter(&mut script, device, other.partition + 1);
        if locked { unlock(&mut script, device) } else { lock(&mut script, device) }
    }
    script.enter_external(&other, external);
    enter(&mut script, device, other.partition);
    enter(&mut script, device, zone.partition);
    unlock(&mut script, device);
    enter(&mut script, device, other.partition);
    try_all(&mut script, device, zone.partition);
    script.leave(Actor::Device(device));
    try_all(&mut script, device, other.partition);
    script.end(Numbering::Shuffled, Numbering::Shuffled)
}

/// A wide configuration with as many devices as there can be. The first object that small ones have no room for comes
/// in and leaves while devices are locked: it has the bytes that are lock bytes in a small area.
fn wide(rng: &mut Rng, objects: usize) -> Drill {
    let mut script = script(rng);
    let zone = script.zone();
    let partition = zone.partition;
    while script.world.devices.len() < MAX_DEVICES {
        script.idle_device(partition);
    }
    script.fill(objects, Owner::External, partition);
    create(&mut script, partition, false);
    let mut devices: Vec<usize> = (1..=MAX_DEVICES).collect();
    script.rng.shuffle(&mut devices);
    for few in devices.chunks(MAX_DEVICES / 2) {
        few.iter().for_each(|device| lock(&mut script, *device));
        script.enter_external(&zone, SMALL_ROOM + 1);
        few.iter().for_each(|device| enter(&mut script, *device, partition));
        script.leave_external(&zone, SMALL_ROOM + 1);
        few.iter().for_each(|device| unlock(&mut script, *device));
        few.iter().for_each(|device| enter(&mut script, *device, partition));
    }
    script.end(Numbering::Kept, Numbering::Shuffled)
}
