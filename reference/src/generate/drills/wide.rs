//! Wide configurations (request N2): a long chain through objects whose numbers have two bytes, records that name such
//! objects, and a hardcoded descriptor behind the records that the shorter state area has room for.

use super::numbers::Numbering;
use super::script::{Drill, Script, Zone, both, reads, writes};
use crate::config::{Kind, Owner};
use crate::generate::rng::Rng;
use crate::operation::{Actor, Operation};

/// The links of the longest chain: two values are left for what a device reads besides.
pub const LINKS: usize = 40;

/// The first zone with its driver and its device, before it is made: what stands before it may be theirs.
const PARTITION: usize = 1;
const DRIVER: Owner = Owner::Driver(1);
const DEVICE: Owner = Owner::Device(1);

/// A chain that ends at the last object, which is outside until it is brought in. What the link in its middle puts is
/// read by another descriptor, so that this link is missing or there by what the other descriptor holds.
pub fn chain(rng: &mut Rng, objects: usize, links: usize, numbering: Numbering) -> Drill {
    let mut script = Script::new(rng);
    // Behind the filling come the hardcoded descriptor, one descriptor for each link, the reader and the last object.
    script.fill(objects - (3 + links), DEVICE, PARTITION);
    let zone = script.zone();
    let Zone { driver, device, head, partition } = zone;
    let values = script.values(links);
    let middle = (links - 1) / 2;
    let descriptors: Vec<usize> = (1..links).map(|_| script.object(Kind::Transfer, DEVICE, partition)).collect();
    for (place, object) in descriptors.iter().enumerate() {
        let put = if place == middle { writes } else { both };
        script.set(values[place], vec![put(*object, values[place + 1])]);
    }
    let reader = script.object(Kind::Transfer, DEVICE, partition);
    let reading = script.value(vec![reads(descriptors[middle])]);
    script.set(script.world.config.hardcoded[device - 1], vec![reads(head), reads(reader)]);
    let last = script.object(Kind::Data, Owner::External, 0);
    script.set(values[links - 1], vec![both(last, 0)]);
    script.open();
    script.write(driver, &[(head, values[0])]);
    script.write(driver, &[(reader, reading)]);
    script.write(driver, &[(head, 0), (reader, reading)]);
    let starts = [values[0], values[middle], values[links - 1]];
    starts.iter().for_each(|start| script.write(driver, &[(head, *start)]));
    script.enter_external(&zone, last);
    for start in starts {
        script.write(driver, &[(head, start)]);
        script.leave_external(&zone, last);
    }
    script.device_copy(device, &[(last, 0)]);
    script.write(driver, &[(reader, 0), (head, values[0])]);
    script.leave_external(&zone, last);
    script.write(driver, &[(reader, reading)]);
    left_alone(&mut script, &zone, last);
    script.end(numbering, Numbering::Shuffled)
}

/// Only the last object is left in its partition, which then is not empty.
fn left_alone(script: &mut Script, zone: &Zone, last: usize) {
    let destroy = Operation::Destroy { partition: zone.partition };
    script.enter_external(zone, last);
    script.leave(Actor::Device(zone.device));
    script.leave(Actor::Driver(zone.driver));
    script.operations.extend([destroy.clone(), destroy.clone()]);
    script.leave_external(zone, last);
    script.operations.push(destroy);
}

/// The objects that records name there: two descriptors, a hardcoded one, and two others.
const NAMED: usize = 5;

/// Records that name the last objects, each for one answer.
pub fn edge(rng: &mut Rng, objects: usize) -> Drill {
    let mut script = Script::new(rng);
    script.fill(objects - NAMED, DEVICE, PARTITION);
    let spare = script.object(Kind::Transfer, DRIVER, PARTITION);
    let inside = script.object(Kind::Data, Owner::External, PARTITION);
    let outside = script.object(Kind::Data, Owner::External, PARTITION + 1);
    let zone = script.zone();
    let Zone { driver, device, head, partition } = zone;
    script.world.zones.push(PARTITION + 1);
    let hardcoded = script.world.config.hardcoded_object(device);
    let (good, bad) = (script.value(vec![both(inside, 0)]), script.value(vec![reads(outside)]));
    let own = script.value(vec![reads(spare), writes(head, good)]);
    script.open();
    script.write(driver, &[(spare, bad), (head, good)]);
    script.copy(driver, &[(spare, head)]);
    script.copy(driver, &[(head, spare)]);
    script.leave_external(&zone, inside);
    script.device_copy(device, &[(inside, 0)]);
    script.device_copy(device, &[(spare, 0)]);
    script.write(driver, &[(head, bad)]);
    script.copy(driver, &[(spare, head), (head, head)]);
    script.write(driver, &[(objects + 1, 0)]);
    script.write(driver, &[(hardcoded, 0)]);
    script.enter_external(&zone, inside);
    script.write(driver, &[(head, 0)]);
    script.leave_external(&zone, inside);
    script.copy(driver, &[(inside, 0)]);
    script.leave_external(&zone, inside);
    returns(&mut script, &zone, (spare, inside), (own, good));
    let others = Operation::Destroy { partition: PARTITION + 1 };
    script.operations.extend([others.clone(), Operation::Destroy { partition }, others]);
    script.end(Numbering::Kept, Numbering::Shuffled)
}

/// A driver whose object is read stays, a device copies what its own entry stores, and a device that comes back finds
/// its descriptor cleared.
fn returns(script: &mut Script, zone: &Zone, (spare, inside): (usize, usize), (own, good): (usize, usize)) {
    let Zone { driver, device, head, partition } = *zone;
    script.enter_external(zone, inside);
    script.write(driver, &[(spare, good), (head, own)]);
    script.leave(Actor::Driver(driver));
    script.device_copy(device, &[(spare, head)]);
    script.device_copy(device, &[(inside, 0)]);
    script.leave(Actor::Device(device));
    script.operations.push(Operation::Activate { actor: Actor::Device(device), partition });
    script.device_copy(device, &[(inside, 0)]);
}

/// The last object is the only hardcoded descriptor: its device comes, transfers, leaves and comes back.
pub fn last_hardcoded(rng: &mut Rng, objects: usize) -> Drill {
    let mut script = Script::new(rng);
    let zone = script.zone();
    let Zone { driver, device, head, partition } = zone;
    let inside = script.object(Kind::Data, Owner::External, partition);
    let good = script.value(vec![both(inside, 0)]);
    let bad = script.value(vec![reads(script.world.config.hardcoded_object(device))]);
    script.fill(objects, DEVICE, partition);
    script.open();
    script.device_copy(device, &[(head, 0)]);
    script.write(driver, &[(head, bad)]);
    script.write(driver, &[(head, good)]);
    script.device_copy(device, &[(inside, 0)]);
    script.leave_external(&zone, inside);
    script.leave(Actor::Device(device));
    script.leave_external(&zone, inside);
    script.operations.push(Operation::Activate { actor: Actor::Device(device), partition });
    script.device_copy(device, &[(inside, 0)]);
    script.device_copy(device, &[(head, 0)]);
    script.leave(Actor::Driver(driver));
    script.operations.push(Operation::Destroy { partition });
    script.leave(Actor::Device(device));
    script.operations.push(Operation::Destroy { partition });
    script.end(Numbering::Reversed, Numbering::Shuffled)
}
