//! Deactivations: what the leaving device can write counts for the others, its own entries do not.

use super::numbers::Numbering;
use super::script::{Drill, Script, Zone, both, reads, writes};
use crate::config::{Kind, Owner};
use crate::generate::rng::Rng;
use crate::operation::{Actor, Operation};

/// The leaving device can put a value that names its own object to where another device reads it: refused by 20 on the
/// state before the call, passed on the state after it.
pub fn writer(rng: &mut Rng) -> Drill {
    let mut script = Script::new(rng);
    let zone = script.zone();
    let Zone { driver, partition, .. } = zone;
    let (leaving, its_head) = script.device(partition);
    let own = script.object(Kind::Data, Owner::Device(leaving), partition);
    let entry = script.touches(own);
    let naming = script.value(vec![entry]);
    // Where it is put: the other device's head, or a descriptor that the other reads from there.
    let direct = script.rng.percent(50);
    let place = if direct { zone.head } else { script.object(Kind::Transfer, Owner::Driver(driver), partition) };
    let reader = script.value(vec![reads(place)]);
    let mut value = script.value(vec![writes(place, naming)]);
    for _ in 0..script.rng.below(4) {
        value = script.value(vec![both(its_head, value)]);
    }
    script.open();
    if !direct {
        script.write(driver, &[(zone.head, reader)]);
    }
    script.leave(Actor::Device(leaving));
    script.operations.push(Operation::Activate { actor: Actor::Device(leaving), partition });
    script.write(driver, &[(its_head, value)]);
    script.leave(Actor::Device(leaving));
    script.leave(Actor::Driver(driver));
    script.write(driver, &[(its_head, naming)]);
    script.leave(Actor::Device(leaving));
    script.operations.push(Operation::Activate { actor: Actor::Device(leaving), partition });
    script.write(driver, &[(its_head, value)]);
    script.leave(Actor::Device(zone.device));
    script.leave(Actor::Device(leaving));
    script.end(Numbering::Shuffled, Numbering::Shuffled)
}

/// Each of the codes 10 to 12, held back by an entry of each mode and then let go; what comes back is cleared.
pub fn each_code(rng: &mut Rng) -> Drill {
    let mut script = Script::new(rng);
    let zone = script.zone();
    let partition = zone.partition;
    let (driver, device) = (script.driver(partition), script.device(partition).0);
    let owners = [Owner::Driver(driver), Owner::Device(device), Owner::External];
    let objects = owners.map(|owner| script.object(Kind::Transfer, owner, partition));
    let values = objects.map(|object| {
        let entry = script.touches(object);
        script.value(vec![entry])
    });
    let outside = script.outside(&zone);
    let bad = script.value(vec![outside]);
    let reading = objects.map(|object| script.value(vec![reads(object)]));
    script.open();
    for place in script.rng.some(&[0, 1, 2], 3) {
        let object = objects[place];
        script.write(zone.driver, &[(zone.head, values[place])]);
        leave(&mut script, &zone, owners[place], object);
        script.write(zone.driver, &[(zone.head, 0), (object, bad)]);
        leave(&mut script, &zone, owners[place], object);
        script.operations.push(match owners[place] {
            Owner::Driver(driver) => Operation::Activate { actor: Actor::Driver(driver), partition },
            Owner::Device(device) => Operation::Activate { actor: Actor::Device(device), partition },
            Owner::External => Operation::ActivateExternal { partition, objects: vec![object] },
        });
        script.write(zone.driver, &[(zone.head, reading[place])]);
        script.write(zone.driver, &[(object, bad)]);
    }
    script.end(Numbering::Shuffled, Numbering::Shuffled)
}

fn leave(script: &mut Script, zone: &Zone, owner: Owner, object: usize) {
    match owner {
        Owner::Driver(driver) => script.leave(Actor::Driver(driver)),
        Owner::Device(device) => script.leave(Actor::Device(device)),
        Owner::External => script.leave_external(zone, object),
    }
}
