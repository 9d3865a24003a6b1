//! Green zones (request N5) beside others: each clause of the green rule by a near miss, and what the stricter 20 holds
//! back.

use super::numbers::Numbering;
use super::script::{Drill, Script, Zone, both, reads, writes};
use crate::config::{Entry, Kind, Owner};
use crate::generate::rng::Rng;
use crate::limits::CONTENT_BYTES;
use crate::operation::{Actor, Item, Operation, Put};

/// What the values of a drill can name: a green zone's data and a descriptor that nobody reads, another zone's, and an
/// object in none.
struct Scenery {
    zone: Zone,
    other: Zone,
    data: usize,
    spare: usize,
    far: usize,
    far_spare: usize,
    gone: usize,
}

impl Scenery {
    fn new(script: &mut Script) -> Scenery {
        let (zone, other) = (script.green_zone(), script.zone());
        let (data, spare) = (script.plain(&zone), script.descriptor(&zone));
        let (far, far_spare) = (script.plain(&other), script.descriptor(&other));
        let kind = [Kind::Transfer, Kind::Data][script.rng.below(2)];
        let gone = script.object(kind, Owner::External, 0);
        Scenery { zone, other, data, spare, far, far_spare, gone }
    }

    /// Entries of which each breaks one clause of the green rule: kind 1 written by mode 2 and by mode 3, a hardcoded
    /// descriptor, data and a descriptor of another zone, and an object in none.
    fn near_misses(&self, script: &mut Script, stored: usize) -> Vec<Entry> {
        let hardcoded = script.world.config.hardcoded_object(self.zone.device);
        let written = [self.spare, self.zone.head][script.rng.below(2)];
        let plain = [hardcoded, self.far, self.gone].map(|object| script.touches(object));
        // An object in none may be a descriptor, which is to be read only.
        let gone = Entry { mode: 1, ..plain[2] };
        vec![writes(self.spare, 0), both(written, stored), plain[0], plain[1], gone, reads(self.far_spare)]
    }
}

/// A driver's write of bytes that begin with a value's number.
fn raw_write(script: &mut Script, driver: usize, object: usize, value: usize) {
    let mut bytes = [0; CONTENT_BYTES];
    bytes[0] = value as u8;
    let items = vec![Item { object, put: Put::Raw(bytes) }];
    script.operations.push(Operation::Write { actor: Actor::Driver(driver), items });
}

/// Every clause alone, beside entries and items that keep the rule; with so many objects before all others. Values keep
/// their numbers, so that bytes can be taken for them.
pub fn clauses(rng: &mut Rng, behind: usize) -> Drill {
    let mut script = Script::new(rng);
    script.fill(behind, Owner::Driver(1), 1);
    let scenery = Scenery::new(&mut script);
    let Scenery { zone, other, data, spare, far_spare, .. } = scenery;
    let Zone { driver, head, .. } = zone;
    let second = script.plain(&zone);
    let good = script.value(vec![both(data, 0), reads(spare)]);
    let misses = scenery.near_misses(&mut script, good);
    let bad: Vec<usize> = misses
        .into_iter()
        .map(|miss| {
            let value = script.values(1)[0];
            let beside = script.touches(second);
            script.set(value, vec![beside, miss, reads(spare)]);
            value
        })
        .collect();
    script.open();
    script.write(driver, &[(head, good)]);
    for value in script.rng.some(&bad, bad.len()) {
        let place = [head, spare][script.rng.below(2)];
        script.write(driver, &[(place, value)]);
    }
    let some = script.rng.some(&bad, 3);
    script.write(driver, &[(spare, good), (head, some[0])]);
    script.write(driver, &[(spare, some[1]), (head, good)]);
    script.write(driver, &[(spare, some[0]), (head, some[1])]);
    script.write(driver, &[(far_spare, some[2])]);
    script.copy(driver, &[(head, spare), (spare, 0)]);
    script.copy(driver, &[(spare, 0), (head, 0)]);
    raw_write(&mut script, driver, data, some[0]);
    script.copy(driver, &[(data, second), (spare, head)]);
    script.write(other.driver, &[(far_spare, some[1])]);
    script.copy(other.driver, &[(far_spare, other.head)]);
    script.write(other.driver, &[(other.head, good)]);
    script.leave(Actor::Driver(driver));
    script.write(driver, &[(spare, some[2])]);
    script.end(Numbering::Shuffled, Numbering::Kept)
}

/// Who owns what leaves.
fn leave(script: &mut Script, partition: usize, owner: Owner, objects: &[usize]) {
    script.operations.push(match owner {
        Owner::Driver(driver) => Operation::Deactivate { actor: Actor::Driver(driver) },
        Owner::Device(device) => Operation::Deactivate { actor: Actor::Device(device) },
        Owner::External => Operation::DeactivateExternal { partition, objects: objects.to_vec() },
    });
}

fn enter(script: &mut Script, partition: usize, owner: Owner, objects: &[usize]) {
    script.operations.push(match owner {
        Owner::Driver(driver) => Operation::Activate { actor: Actor::Driver(driver), partition },
        Owner::Device(device) => Operation::Activate { actor: Actor::Device(device), partition },
        Owner::External => Operation::ActivateExternal { partition, objects: objects.to_vec() },
    });
}

/// What leaves a zone together: an owner's descriptor and its two data objects, the second of which a value names.
struct Part {
    owner: Owner,
    own: usize,
    objects: [usize; 2],
    names: usize,
}

impl Part {
    fn new(script: &mut Script, partition: usize, owner: Owner, mode: usize) -> Part {
        let own = script.object(Kind::Transfer, owner, partition);
        let objects = [0; 2].map(|_| script.object(Kind::Data, owner, partition));
        let names = script.value(vec![Entry { object: objects[1], mode, stored: 0 }]);
        Part { owner, own, objects, names }
    }

    fn all(&self) -> [usize; 3] {
        [self.own, self.objects[0], self.objects[1]]
    }
}

/// Each of the codes 10 to 12 in a green zone, held back by descriptors that nobody reads, and let go: when these are
/// cleared, when what names leaves too, and where what names is inactive or in another zone. `turn` goes through the
/// modes. Where the zone is not to be green, the other one is.
pub fn leaving(rng: &mut Rng, turn: usize, green: bool) -> Drill {
    let mut script = Script::new(rng);
    let zone = if green { script.green_zone() } else { script.zone() };
    let (partition, other) = (zone.partition, if green { script.zone() } else { script.green_zone() });
    let owners =
        [Owner::Driver(script.driver(partition)), Owner::Device(script.idle_device(partition)), Owner::External];
    let parts = owners.map(|owner| Part::new(&mut script, partition, owner, 1 + turn % 3));
    let [stays, also] = [Owner::Driver(zone.driver), Owner::Device(zone.device)]
        .map(|owner| script.object(Kind::Transfer, owner, partition));
    let outgoing = script.object(Kind::Transfer, Owner::External, partition);
    let far = script.descriptor(&other);
    script.open();
    for place in script.rng.some(&[0, 1, 2], 3) {
        let Part { owner, own, objects, names } = parts[place];
        let all = parts[place].all();
        script.write(zone.driver, &[(stays, names)]);
        leave(&mut script, partition, owner, &objects);
        script.copy(zone.driver, &[(stays, own), (stays, also)]);
        script.write(zone.driver, &[(stays, 0)]);
        leave(&mut script, partition, owner, &all);
        script.write(zone.driver, &[(also, 0)]);
        leave(&mut script, partition, owner, &all);
        enter(&mut script, partition, owner, &all);
        if place == 0 {
            script.write(zone.driver, &[(outgoing, names)]);
            script.leave_external(&zone, outgoing);
        } else {
            script.write(other.driver, &[(far, names)]);
        }
        leave(&mut script, partition, owner, &all);
    }
    script.end(Numbering::Shuffled, Numbering::Shuffled)
}

/// A descriptor that nobody reads names what is to be taken elsewhere, a driver's, a device's or an external object;
/// where 20 lets that go, the device comes to read the descriptor later, by a write that the green rule passes.
pub fn escaping(rng: &mut Rng, turn: usize) -> Drill {
    let mut script = Script::new(rng);
    let (zone, other) = (script.green_zone(), script.zone());
    let Zone { driver, head, partition, .. } = zone;
    let owner = match turn % 3 {
        0 => Owner::External,
        1 => Owner::Driver(script.driver(partition)),
        _ => Owner::Device(script.idle_device(partition)),
    };
    let objects = [0; 2].map(|_| script.object(Kind::Data, owner, partition));
    let stays = script.object(Kind::Transfer, Owner::Driver(driver), partition);
    let entry = script.touches(objects[1]);
    let (names, reading) = (script.value(vec![entry]), script.value(vec![reads(stays)]));
    script.open();
    script.write(driver, &[(stays, names)]);
    leave(&mut script, partition, owner, &objects);
    enter(&mut script, other.partition, owner, &objects);
    script.write(driver, &[(head, reading)]);
    leave(&mut script, partition, owner, &objects);
    script.copy(driver, &[(head, stays), (stays, head)]);
    leave(&mut script, partition, owner, &objects);
    script.write(driver, &[(head, 0), (stays, 0)]);
    leave(&mut script, partition, owner, &objects);
    enter(&mut script, other.partition, owner, &objects);
    script.write(driver, &[(stays, names)]);
    script.write(driver, &[(head, reading)]);
    leave(&mut script, other.partition, owner, &objects);
    enter(&mut script, partition, owner, &objects);
    script.write(driver, &[(stays, names)]);
    script.end(Numbering::Shuffled, Numbering::Shuffled)
}

/// Descriptors of a green zone, one read behind the other down to data: the device goes along them, and each end is
/// held back by what is read.
pub fn reading(rng: &mut Rng, links: usize) -> Drill {
    let mut script = Script::new(rng);
    let zone = script.green_zone();
    let Zone { driver, device, head, .. } = zone;
    let data = script.object(Kind::Data, Owner::External, zone.partition);
    let chain: Vec<usize> =
        (0..links).map(|_| script.object(Kind::Transfer, Owner::External, zone.partition)).collect();
    let last = script.value(vec![both(data, 0)]);
    let values: Vec<usize> = chain.iter().map(|object| script.value(vec![reads(*object)])).collect();
    let miss = script.value(vec![reads(chain[0]), writes(chain[0], last)]);
    script.open();
    script.write(driver, &[(chain[links - 1], last)]);
    script.write(driver, &[(head, miss)]);
    script.leave_external(&zone, data);
    for place in 1..links {
        script.write(driver, &[(chain[place - 1], values[place])]);
    }
    script.device_touch(device, data, true);
    script.write(driver, &[(head, values[0])]);
    script.device_touch(device, data, true);
    script.device_touch(device, data, false);
    script.device_write(device, &[(chain[0], last)]);
    script.leave_external(&zone, chain[links - 1]);
    script.leave_external(&zone, data);
    script.copy(driver, &[(chain[links - 1], head)]);
    script.leave_external(&zone, chain[0]);
    script.copy(driver, &[(head, 0), (chain[0], 0)]);
    script.write(driver, &[(head, 0), (chain[links - 1], miss)]);
    script.write(driver, &[(head, 0), (chain[links - 1], 0)]);
    script.leave_external(&zone, data);
    script.end(Numbering::Shuffled, Numbering::Shuffled)
}
