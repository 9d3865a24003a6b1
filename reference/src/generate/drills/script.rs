//! A session written for one point: a configuration and operations in the making, as small as the point allows, with
//! numbers given anew at the end.

use super::numbers::{Numbering, Numbers};
use crate::config::{Config, Entry, Kind, Object, Owner};
use crate::generate::Folder;
use crate::generate::rng::Rng;
use crate::generate::worlds::World;
use crate::limits::MAX_COUNT;
use crate::operation::{Actor, Copying, Item, Operation, Put};
use crate::varint;

pub fn reads(object: usize) -> Entry {
    Entry { object, mode: 1, stored: 0 }
}

pub fn writes(object: usize, stored: usize) -> Entry {
    Entry { object, mode: 2, stored }
}

pub fn both(object: usize, stored: usize) -> Entry {
    Entry { object, mode: 3, stored }
}

/// A partition with a driver and a device. The device's hardcoded value reads its descriptor `head` and nothing else.
#[derive(Clone, Copy, Debug)]
pub struct Zone {
    pub partition: usize,
    pub driver: usize,
    pub device: usize,
    pub head: usize,
}

/// The session in the making.
pub struct Script<'a> {
    pub rng: &'a mut Rng,
    pub world: World,
    pub operations: Vec<Operation>,
}

impl Script<'_> {
    pub fn new(rng: &mut Rng) -> Script<'_> {
        let world = World {
            config: Config::default(),
            line: Vec::new(),
            zones: Vec::new(),
            greens: Vec::new(),
            locks: false,
            serials: false,
            drivers: Vec::new(),
            devices: Vec::new(),
            objects: Vec::new(),
            heads: Vec::new(),
        };
        Script { rng, world, operations: Vec::new() }
    }

    /// A partition of its own.
    pub fn zone(&mut self) -> Zone {
        let partition = self.world.zones.len() + 1;
        self.world.zones.push(partition);
        let driver = self.driver(partition);
        let (device, head) = self.device(partition);
        Zone { partition, driver, device, head }
    }

    /// A green zone of its own.
    pub fn green_zone(&mut self) -> Zone {
        let zone = self.zone();
        self.world.greens.push(zone.partition);
        zone
    }

    pub fn driver(&mut self, partition: usize) -> usize {
        self.world.drivers.push(partition);
        self.world.config.drivers += 1;
        self.world.config.drivers
    }

    /// A device with hardcoded value 0.
    pub fn idle_device(&mut self, partition: usize) -> usize {
        self.world.devices.push(partition);
        self.world.config.hardcoded.push(0);
        self.world.config.serials.push(0);
        let device = self.world.devices.len();
        self.object(Kind::Hardcoded, Owner::Device(device), partition);
        device
    }

    /// A device and the descriptor that its hardcoded value reads.
    pub fn device(&mut self, partition: usize) -> (usize, usize) {
        let device = self.idle_device(partition);
        let head = self.object(Kind::Transfer, Owner::Device(device), partition);
        self.world.config.hardcoded[device - 1] = self.value(vec![reads(head)]);
        (device, head)
    }

    pub fn object(&mut self, kind: Kind, owner: Owner, partition: usize) -> usize {
        self.world.config.objects.push(Object { kind, owner });
        self.world.objects.push(partition);
        self.world.config.objects.len()
    }

    /// Data objects of this owner until there are so many objects.
    pub fn fill(&mut self, objects: usize, owner: Owner, partition: usize) {
        while self.world.config.objects.len() < objects {
            self.object(Kind::Data, owner, partition);
        }
    }

    /// An object of a zone, whoever owns it.
    pub fn any_object(&mut self, kind: Kind, zone: &Zone) -> usize {
        let owners = [Owner::External, Owner::Driver(zone.driver), Owner::Device(zone.device)];
        let owner = owners[self.rng.below(3)];
        self.object(kind, owner, zone.partition)
    }

    pub fn descriptor(&mut self, zone: &Zone) -> usize {
        self.any_object(Kind::Transfer, zone)
    }

    /// A function descriptor or data object of a zone.
    pub fn plain(&mut self, zone: &Zone) -> usize {
        let kind = [Kind::Function, Kind::Data][self.rng.below(2)];
        self.any_object(kind, zone)
    }

    pub fn value(&mut self, entries: Vec<Entry>) -> usize {
        self.world.config.values.push(entries);
        self.world.config.values.len()
    }

    /// So many values without entries yet.
    pub fn values(&mut self, count: usize) -> Vec<usize> {
        (0..count).map(|_| self.value(Vec::new())).collect()
    }

    pub fn set(&mut self, value: usize, mut entries: Vec<Entry>) {
        self.rng.shuffle(&mut entries);
        self.world.config.values[value - 1] = entries;
    }

    /// An entry of any mode; a descriptor is cleared by it where it is written.
    pub fn touches(&mut self, object: usize) -> Entry {
        Entry { object, mode: self.rng.between(1, 3), stored: 0 }
    }

    /// An entry for an object that no device of the zone may name: in none, elsewhere, or its hardcoded descriptor.
    pub fn outside(&mut self, zone: &Zone) -> Entry {
        let kind = [Kind::Transfer, Kind::Data][self.rng.below(2)];
        let object = match self.rng.below(3) {
            0 => self.world.config.hardcoded_object(zone.device),
            1 => self.object(kind, Owner::External, 0),
            _ => {
                let other = self.world.zones.len() + 1;
                self.world.zones.push(other);
                self.object(kind, Owner::External, other)
            }
        };
        self.touches(object)
    }

    /// Creates all partitions and brings everything in that is not meant to be in none.
    pub fn open(&mut self) {
        self.create();
        let mut inside = self.entering();
        self.rng.shuffle(&mut inside);
        self.operations.extend(inside);
    }

    /// Creates all partitions, green or not as they are planned.
    pub fn create(&mut self) {
        let green = |partition: &usize| self.world.greens.contains(partition);
        let zones = self.world.zones.iter();
        let all = zones.map(|partition| Operation::Create { partition: *partition, green: green(partition) });
        self.operations.extend(all);
    }

    /// What brings in all that is not meant to be in none.
    pub fn entering(&self) -> Vec<Operation> {
        let world = &self.world;
        let mut inside = Vec::new();
        for (homes, who) in [(&world.drivers, Actor::Driver as fn(usize) -> Actor), (&world.devices, Actor::Device)] {
            for (place, partition) in homes.iter().enumerate() {
                inside.push(Operation::Activate { actor: who(place + 1), partition: *partition });
            }
        }
        let external = world.config.owned_by(Owner::External);
        for partition in &world.zones {
            let here: Vec<usize> =
                external.iter().copied().filter(|object| world.objects[*object - 1] == *partition).collect();
            for objects in here.chunks(MAX_COUNT) {
                inside.push(Operation::ActivateExternal { partition: *partition, objects: objects.to_vec() });
            }
        }
        inside
    }

    /// A driver's write of values.
    pub fn write(&mut self, driver: usize, items: &[(usize, usize)]) {
        self.operations.push(Operation::Write { actor: Actor::Driver(driver), items: value_items(items) });
    }

    pub fn copy(&mut self, driver: usize, pairs: &[(usize, usize)]) {
        self.operations.push(Operation::Read { actor: Actor::Driver(driver), pairs: copyings(pairs) });
    }

    /// A device's write of values.
    pub fn device_write(&mut self, device: usize, items: &[(usize, usize)]) {
        self.operations.push(Operation::Write { actor: Actor::Device(device), items: value_items(items) });
    }

    pub fn device_copy(&mut self, device: usize, pairs: &[(usize, usize)]) {
        self.operations.push(Operation::Read { actor: Actor::Device(device), pairs: copyings(pairs) });
    }

    /// A device's write of any bytes, or its read.
    pub fn device_touch(&mut self, device: usize, object: usize, write: bool) {
        let items = vec![Item { object, put: Put::Raw(self.rng.contents()) }];
        match write {
            true => self.operations.push(Operation::Write { actor: Actor::Device(device), items }),
            false => self.device_copy(device, &[(object, 0)]),
        }
    }

    pub fn leave(&mut self, actor: Actor) {
        self.operations.push(Operation::Deactivate { actor });
    }

    /// An external object of the zone comes in.
    pub fn enter_external(&mut self, zone: &Zone, object: usize) {
        self.operations.push(Operation::ActivateExternal { partition: zone.partition, objects: vec![object] });
    }

    /// An external object of the zone leaves.
    pub fn leave_external(&mut self, zone: &Zone, object: usize) {
        self.operations.push(Operation::DeactivateExternal { partition: zone.partition, objects: vec![object] });
    }

    /// Gives new numbers and puts everything down.
    pub fn end(mut self, objects: Numbering, values: Numbering) -> Drill {
        let numbers = Numbers::new(self.rng, &self.world.config, objects, values);
        self.operations.iter_mut().for_each(|operation| numbers.rename(operation));
        let records = self.operations.iter().map(Operation::to_bytes).collect();
        Drill { world: numbers.world(&self.world), records }
    }
}

fn value_items(items: &[(usize, usize)]) -> Vec<Item> {
    items.iter().map(|(object, value)| Item { object: *object, put: Put::Value(*value) }).collect()
}

fn copyings(pairs: &[(usize, usize)]) -> Vec<Copying> {
    pairs.iter().map(|(source, destination)| Copying { source: *source, destination: *destination }).collect()
}

/// A session written for one point.
#[derive(Clone, Debug)]
pub struct Drill {
    pub world: World,
    pub records: Vec<Vec<u8>>,
}

impl Drill {
    pub fn folder(&self) -> Folder {
        let mut session = Vec::new();
        for record in &self.records {
            varint::write(record.len(), &mut session);
            session.extend(record);
        }
        Folder { line: self.world.line.clone(), session }
    }
}
