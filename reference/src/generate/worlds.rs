//! Configurations of every size, each with a plan: the partition that every driver, device and external object is meant
//! to be in, and chains of descriptor writes that stay in one partition or leave it at the end.

use super::rng::Rng;
use crate::config::{Config, Entry, Kind, Object, Owner, RULES, RULES_BEFORE, Rules};
use crate::limits::{
    MAX_DEVICES, MAX_DRIVERS, MAX_ENTRIES, MAX_OBJECTS, MAX_ONE_BYTE, MAX_PARTITION, MAX_VALUES, SMALL_ROOM,
};
use crate::tokens;

/// How large a configuration is.
#[derive(Clone, Copy, Debug, PartialEq, Eq)]
pub enum Size {
    Tiny,
    Small,
    Medium,
    /// Few devices and all values: room for chains of forty links.
    Deep,
    /// As many objects as the shorter state area has room for, and the other counts at their limits.
    Full,
    /// More objects than that, all values, and chains through objects whose numbers have two bytes.
    Wide,
}

/// The objects of wide configurations: as few as there can be, the first count of two bytes, and as many as there can
/// be, with one object absent and with none.
pub const WIDE_COUNTS: [usize; 4] = [SMALL_ROOM + 1, MAX_ONE_BYTE + 1, MAX_OBJECTS - 1, MAX_OBJECTS];

impl Size {
    /// Any size. More than one in eight is wide.
    pub fn any(rng: &mut Rng) -> Size {
        [Size::Tiny, Size::Small, Size::Medium, Size::Deep, Size::Full, Size::Wide]
            [rng.weighted(&[20, 31, 19, 7, 7, 16])]
    }
}

/// The links of the longest chain.
const LONGEST_CHAIN: usize = 40;

/// A configuration and its plan.
#[derive(Clone, Debug)]
pub struct World {
    pub config: Config,
    pub line: Vec<u8>,
    /// The partitions planned.
    pub zones: Vec<usize>,
    /// Those of them that are to be green (request N5), or another; none in worlds from before there were any.
    pub greens: Vec<usize>,
    /// Whether its sessions lock devices (request N6); not in worlds from before there were locks.
    pub locks: bool,
    /// Whether its files and records are chosen by today's editions and numbers (request N7); not in worlds from before
    /// there were serials.
    pub serials: bool,
    /// The planned partition of each driver, device and object; 0 is none.
    pub drivers: Vec<usize>,
    pub devices: Vec<usize>,
    pub objects: Vec<usize>,
    /// Where chains begin: a descriptor that a device reads, and the value to write there.
    pub heads: Vec<(usize, usize)>,
}

impl World {
    /// What its files and records are chosen by: what was there when they were stored first.
    pub fn rules(&self) -> &'static Rules {
        if self.serials { &RULES } else { &RULES_BEFORE }
    }
}

/// A world in the making, with the value numbers that are still free.
struct Maker<'a> {
    rng: &'a mut Rng,
    world: World,
    free: Vec<usize>,
}

/// A world of this size in which no hardcoded value writes a descriptor; `rings` has the others.
pub fn world(rng: &mut Rng, size: Size) -> World {
    let (drivers, devices, objects, values) = counts(rng, size);
    let mut zones: Vec<usize> = (1..=MAX_PARTITION).collect();
    rng.shuffle(&mut zones);
    let few_zones = objects < 20 || size == Size::Deep || (size == Size::Wide && devices < MAX_DEVICES);
    zones.truncate(if few_zones { rng.between(1, 2) } else { rng.between(1, 4) });
    let mut free: Vec<usize> = (1..=values).collect();
    rng.shuffle(&mut free);
    let driver_homes = homes(rng, &zones, drivers);
    let device_homes = homes(rng, &zones, devices);
    let (hardcoded, serials) = (vec![0; devices], vec![0; devices]);
    let config = Config { drivers, hardcoded, serials, values: vec![Vec::new(); values], ..Config::default() };
    let world = World {
        config,
        line: Vec::new(),
        zones,
        greens: Vec::new(),
        locks: false,
        serials: false,
        drivers: driver_homes,
        devices: device_homes,
        objects: Vec::new(),
        heads: Vec::new(),
    };
    let mut maker = Maker { rng, world, free };
    maker.objects(objects);
    maker.hardcoded_values();
    maker.chains();
    maker.other_values();
    let mut world = maker.world;
    world.line = tokens::encode(&tokens::of_config(&world.config));
    world
}

/// D, V, N and K.
fn counts(rng: &mut Rng, size: Size) -> (usize, usize, usize, usize) {
    match size {
        Size::Tiny => {
            let devices = rng.between(0, 2);
            (rng.between(0, 2), devices, rng.between(devices, devices + 5), rng.between(0, 6))
        }
        Size::Small => {
            let devices = rng.between(1, 3);
            (rng.between(1, 3), devices, rng.between(devices + 3, 16), rng.between(3, 14))
        }
        Size::Medium => {
            let devices = rng.between(1, 8);
            (rng.between(1, 8), devices, rng.between(devices + 8, 56), rng.between(8, 36))
        }
        Size::Deep => (rng.between(1, 3), rng.between(1, 3), rng.between(70, SMALL_ROOM), MAX_VALUES),
        Size::Full => (MAX_DRIVERS, MAX_DEVICES, SMALL_ROOM, MAX_VALUES),
        Size::Wide => {
            let objects = WIDE_COUNTS[rng.below(WIDE_COUNTS.len())];
            if rng.percent(75) {
                (rng.between(1, 3), rng.between(1, 3), objects, MAX_VALUES)
            } else {
                (MAX_DRIVERS, MAX_DEVICES, objects, MAX_VALUES)
            }
        }
    }
}

fn homes(rng: &mut Rng, zones: &[usize], count: usize) -> Vec<usize> {
    (0..count).map(|_| if rng.percent(6) { 0 } else { rng.pick(zones).unwrap_or(0) }).collect()
}

impl Maker<'_> {
    /// One hardcoded descriptor for each device, anywhere among the others.
    fn objects(&mut self, count: usize) {
        let devices = self.world.config.devices();
        let mut objects: Vec<Object> =
            (1..=devices).map(|device| Object { kind: Kind::Hardcoded, owner: Owner::Device(device) }).collect();
        let favourite = (devices > 0).then(|| self.rng.between(1, devices));
        while objects.len() < count {
            let kind = [Kind::Transfer, Kind::Function, Kind::Data][self.rng.weighted(&[55, 15, 30])];
            let owner = match self.rng.weighted(&[25, 35, 25, 15]) {
                0 if self.world.config.drivers > 0 => Owner::Driver(self.rng.between(1, self.world.config.drivers)),
                1 if devices > 0 => Owner::Device(self.rng.between(1, devices)),
                2 => favourite.map_or(Owner::External, Owner::Device),
                _ => Owner::External,
            };
            objects.push(Object { kind, owner });
        }
        self.rng.shuffle(&mut objects);
        for object in &objects {
            let home = match object.owner {
                Owner::External => homes(self.rng, &self.world.zones, 1)[0],
                Owner::Driver(driver) => self.world.drivers[driver - 1],
                Owner::Device(device) => self.world.devices[device - 1],
            };
            self.world.objects.push(home);
        }
        self.world.config.objects = objects;
    }

    /// Objects whose planned partition is this one, none of kind 4.
    fn at_home(&self, zone: usize) -> Vec<usize> {
        let numbers = 1..=self.world.config.objects.len();
        let here = |object: &usize| self.world.objects[*object - 1] == zone;
        numbers.filter(|object| here(object) && self.world.config.kind(*object) != Kind::Hardcoded).collect()
    }

    fn set(&mut self, value: usize, entries: Vec<Entry>) {
        self.world.config.values[value - 1] = entries;
    }

    /// Values for the hardcoded descriptors: the device's own objects, kind 1 by mode 1 only.
    fn hardcoded_values(&mut self) {
        let devices = self.world.config.devices();
        let keep = self.free.len() / 3;
        let order = self.rng.some(&(1..=devices).collect::<Vec<_>>(), devices);
        for device in order {
            if self.free.len() <= keep || self.rng.percent(5) {
                continue;
            }
            let Some(value) = self.free.pop() else { return };
            let own = self.world.config.owned_by(Owner::Device(device));
            let named: Vec<usize> =
                own.into_iter().filter(|object| self.world.config.kind(*object) != Kind::Hardcoded).collect();
            let count = self.rng.between(2, MAX_ENTRIES);
            let named = self.rng.some(&named, count);
            let entries = named.into_iter().map(|object| match self.world.config.kind(object) {
                Kind::Transfer => Entry { object, mode: 1, stored: 0 },
                _ => Entry { object, mode: self.rng.between(1, 3), stored: 0 },
            });
            let entries = entries.collect();
            self.set(value, entries);
            self.world.config.hardcoded[device - 1] = value;
        }
    }

    /// Descriptors that some device's hardcoded value reads, with the device's planned partition.
    fn first_links(&self) -> Vec<(usize, usize)> {
        let config = &self.world.config;
        let of_device = |device: usize| {
            let entries = config.value(config.hardcoded[device]).iter();
            let read = entries.filter(|entry| config.kind(entry.object) == Kind::Transfer);
            read.map(move |entry| (entry.object, self.world.devices[device]))
        };
        (0..config.devices()).flat_map(of_device).collect()
    }

    /// Chains of 1 to 40 values, each writing the next into a descriptor that the device then reads.
    fn chains(&mut self) {
        let links = self.first_links();
        let spare = if self.free.len() > LONGEST_CHAIN { 3 } else { self.free.len() / 4 };
        while self.free.len() > spare {
            let Some((head, zone)) = self.rng.pick(&links) else {
                return;
            };
            let longest = (self.free.len() - spare).min(LONGEST_CHAIN);
            let length = if self.rng.percent(50) { longest } else { self.rng.between(1, longest.min(5)) };
            let length = self.rng.between(length / 2 + 1, length);
            let values = self.free.split_off(self.free.len() - length);
            self.world.heads.push((head, values[0]));
            self.chain(head, zone, &values);
        }
    }

    fn chain(&mut self, head: usize, zone: usize, values: &[usize]) {
        let here = self.at_home(zone);
        let (mut descriptors, plain): (Vec<usize>, Vec<usize>) =
            here.iter().partition(|object| self.world.config.kind(**object) == Kind::Transfer);
        self.rng.shuffle(&mut descriptors);
        // Where there are objects with numbers of two bytes, most chains go through these first.
        if self.world.config.objects.len() > MAX_ONE_BYTE && self.rng.percent(75) {
            descriptors.sort_by_key(|object| *object <= MAX_ONE_BYTE);
        }
        // Long chains get no further descriptors, which would be short cuts; one chain in eight lacks a read.
        let others = if values.len() > 8 { plain } else { here };
        let miss = if self.rng.percent(12) { self.rng.below(values.len()) } else { values.len() };
        for (place, value) in values.iter().enumerate() {
            let mut entries = match values.get(place + 1) {
                None => vec![self.last_link(zone)],
                Some(next) => {
                    let object = descriptors.get(place % descriptors.len().max(1)).copied().unwrap_or(head);
                    self.link(object, *next, place != miss)
                }
            };
            while entries.len() < MAX_ENTRIES && self.rng.percent(25) {
                entries.extend(self.rng.pick(&others).map(|object| self.entry(object)));
            }
            self.rng.shuffle(&mut entries);
            self.set(*value, entries);
        }
    }

    /// A write of the next value with a read of the same descriptor: one entry or two, or (a near miss) no read.
    fn link(&mut self, object: usize, stored: usize, read: bool) -> Vec<Entry> {
        let write = Entry { object, mode: 2, stored };
        match (read, self.rng.percent(66)) {
            (true, true) => vec![Entry { object, mode: 3, stored }],
            (true, false) => vec![write, Entry { object, mode: 1, stored: 0 }],
            (false, _) => vec![write],
        }
    }

    /// The end of a chain: in half of the cases it names kind 4 or an object that is meant to be elsewhere.
    fn last_link(&mut self, zone: usize) -> Entry {
        let here = self.at_home(zone);
        let all = 1..=self.world.config.objects.len();
        let elsewhere: Vec<usize> = all.filter(|object| !here.contains(object)).collect();
        let leaves = self.rng.percent(50);
        let object = self.rng.pick(if leaves { &elsewhere } else { &here });
        self.entry(object.unwrap_or(1))
    }

    /// An entry for this object. Descriptors are mostly read, and mostly cleared where they are written.
    fn entry(&mut self, object: usize) -> Entry {
        if self.world.config.kind(object) != Kind::Transfer {
            return Entry { object, mode: self.rng.between(1, 3), stored: 0 };
        }
        let mode = [1, 2, 3][self.rng.weighted(&[60, 20, 20])];
        let stored =
            if mode == 1 || self.rng.percent(50) { 0 } else { self.rng.between(0, self.world.config.values.len()) };
        Entry { object, mode, stored }
    }

    /// A value that only reads a hardcoded descriptor.
    fn spying_value(&mut self) {
        let devices = self.world.config.devices();
        if let Some(value) = self.free.pop().filter(|_| devices > 0) {
            let object = self.world.config.hardcoded_object(self.rng.between(1, devices));
            self.set(value, vec![Entry { object, mode: 1, stored: 0 }]);
        }
    }

    /// The rest: values within one partition, and wild ones that name anything, or descriptors only, kind 4 too.
    fn other_values(&mut self) {
        let all: Vec<usize> = (1..=self.world.config.objects.len()).collect();
        if self.rng.percent(50) {
            self.spying_value();
        }
        while let Some(value) = self.free.pop() {
            let zone = self.rng.pick(&self.world.zones).unwrap_or(0);
            let named = match self.rng.weighted(&[65, 25, 10]) {
                0 => self.at_home(zone),
                1 => all.clone(),
                _ => all.iter().copied().filter(|object| self.world.config.kind(*object).is_descriptor()).collect(),
            };
            let mut entries = Vec::new();
            for _ in 0..self.rng.between(0, MAX_ENTRIES) {
                entries.extend(self.rng.pick(&named).map(|object| self.entry(object)));
            }
            self.set(value, entries);
        }
    }
}
