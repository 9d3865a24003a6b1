//! Operations that are likely refused by a chosen number: an operation that is likely accepted, changed in one place.

use super::likely::Scene;
use super::names::{Name, names};
use crate::closure::{closure, entries};
use crate::config::{Entry, Kind, Owner};
use crate::operation::{Actor, Copying, Item, Operation, Put};
use crate::state::{NONE, exists};

impl Scene<'_> {
    /// An operation that question `number`, 11 to 23, is likely to refuse.
    pub fn likely_refused(&mut self, number: u8) -> Operation {
        match number {
            11 => self.with_unknown_name(),
            12 => self.with_a_name_twice(),
            13 => self.with_wrong_kind(),
            14 => self.with_wrong_partition(),
            15 => Operation::Destroy { partition: self.existing() },
            16 => self.with_wrong_activity(),
            17 => self.with_objects_elsewhere(),
            18 => self.undescribed(),
            19 => self.crossing(),
            20 => self.leaving(),
            21 => self.entering(),
            23 => self.against_lock(),
            _ => self.against_green_rule(),
        }
    }

    /// Any operation at all, with names that exist more often than not.
    pub fn anything(&mut self) -> Operation {
        let mut operation = self.shape();
        for (name, number) in names(&mut operation) {
            *number = if self.rng.percent(3) { self.unknown(name) } else { self.known(name) };
        }
        operation
    }

    /// An operation of any code whose names are yet to be chosen.
    fn shape(&mut self) -> Operation {
        if let Some(operation) = self.shape_of_lock() {
            return operation;
        }
        let actor = if self.rng.percent(50) { Actor::Driver(1) } else { Actor::Device(1) };
        let count = self.count();
        match self.rng.below(8) {
            0 => {
                let item = Item { object: 1, put: Put::Value(0) };
                let items = (0..count).map(|_| item).collect();
                self.raw_items(Operation::Write { actor, items })
            }
            1 => Operation::Read { actor, pairs: vec![Copying { source: 1, destination: 0 }; count] },
            2 => Operation::Create { partition: 1, green: self.perhaps_green() },
            3 => Operation::Destroy { partition: 1 },
            4 => Operation::Activate { actor, partition: 1 },
            5 => Operation::ActivateExternal { partition: 1, objects: vec![1; count] },
            6 => Operation::Deactivate { actor },
            _ => Operation::DeactivateExternal { partition: 1, objects: vec![1; count] },
        }
    }

    /// Makes some items of a write raw.
    fn raw_items(&mut self, mut operation: Operation) -> Operation {
        if let Operation::Write { items, .. } = &mut operation {
            for item in items {
                if self.rng.percent(40) {
                    item.put = Put::Raw(self.rng.contents());
                }
            }
        }
        operation
    }

    /// Sets one name of the kinds wanted; the operation stays as it is if it has none.
    fn change(&mut self, mut operation: Operation, wanted: &[Name], unknown: bool) -> Operation {
        let mut fitting: Vec<(Name, &mut usize)> =
            names(&mut operation).into_iter().filter(|(name, _)| wanted.contains(name)).collect();
        let place = self.rng.below(fitting.len());
        if let Some((name, number)) = fitting.get_mut(place) {
            **number = if unknown { self.unknown(*name) } else { self.known(*name) };
        }
        operation
    }

    fn with_unknown_name(&mut self) -> Operation {
        use Name::{Destination, Device, Driver, Object, Partition, Value};
        let operation = if self.rng.percent(70) { self.likely() } else { self.anything() };
        self.change(operation, &[Driver, Device, Object, Destination, Value, Partition], true)
    }

    /// A write, read or list in which a target stands twice.
    fn with_a_name_twice(&mut self) -> Operation {
        let mut operation = self.with_targets();
        match &mut operation {
            Operation::Write { items, .. } if items.len() < 8 => items.push(items[self.rng.below(items.len())]),
            Operation::Read { pairs, .. } if pairs.len() < 8 => {
                let mut pair = pairs[self.rng.below(pairs.len())];
                pair.source = if self.rng.percent(50) { pair.source } else { pairs[0].source };
                pairs.insert(0, pair);
            }
            Operation::ActivateExternal { objects, .. } | Operation::DeactivateExternal { objects, .. } => {
                objects.truncate(7);
                objects.push(objects[self.rng.below(objects.len())]);
            }
            _ => (),
        }
        operation
    }

    /// An operation that names objects, likely accepted if there is one now.
    fn with_targets(&mut self) -> Operation {
        for _ in 0..8 {
            let operation = if self.rng.percent(75) { self.likely() } else { self.anything() };
            if !operation.targets().is_empty() || !operation.sources().is_empty() {
                return operation;
            }
        }
        self.anything()
    }

    /// A kind 4 object, the other form, a copy between kinds, or an owned object in a list of external ones.
    fn with_wrong_kind(&mut self) -> Operation {
        let mut operation = self.with_targets();
        if self.rng.percent(40)
            && let Some(descriptor) = self.hardcoded()
        {
            let is_object = |name: &Name| matches!(name, Name::Object | Name::Destination);
            let mut objects: Vec<(Name, &mut usize)> =
                names(&mut operation).into_iter().filter(|(name, _)| is_object(name)).collect();
            let place = self.rng.below(objects.len());
            if let Some((_, object)) = objects.get_mut(place) {
                **object = descriptor;
            }
            return operation;
        }
        self.change(operation, &[Name::Object, Name::Destination], false)
    }

    pub(super) fn existing(&mut self) -> usize {
        let zones: Vec<usize> = (1..=63).filter(|zone| exists(self.state.status[*zone])).collect();
        self.rng.pick(&zones).unwrap_or_else(|| self.rng.between(1, 63))
    }

    /// A partition created twice, or another operation on one that does not exist.
    fn with_wrong_partition(&mut self) -> Operation {
        let used: Vec<usize> = (1..=63).filter(|zone| self.state.status[*zone] != 0).collect();
        if let Some(partition) = self.rng.pick(&used).filter(|_| self.rng.percent(40)) {
            return Operation::Create { partition, green: self.perhaps_green() };
        }
        let gone: Vec<usize> = (1..=63).filter(|zone| !exists(self.state.status[*zone])).collect();
        if let Some(operation) = gone.first().and_then(|partition| self.locked_into(*partition)) {
            return operation;
        }
        let mut operation = if self.rng.percent(60) { self.likely() } else { self.anything() };
        for (name, number) in names(&mut operation) {
            if name == Name::Partition {
                *number = self.rng.pick(&gone).unwrap_or(1);
            }
        }
        operation
    }

    /// Something active brought in again, or something inactive that acts or leaves.
    fn with_wrong_activity(&mut self) -> Operation {
        if let Some(operation) = self.lock_of_active() {
            return operation;
        }
        let partition = self.existing();
        let operation = match self.rng.below(5) {
            0 => self.leave(Actor::Driver).or_else(|| self.leave(Actor::Device)),
            1 => self.leave(Actor::Device).or_else(|| self.leave(Actor::Driver)),
            2 => self.leave_external(),
            _ => None,
        };
        match operation {
            Some(Operation::Deactivate { actor }) => Operation::Activate { actor, partition },
            Some(Operation::DeactivateExternal { objects, .. }) => Operation::ActivateExternal { partition, objects },
            _ => {
                let operation = if self.rng.percent(50) { self.likely() } else { self.anything() };
                self.change(operation, &[Name::Driver, Name::Device], false)
            }
        }
    }

    fn with_objects_elsewhere(&mut self) -> Operation {
        if self.rng.percent(30)
            && let Some(Operation::DeactivateExternal { objects, .. }) = self.leave_external()
        {
            return Operation::DeactivateExternal { partition: self.existing(), objects };
        }
        let operation = if self.rng.percent(50) { self.driver_write() } else { self.driver_read() };
        let operation = operation.unwrap_or_else(|| self.anything());
        self.change(operation, &[Name::Object, Name::Destination], false)
    }

    /// A device's transfer with another object, another value, or a copy to anywhere.
    fn undescribed(&mut self) -> Operation {
        let operation = match self.rng.weighted(&[25, 25, 30, 20]) {
            0 => self.device_write(),
            1 => self.device_read(),
            2 => self.wrong_value(),
            _ => self.wrong_mode(),
        };
        let operation = operation.unwrap_or_else(|| self.anything());
        if self.rng.percent(40) {
            return operation;
        }
        self.change(operation, &[Name::Object, Name::Destination, Name::Value, Name::Device], false)
    }

    /// A device's write, or copy, to a descriptor that it may write, mostly with another value than the one described.
    fn wrong_value(&mut self) -> Option<Operation> {
        let device = self.active_device()?;
        let config = &self.world.config;
        let entries = self.transfers(device).into_iter().filter(|entry| config.kind(entry.object) == Kind::Transfer);
        let entries: Vec<Entry> = entries.collect();
        let writes: Vec<Entry> = entries.iter().copied().filter(|entry| entry.writes()).collect();
        let reads: Vec<Entry> = entries.iter().copied().filter(|entry| entry.reads()).collect();
        let written = self.rng.pick(&writes)?.object;
        let actor = Actor::Device(device);
        match self.rng.pick(&reads).filter(|_| self.rng.percent(50)) {
            Some(read) => {
                let pairs = vec![Copying { source: read.object, destination: written }];
                Some(Operation::Read { actor, pairs })
            }
            None => {
                let items = vec![Item { object: written, put: Put::Value(self.known(Name::Value)) }];
                Some(Operation::Write { actor, items })
            }
        }
    }

    /// A device's read of what it may only write, or write of what it may only read.
    fn wrong_mode(&mut self) -> Option<Operation> {
        let device = self.active_device()?;
        let one_way: Vec<Entry> = self.transfers(device).into_iter().filter(|entry| entry.mode != 3).collect();
        let entry = self.rng.pick(&one_way)?;
        let actor = Actor::Device(device);
        if entry.writes() {
            return Some(Operation::Read { actor, pairs: vec![Copying { source: entry.object, destination: 0 }] });
        }
        let is_value = self.world.config.kind(entry.object) == Kind::Transfer;
        let put = if is_value { Put::Value(0) } else { Put::Raw(self.rng.contents()) };
        Some(Operation::Write { actor, items: vec![Item { object: entry.object, put }] })
    }

    /// A driver's write of any value, mostly where a device reads it.
    fn crossing(&mut self) -> Operation {
        let operation = match self.rng.weighted(&[50, 40, 10]) {
            0 => self.write_where_read(),
            1 => self.driver_write(),
            _ => self.driver_read(),
        };
        let operation = operation.unwrap_or_else(|| self.anything());
        if self.rng.percent(60) { operation } else { self.change(operation, &[Name::Value], false) }
    }

    /// A driver's write into a descriptor that a device of its partition reads now.
    fn write_where_read(&mut self) -> Option<Operation> {
        let driver = self.active_driver()?;
        let object = self.read_descriptor(self.state.driver(driver))?;
        let item = Item { object, put: Put::Value(self.known(Name::Value)) };
        Some(Operation::Write { actor: Actor::Driver(driver), items: vec![item] })
    }

    /// A deactivation of something that an active device can reach, if there is any.
    fn leaving(&mut self) -> Operation {
        if let Some(object) = self.named_in_green() {
            return self.deactivation_of(object);
        }
        let found = closure(&self.world.config, self.state);
        let owner = |object: usize| self.world.config.object(object).owner;
        let reached: Vec<usize> = entries(&self.world.config, &found)
            .filter(|(device, entry)| owner(entry.object) != Owner::Device(*device))
            .map(|(_, entry)| entry.object)
            .collect();
        let operation = match self.rng.pick(&reached).filter(|_| self.rng.percent(80)) {
            Some(object) => Some(self.deactivation_of(object)),
            None => match self.rng.below(3) {
                0 => self.leave(Actor::Driver),
                1 => self.leave(Actor::Device),
                _ => self.leave_external(),
            },
        };
        operation.unwrap_or_else(|| self.anything())
    }

    /// An inactive device brought in somewhere, mostly one with a ring.
    fn entering(&mut self) -> Operation {
        let config = &self.world.config;
        let absent: Vec<usize> = (1..=config.devices()).filter(|device| self.state.device(*device) == NONE).collect();
        let ringed: Vec<usize> = absent.iter().copied().filter(|device| config.has_ring(*device)).collect();
        let device = self.rng.pick(&ringed).filter(|_| self.rng.percent(80)).or_else(|| self.rng.pick(&absent));
        let partition = self.existing();
        match device {
            Some(device) => Operation::Activate { actor: Actor::Device(device), partition },
            None => self.leave(Actor::Device).unwrap_or_else(|| self.anything()),
        }
    }

    /// The deactivation that an object is concerned by.
    fn deactivation_of(&mut self, object: usize) -> Operation {
        match self.world.config.object(object).owner {
            Owner::Driver(driver) => Operation::Deactivate { actor: Actor::Driver(driver) },
            Owner::Device(device) => Operation::Deactivate { actor: Actor::Device(device) },
            Owner::External => {
                let partition = usize::from(self.state.object(object));
                Operation::DeactivateExternal { partition, objects: vec![object] }
            }
        }
    }
}
