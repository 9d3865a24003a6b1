//! Operations that are likely to be accepted: they follow the plan of a world, look at the state, and go deep.

use super::rng::Rng;
use super::worlds::World;
use crate::config::{Entry, Kind, Owner};
use crate::green;
use crate::limits::{MAX_COUNT, MAX_PARTITION};
use crate::operation::{Actor, Copying, Item, Operation, Put};
use crate::state::{NEVER_USED, NONE, State, exists};
use crate::trace;
use std::collections::BTreeSet;

/// What the proposals look at.
pub struct Scene<'a> {
    pub rng: &'a mut Rng,
    pub world: &'a World,
    pub state: &'a State,
}

impl Scene<'_> {
    /// An operation that is likely accepted.
    pub fn likely(&mut self) -> Operation {
        if let Some(operation) = self.perhaps_lock() {
            return operation;
        }
        let setup = self.setup();
        if !setup.is_empty() && self.rng.percent(60) {
            return setup[self.rng.below(setup.len())].clone();
        }
        let proposal = match self.rng.weighted(&[34, 18, 12, 14, 4, 4, 4, 2, 2]) {
            0 => self.driver_write(),
            1 => self.driver_read(),
            2 => self.device_write(),
            3 => self.device_read(),
            4 => self.leave(Actor::Driver),
            5 => self.leave(Actor::Device),
            6 => self.leave_external(),
            7 => self.destroy(),
            _ => None,
        };
        proposal.or_else(|| setup.first().cloned()).unwrap_or_else(|| self.create())
    }

    /// What the plan still asks for: partitions to create, and drivers, devices and external objects to bring in.
    fn setup(&mut self) -> Vec<Operation> {
        let status = |zone: usize| self.state.status[zone];
        let planned: BTreeSet<usize> = self.world.greens.iter().copied().collect();
        let others = planned.iter().copied().filter(|zone| !self.world.zones.contains(zone));
        let unused = self.world.zones.iter().copied().chain(others).filter(|zone| status(*zone) == NEVER_USED);
        let created = |partition: usize| Operation::Create { partition, green: planned.contains(&partition) };
        let mut list: Vec<Operation> = unused.map(created).collect();
        list.extend(self.absent(&self.world.drivers, &self.state.drivers, Actor::Driver));
        let mut devices = self.absent(&self.world.devices, &self.state.devices, Actor::Device);
        devices.retain(|operation| !self.is_ring_into_green(operation) && !self.is_locked_out(operation));
        list.extend(devices);
        for zone in &self.world.zones {
            let here = |object: &usize| self.world.objects[*object - 1] == *zone && self.state.object(*object) == NONE;
            let objects: Vec<usize> = self.world.config.owned_by(Owner::External).into_iter().filter(here).collect();
            if exists(status(*zone)) && !objects.is_empty() {
                let objects = self.rng.some(&objects, MAX_COUNT);
                list.push(Operation::ActivateExternal { partition: *zone, objects });
            }
        }
        self.rng.shuffle(&mut list);
        list
    }

    /// Whether an operation brings a locked device in, which 23 refuses.
    fn is_locked_out(&self, operation: &Operation) -> bool {
        matches!(operation.actor(), Some(Actor::Device(device)) if self.state.is_locked(device))
    }

    /// Activations of the inactive drivers, or devices, whose planned partition exists.
    fn absent(&self, homes: &[usize], places: &[u8], who: fn(usize) -> Actor) -> Vec<Operation> {
        let both = homes.iter().zip(places).enumerate();
        both.filter(|(_, (home, place))| exists(self.state.status[**home]) && **place == NONE)
            .map(|(number, (home, _))| Operation::Activate { actor: who(number + 1), partition: *home })
            .collect()
    }

    fn create(&mut self) -> Operation {
        let partition = self.rng.between(1, MAX_PARTITION);
        Operation::Create { partition, green: self.perhaps_green() }
    }

    /// How many parts a record gets: mostly few.
    pub fn count(&mut self) -> usize {
        if self.rng.percent(55) { self.rng.between(1, 2) } else { self.rng.between(1, MAX_COUNT) }
    }

    pub fn active_driver(&mut self) -> Option<usize> {
        let drivers: Vec<usize> =
            (1..=self.world.config.drivers).filter(|driver| self.state.driver(*driver) != NONE).collect();
        self.rng.pick(&drivers)
    }

    pub fn active_device(&mut self) -> Option<usize> {
        let devices: Vec<usize> =
            (1..=self.world.config.devices()).filter(|device| self.state.device(*device) != NONE).collect();
        self.rng.pick(&devices)
    }

    /// The objects in a partition, none of kind 4.
    pub fn objects_in(&self, partition: u8) -> Vec<usize> {
        let there = |object: &usize| self.state.object(*object) == partition;
        let plain = |object: &usize| self.world.config.kind(*object) != Kind::Hardcoded;
        (1..=self.world.config.objects.len()).filter(|object| there(object) && plain(object)).collect()
    }

    pub fn driver_write(&mut self) -> Option<Operation> {
        let driver = self.active_driver()?;
        let here = self.objects_in(self.state.driver(driver));
        // Chains of writes are for zones that are not green.
        let leads = |head: usize| here.contains(&head) && !self.state.is_green(self.state.object(head));
        let heads: Vec<(usize, usize)> = self.world.heads.iter().copied().filter(|(head, _)| leads(*head)).collect();
        let count = self.count();
        let mut items: Vec<Item> = Vec::new();
        if let Some((object, value)) = self.rng.pick(&heads).filter(|_| self.rng.percent(50)) {
            items.push(Item { object, put: Put::Value(value) });
        }
        for object in self.rng.some(&here, count) {
            if items.iter().all(|item| item.object != object) && items.len() < count {
                items.push(Item { object, put: self.put(object) });
            }
        }
        self.rng.shuffle(&mut items);
        (!items.is_empty()).then_some(Operation::Write { actor: Actor::Driver(driver), items })
    }

    /// A kind 1 object that a device of this partition can read now.
    pub fn read_descriptor(&mut self, partition: u8) -> Option<usize> {
        let devices: Vec<usize> =
            (1..=self.world.config.devices()).filter(|device| self.state.device(*device) == partition).collect();
        let device = self.rng.pick(&devices)?;
        let read = trace::readable(&self.world.config, self.state, device).into_iter();
        let plain: Vec<usize> = read.filter(|object| self.world.config.kind(*object) == Kind::Transfer).collect();
        self.rng.pick(&plain)
    }

    /// What suits an object: a value whose entries lie in its partition, or keep the rule of its green zone, value 0,
    /// or any.
    pub fn put(&mut self, object: usize) -> Put {
        if self.world.config.kind(object) != Kind::Transfer {
            return Put::Raw(self.rng.contents());
        }
        let zone = self.state.object(object);
        let inside = |entry: &Entry| match self.state.is_green(zone) {
            true => green::is_green_entry(&self.world.config, self.state, zone, entry),
            false => self.state.object(entry.object) == zone,
        };
        let values = self.world.config.values.len();
        let fits = |value: &usize| {
            let entries = self.world.config.value(*value);
            !entries.is_empty() && entries.iter().all(inside)
        };
        let fitting: Vec<usize> = (1..=values).filter(fits).collect();
        let value = match self.rng.weighted(&[60, 20, 20]) {
            0 => self.rng.pick(&fitting).unwrap_or(0),
            1 => 0,
            _ => self.rng.between(0, values),
        };
        Put::Value(value)
    }

    pub fn driver_read(&mut self) -> Option<Operation> {
        let driver = self.active_driver()?;
        let here = self.objects_in(self.state.driver(driver));
        let count = self.count();
        let mut pairs: Vec<Copying> = Vec::new();
        for destination in self.rng.some(&here, count) {
            let is_value = |object: usize| self.world.config.kind(object) == Kind::Transfer;
            let alike: Vec<usize> = here.iter().copied().filter(|o| is_value(*o) == is_value(destination)).collect();
            let source = self.rng.pick(&alike)?;
            let destination = if self.rng.percent(30) { 0 } else { destination };
            pairs.push(Copying { source, destination });
        }
        (!pairs.is_empty()).then_some(Operation::Read { actor: Actor::Driver(driver), pairs })
    }

    /// The device's transfers that are described now, without those that name kind 4.
    pub fn transfers(&self, device: usize) -> Vec<Entry> {
        let entries = trace::described(&self.world.config, self.state, device);
        entries.into_iter().filter(|entry| self.world.config.kind(entry.object) != Kind::Hardcoded).collect()
    }

    pub fn device_write(&mut self) -> Option<Operation> {
        let device = self.active_device()?;
        let writes: Vec<Entry> = self.transfers(device).into_iter().filter(|entry| entry.writes()).collect();
        let count = self.count();
        let mut items: Vec<Item> = Vec::new();
        for entry in self.rng.some(&writes, count) {
            if items.iter().all(|item| item.object != entry.object) {
                let is_value = self.world.config.kind(entry.object) == Kind::Transfer;
                let put = if is_value { Put::Value(entry.stored) } else { Put::Raw(self.rng.contents()) };
                items.push(Item { object: entry.object, put });
            }
        }
        (!items.is_empty()).then_some(Operation::Write { actor: Actor::Device(device), items })
    }

    pub fn device_read(&mut self) -> Option<Operation> {
        let device = self.active_device()?;
        let transfers = self.transfers(device);
        let reads: Vec<Entry> = transfers.iter().copied().filter(|entry| entry.reads()).collect();
        let count = self.count();
        let mut pairs: Vec<Copying> = Vec::new();
        for entry in self.rng.some(&reads, count) {
            let source = entry.object;
            let fits = |to: &&Entry| to.writes() && self.copy_fits(source, to);
            let fitting: Vec<usize> = transfers.iter().filter(fits).map(|to| to.object).collect();
            let destination = self.rng.pick(&fitting).filter(|_| self.rng.percent(75)).unwrap_or(0);
            let taken = pairs.iter().any(|pair| pair.destination == destination);
            pairs.push(Copying { source, destination: if taken { 0 } else { destination } });
        }
        (!pairs.is_empty()).then_some(Operation::Read { actor: Actor::Device(device), pairs })
    }

    /// Whether a copy of `source` is the write that an entry describes.
    fn copy_fits(&self, source: usize, to: &Entry) -> bool {
        let is_value = |object: usize| self.world.config.kind(object) == Kind::Transfer;
        is_value(source) == is_value(to.object) && (!is_value(source) || self.state.held(source) == to.stored)
    }

    pub fn leave(&mut self, who: fn(usize) -> Actor) -> Option<Operation> {
        let number = match who(1) {
            Actor::Driver(_) => self.active_driver()?,
            Actor::Device(_) => self.active_device()?,
        };
        Some(Operation::Deactivate { actor: who(number) })
    }

    pub fn leave_external(&mut self) -> Option<Operation> {
        let external = self.world.config.owned_by(Owner::External);
        let active: Vec<usize> = external.into_iter().filter(|object| self.state.object(*object) != NONE).collect();
        let partition = self.state.object(self.rng.pick(&active)?);
        let there: Vec<usize> = active.into_iter().filter(|object| self.state.object(*object) == partition).collect();
        let count = self.count();
        let objects = self.rng.some(&there, count);
        Some(Operation::DeactivateExternal { partition: usize::from(partition), objects })
    }

    fn destroy(&mut self) -> Option<Operation> {
        let existing: Vec<usize> = (1..=MAX_PARTITION).filter(|p| exists(self.state.status[*p])).collect();
        self.rng.pick(&existing).map(|partition| Operation::Destroy { partition })
    }
}
