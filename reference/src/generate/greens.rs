//! Worlds with green zones beside others (request N5), and proposals that the green rule refuses. The worlds are made
//! from worlds with rings, so that these stay as they are for a seed.

use super::likely::Scene;
use super::rings::ringed;
use super::rng::Rng;
use super::worlds::{Size, World};
use crate::config::{Entry, Kind};
use crate::green;
use crate::limits::{MAX_COUNT, MAX_ENTRIES, MAX_PARTITION};
use crate::operation::{Actor, Copying, Item, Operation, Put};
use crate::state::{GREEN, NONE};
use crate::tokens;
use std::collections::BTreeSet;

/// A world of this size. Its zones are green or not; where none of them is, one is that nothing is planned to be in.
pub fn greened(rng: &mut Rng, size: Size) -> World {
    let mut world = ringed(rng, size);
    for zone in world.zones.clone() {
        let ringed = |device: &usize| world.devices[*device - 1] == zone && world.config.has_ring(*device);
        let has_rings = (1..=world.config.devices()).any(|device| ringed(&device));
        if rng.percent(if has_rings { 40 } else { 60 }) {
            world.greens.push(zone);
        }
    }
    if world.greens.is_empty() {
        let others: Vec<usize> = (1..=MAX_PARTITION).filter(|zone| !world.zones.contains(zone)).collect();
        world.greens.extend(rng.pick(&others));
    }
    for value in changeable(rng, &world) {
        if let Some(zone) = rng.pick(&world.greens) {
            world.config.values[value - 1] = value_for(rng, &world, zone);
        }
    }
    world.line = tokens::encode(&tokens::of_config(&world.config));
    world
}

/// Most of the values that neither a hardcoded descriptor holds nor a chain of a zone that is not green runs through.
fn changeable(rng: &mut Rng, world: &World) -> Vec<usize> {
    let config = &world.config;
    let is_green = |object: usize| world.greens.contains(&world.objects[object - 1]);
    let heads = world.heads.iter().filter(|(head, _)| !is_green(*head)).map(|(_, value)| *value);
    let mut kept: BTreeSet<usize> = config.hardcoded.iter().copied().collect();
    let mut ends: Vec<usize> = heads.chain(kept.iter().copied()).collect();
    while let Some(value) = ends.pop() {
        kept.insert(value);
        let stored = config.value(value).iter().map(|entry| entry.stored);
        ends.extend(stored.filter(|value| !kept.contains(value)));
    }
    let free: Vec<usize> = (1..=config.values.len()).filter(|value| !kept.contains(value)).collect();
    let count = free.len() - free.len() / 4;
    rng.some(&free, count)
}

/// A value that keeps the green rule of a zone, or breaks it in one entry.
fn value_for(rng: &mut Rng, world: &World, zone: usize) -> Vec<Entry> {
    let config = &world.config;
    let all = 1..=config.objects.len();
    let (here, elsewhere): (Vec<usize>, Vec<usize>) = all.partition(|object| world.objects[*object - 1] == zone);
    let (hardcoded, here): (Vec<usize>, Vec<usize>) =
        here.into_iter().partition(|object| config.kind(*object) == Kind::Hardcoded);
    let descriptors: Vec<usize> = here.iter().copied().filter(|o| config.kind(*o) == Kind::Transfer).collect();
    let count = rng.between(1, MAX_ENTRIES - 1);
    let mut entries: Vec<Entry> = rng
        .some(&here, count)
        .into_iter()
        .map(|object| match config.kind(object) {
            Kind::Transfer => Entry { object, mode: 1, stored: 0 },
            _ => Entry { object, mode: rng.between(1, 3), stored: 0 },
        })
        .collect();
    let near_miss = match rng.weighted(&[55, 20, 10, 15]) {
        0 => None,
        1 => rng.pick(&descriptors).map(|object| Entry {
            object,
            mode: rng.between(2, 3),
            stored: rng.between(0, config.values.len()),
        }),
        2 => rng.pick(&hardcoded).map(|object| Entry { object, mode: rng.between(1, 3), stored: 0 }),
        _ => rng.pick(&elsewhere).map(|object| match config.kind(object) {
            Kind::Transfer => Entry { object, mode: 1, stored: 0 },
            _ => Entry { object, mode: rng.between(1, 3), stored: 0 },
        }),
    };
    entries.extend(near_miss);
    rng.shuffle(&mut entries);
    entries
}

impl Scene<'_> {
    /// Whether a partition is to be green; never over a world that knows no green zones.
    pub fn perhaps_green(&mut self) -> bool {
        !self.world.greens.is_empty() && self.rng.percent(40)
    }

    /// Whether an operation brings a device with a ring into a green zone, which 22 refuses.
    pub fn is_ring_into_green(&self, operation: &Operation) -> bool {
        match operation {
            Operation::Activate { actor: Actor::Device(device), partition } => {
                self.state.status[*partition] == GREEN && self.world.config.has_ring(*device)
            }
            _ => false,
        }
    }

    /// An object in a green zone that a descriptor there names, mostly one that nobody else looks at; nothing in half
    /// of the cases.
    pub fn named_in_green(&mut self) -> Option<usize> {
        if self.world.greens.is_empty() || self.rng.percent(50) {
            return None;
        }
        let config = &self.world.config;
        let holds = |descriptor: &usize| {
            config.kind(*descriptor) == Kind::Transfer && self.state.is_green(self.state.object(*descriptor))
        };
        let holding = (1..=config.objects.len()).filter(holds);
        let named = holding.flat_map(|descriptor| config.value(self.state.held(descriptor)));
        let named: Vec<usize> =
            named.map(|entry| entry.object).filter(|object| self.state.object(*object) != NONE).collect();
        self.rng.pick(&named)
    }

    /// A driver's write or copy in a green zone, mostly of a value that breaks the rule, or a device with a ring that
    /// is brought into one.
    pub fn against_green_rule(&mut self) -> Operation {
        let operation = match self.rng.weighted(&[60, 15, 25]) {
            0 => self.copy_of_unkept().or_else(|| self.green_write()),
            1 => self.green_copy(),
            _ => None,
        };
        operation.unwrap_or_else(|| self.ring_into_green())
    }

    /// A driver in a green zone.
    fn green_driver(&mut self) -> Option<usize> {
        let drivers = (1..=self.world.config.drivers).filter(|driver| self.state.is_green(self.state.driver(*driver)));
        let drivers: Vec<usize> = drivers.collect();
        self.rng.pick(&drivers)
    }

    /// A write of a value that breaks the rule, beside others that keep it.
    fn green_write(&mut self) -> Option<Operation> {
        let driver = self.green_driver()?;
        let zone = self.state.driver(driver);
        let config = &self.world.config;
        let breaks = |value: &usize| !green::is_green_value(config, self.state, zone, *value);
        let bad: Vec<usize> = (1..=config.values.len()).filter(breaks).collect();
        let here = self.objects_in(zone);
        let descriptors: Vec<usize> = here.iter().copied().filter(|o| config.kind(*o) == Kind::Transfer).collect();
        let object = self.rng.pick(&descriptors)?;
        let mut items = vec![Item { object, put: Put::Value(self.rng.pick(&bad)?) }];
        let count = self.count() - 1;
        for other in self.rng.some(&here, count).into_iter().filter(|other| *other != object) {
            items.push(Item { object: other, put: self.put(other) });
        }
        self.rng.shuffle(&mut items);
        Some(Operation::Write { actor: Actor::Driver(driver), items })
    }

    /// Copies between descriptors of a green zone. What calls have put there keeps the rule; other areas show more.
    fn green_copy(&mut self) -> Option<Operation> {
        let driver = self.green_driver()?;
        let config = &self.world.config;
        let here = self.objects_in(self.state.driver(driver));
        let descriptors: Vec<usize> =
            here.into_iter().filter(|object| config.kind(*object) == Kind::Transfer).collect();
        let count = self.count().min(MAX_COUNT);
        let mut pairs = Vec::new();
        for destination in self.rng.some(&descriptors, count) {
            let source = self.rng.pick(&descriptors)?;
            let destination = if self.rng.percent(15) { 0 } else { destination };
            pairs.push(Copying { source, destination });
        }
        (!pairs.is_empty()).then_some(Operation::Read { actor: Actor::Driver(driver), pairs })
    }

    /// In a state that no list of calls reaches, mostly, a copy of what breaks the rule, among others; it may have no
    /// destination.
    fn copy_of_unkept(&mut self) -> Option<Operation> {
        let config = &self.world.config;
        let breaks = |object: &usize| {
            let zone = self.state.object(*object);
            config.kind(*object) == Kind::Transfer
                && self.state.is_green(zone)
                && self.state.drivers.contains(&zone)
                && !green::is_green_value(config, self.state, zone, self.state.held(*object))
        };
        let unkept: Vec<usize> = (1..=config.objects.len()).filter(breaks).collect();
        let source = self.rng.pick(&unkept).filter(|_| self.rng.percent(70))?;
        let zone = self.state.object(source);
        let drivers: Vec<usize> = (1..=config.drivers).filter(|driver| self.state.driver(*driver) == zone).collect();
        let here: Vec<usize> =
            self.objects_in(zone).into_iter().filter(|object| config.kind(*object) == Kind::Transfer).collect();
        let count = self.count();
        let mut pairs: Vec<Copying> = Vec::new();
        for destination in self.rng.some(&here, count) {
            let source = self.rng.pick(&here)?;
            pairs.push(Copying { source, destination });
        }
        let place = self.rng.below(pairs.len());
        pairs[place].source = source;
        if self.rng.percent(25) {
            pairs[place].destination = 0;
        }
        Some(Operation::Read { actor: Actor::Driver(self.rng.pick(&drivers)?), pairs })
    }

    /// An inactive device with a ring, if there is one, brought into a green zone.
    fn ring_into_green(&mut self) -> Operation {
        let config = &self.world.config;
        let is_absent = |device: &usize| self.state.device(*device) == NONE;
        let absent: Vec<usize> = (1..=config.devices()).filter(is_absent).collect();
        let ringed: Vec<usize> = absent.iter().copied().filter(|device| config.has_ring(*device)).collect();
        let device = self.rng.pick(&ringed).filter(|_| self.rng.percent(90)).or_else(|| self.rng.pick(&absent));
        let greens: Vec<usize> = (1..=MAX_PARTITION).filter(|zone| self.state.status[*zone] == GREEN).collect();
        let partition = self.rng.pick(&greens).unwrap_or_else(|| self.existing());
        match device {
            Some(device) => Operation::Activate { actor: Actor::Device(device), partition },
            None => self.leave(Actor::Device).unwrap_or_else(|| self.anything()),
        }
    }
}
