//! The numbers that an operation names, so that the generator can change one of them.

use super::broken::LARGE;
use super::likely::Scene;
use crate::config::Kind;
use crate::limits::{MAX_NUMBER, MAX_NUMBER_BEFORE, MAX_PARTITION};
use crate::operation::{Actor, Operation, Put};

/// Numbers far beyond what exists; those behind the first four come with serials (request N7).
const FAR: [usize; 7] = [128, 256, 16_384, MAX_NUMBER_BEFORE, MAX_NUMBER_BEFORE + 1, LARGE, MAX_NUMBER];
const FAR_BEFORE: usize = 4;

/// What a number in a record stands for.
#[derive(Clone, Copy, Debug, PartialEq, Eq)]
pub enum Name {
    Driver,
    Device,
    /// A target, source or listed object.
    Object,
    /// A destination, 0 included.
    Destination,
    Value,
    Partition,
}

/// All numbers that an operation names, in the record's order.
pub fn names(operation: &mut Operation) -> Vec<(Name, &mut usize)> {
    let mut list = Vec::new();
    let (actor, partition, objects) = match operation {
        Operation::Write { actor, items } => {
            for item in items {
                list.push((Name::Object, &mut item.object));
                if let Put::Value(value) = &mut item.put {
                    list.push((Name::Value, value));
                }
            }
            (Some(actor), None, None)
        }
        Operation::Read { actor, pairs } => {
            for pair in pairs {
                list.push((Name::Object, &mut pair.source));
                list.push((Name::Destination, &mut pair.destination));
            }
            (Some(actor), None, None)
        }
        Operation::Create { partition, .. } | Operation::Destroy { partition } => (None, Some(partition), None),
        Operation::Activate { actor, partition } => (Some(actor), Some(partition), None),
        Operation::Deactivate { actor } | Operation::Lock { actor, .. } => (Some(actor), None, None),
        Operation::ActivateExternal { partition, objects } | Operation::DeactivateExternal { partition, objects } => {
            (None, Some(partition), Some(objects))
        }
    };
    list.extend(objects.into_iter().flatten().map(|object| (Name::Object, object)));
    list.extend(partition.map(|partition| (Name::Partition, partition)));
    list.extend(actor.map(|actor| match actor {
        Actor::Driver(number) => (Name::Driver, number),
        Actor::Device(number) => (Name::Device, number),
    }));
    list
}

impl Scene<'_> {
    /// The largest number that exists.
    fn last(&self, name: Name) -> usize {
        let config = &self.world.config;
        match name {
            Name::Driver => config.drivers,
            Name::Device => config.devices(),
            Name::Object | Name::Destination => config.objects.len(),
            Name::Value => config.values.len(),
            Name::Partition => MAX_PARTITION,
        }
    }

    /// A number that does not exist: 0 where that is one, the first beyond, or far beyond.
    pub fn unknown(&mut self, name: Name) -> usize {
        let beyond = self.last(name) + 1;
        let weights = if self.world.serials { [30, 20, 10, 15, 25] } else { [40, 30, 10, 10, 10] };
        match self.rng.weighted(&weights) {
            0 if !matches!(name, Name::Value | Name::Destination) => 0,
            0 | 1 => beyond,
            2 => self.rng.between(beyond, beyond + 40),
            3 => self.rng.between(beyond.max(128), self.world.rules().most_number),
            _ => {
                let far = if self.world.serials { &FAR[..] } else { &FAR[..FAR_BEFORE] };
                far[self.rng.below(far.len())].max(beyond)
            }
        }
    }

    /// A number that exists; partitions are mostly those of the plan.
    pub fn known(&mut self, name: Name) -> usize {
        match name {
            Name::Partition if self.rng.percent(80) => self.rng.pick(&self.world.zones).unwrap_or(1),
            Name::Value | Name::Destination => self.rng.between(0, self.last(name)),
            _ => self.rng.between(1, self.last(name)),
        }
    }

    /// A kind 4 object, if there is one.
    pub fn hardcoded(&mut self) -> Option<usize> {
        let config = &self.world.config;
        let all: Vec<usize> =
            (1..=config.objects.len()).filter(|object| config.kind(*object) == Kind::Hardcoded).collect();
        self.rng.pick(&all)
    }
}
