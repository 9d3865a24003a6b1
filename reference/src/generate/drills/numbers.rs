//! New numbers for all that a script names: kept, reversed or shuffled.

use crate::config::{Config, Entry, Object, Owner};
use crate::generate::names::{Name, names};
use crate::generate::rng::Rng;
use crate::generate::worlds::World;
use crate::limits::MAX_PARTITION;
use crate::operation::Operation;
use crate::tokens;

/// How things are numbered at the end.
#[derive(Clone, Copy, Debug, PartialEq, Eq)]
pub enum Numbering {
    Kept,
    Reversed,
    Shuffled,
}

impl Numbering {
    pub fn any(rng: &mut Rng) -> Numbering {
        [Numbering::Kept, Numbering::Reversed, Numbering::Shuffled][rng.below(3)]
    }

    /// New numbers for 1 to `count`, at their places; 0 stays.
    fn numbers(self, rng: &mut Rng, count: usize) -> Vec<usize> {
        let mut numbers: Vec<usize> = (1..=count).collect();
        match self {
            Numbering::Kept => (),
            Numbering::Reversed => numbers.reverse(),
            Numbering::Shuffled => rng.shuffle(&mut numbers),
        }
        numbers.insert(0, 0);
        numbers
    }
}

/// The new number of each old one, at its place.
pub struct Numbers {
    objects: Vec<usize>,
    values: Vec<usize>,
    drivers: Vec<usize>,
    devices: Vec<usize>,
    partitions: Vec<usize>,
}

impl Numbers {
    pub fn new(rng: &mut Rng, config: &Config, objects: Numbering, values: Numbering) -> Numbers {
        Numbers {
            objects: objects.numbers(rng, config.objects.len()),
            values: values.numbers(rng, config.values.len()),
            drivers: Numbering::Shuffled.numbers(rng, config.drivers),
            devices: Numbering::Shuffled.numbers(rng, config.devices()),
            partitions: Numbering::Shuffled.numbers(rng, MAX_PARTITION),
        }
    }

    pub fn rename(&self, operation: &mut Operation) {
        for (name, number) in names(operation) {
            *number = match name {
                Name::Driver => self.drivers[*number],
                Name::Device => self.devices[*number],
                // An object beyond the last has no other number.
                Name::Object | Name::Destination => self.objects.get(*number).copied().unwrap_or(*number),
                Name::Value => self.values[*number],
                Name::Partition => self.partitions[*number],
            };
        }
    }

    pub fn world(&self, old: &World) -> World {
        let homes = |homes: &[usize]| homes.iter().map(|home| self.partitions[*home]).collect::<Vec<_>>();
        let config = self.config(&old.config);
        World {
            line: tokens::encode(&tokens::of_config(&config)),
            config,
            zones: homes(&old.zones),
            greens: homes(&old.greens),
            locks: old.locks,
            serials: old.serials,
            drivers: moved(&self.drivers, &homes(&old.drivers)),
            devices: moved(&self.devices, &homes(&old.devices)),
            objects: moved(&self.objects, &homes(&old.objects)),
            heads: old.heads.iter().map(|(head, value)| (self.objects[*head], self.values[*value])).collect(),
        }
    }

    fn config(&self, old: &Config) -> Config {
        let owner = |owner: Owner| match owner {
            Owner::External => Owner::External,
            Owner::Driver(driver) => Owner::Driver(self.drivers[driver]),
            Owner::Device(device) => Owner::Device(self.devices[device]),
        };
        let entry = |entry: &Entry| Entry {
            object: self.objects[entry.object],
            mode: entry.mode,
            stored: self.values[entry.stored],
        };
        let objects: Vec<Object> =
            old.objects.iter().map(|object| Object { owner: owner(object.owner), ..*object }).collect();
        let hardcoded: Vec<usize> = old.hardcoded.iter().map(|value| self.values[*value]).collect();
        let values: Vec<Vec<Entry>> = old.values.iter().map(|value| value.iter().map(entry).collect()).collect();
        Config {
            edition: old.edition,
            drivers: old.drivers,
            objects: moved(&self.objects, &objects),
            hardcoded: moved(&self.devices, &hardcoded),
            serials: moved(&self.devices, &old.serials),
            values: moved(&self.values, &values),
        }
    }
}

/// The list with the member of old number n at the place of its new number.
fn moved<T: Clone>(numbers: &[usize], list: &[T]) -> Vec<T> {
    let mut out = list.to_vec();
    for (place, member) in list.iter().enumerate() {
        out[numbers[place + 1] - 1] = member.clone();
    }
    out
}
