//! How far a device's entry lies: the shortest chain of descriptor writes that leads to it. Shares nothing with the
//! closure: it goes in layers, and remembers what led to each pair.

use crate::config::{Config, Entry, Kind};
use crate::state::{NONE, State};
use std::collections::BTreeMap;

/// A descriptor and a value number.
type Pair = (usize, usize);

/// A device and a pair that it reads.
type Read = (usize, Pair);

/// A chain from a hardcoded descriptor to the entry that is looked for.
#[derive(Clone, Debug, PartialEq, Eq)]
pub struct Chain {
    /// The descriptor writes that the entry needs, counted as document 01 counts its chain of two: 1 if the values held
    /// now lead there, and one more for each write of a device.
    pub length: usize,
    /// The descriptors that are read on the way, without the hardcoded one.
    pub descriptors: Vec<usize>,
}

/// How the descriptors of a chain are numbered along it.
#[derive(Clone, Copy, Debug, PartialEq, Eq, PartialOrd, Ord)]
pub enum Order {
    Rising,
    Falling,
    /// The same descriptor again and again.
    Level,
    Shuffled,
}

pub const ORDERS: [Order; 4] = [Order::Rising, Order::Falling, Order::Level, Order::Shuffled];

impl Order {
    /// The shortest chain that can have this order.
    pub fn least(self) -> usize {
        match self {
            Order::Rising | Order::Falling | Order::Level => 2,
            Order::Shuffled => 3,
        }
    }
}

impl Chain {
    /// The order; a chain of one descriptor has none.
    pub fn order(&self) -> Option<Order> {
        let all = |fits: fn(&usize, &usize) -> bool| self.descriptors.windows(2).all(|two| fits(&two[0], &two[1]));
        match self.descriptors.len() {
            0 | 1 => None,
            _ if all(usize::lt) => Some(Order::Rising),
            _ if all(usize::gt) => Some(Order::Falling),
            _ if all(usize::eq) => Some(Order::Level),
            _ => Some(Order::Shuffled),
        }
    }
}

/// The search as far as it has come.
struct Layers<'a> {
    config: &'a Config,
    /// What is collected, with what wrote it; nothing wrote what is held now.
    pairs: BTreeMap<Pair, Option<Read>>,
    /// What is read, with what led there.
    reads: BTreeMap<Read, Option<Read>>,
    /// The pairs that the last layer added.
    new: Vec<Pair>,
}

/// The shortest chain to an entry of an active device for which `wanted` holds.
pub fn shortest(config: &Config, state: &State, wanted: impl Fn(usize, &Entry) -> bool) -> Option<Chain> {
    let mut layers = Layers::begin(config, state);
    let mut length = 1;
    loop {
        layers.read_all();
        let is_there = |read: &&Read| config.value(read.1.1).iter().any(|entry| wanted(read.0, entry));
        if let Some(found) = layers.reads.keys().find(is_there) {
            return Some(Chain { length, descriptors: layers.way_to(*found) });
        }
        if !layers.write_all() {
            return None;
        }
        length += 1;
    }
}

impl Layers<'_> {
    fn begin<'a>(config: &'a Config, state: &State) -> Layers<'a> {
        let mut layers = Layers { config, pairs: BTreeMap::new(), reads: BTreeMap::new(), new: Vec::new() };
        for object in (1..=config.objects.len()).filter(|object| state.object(*object) != NONE) {
            if config.kind(object).is_descriptor() {
                layers.pairs.insert((object, state.held(object)), None);
            }
        }
        for device in (1..=config.devices()).filter(|device| state.device(*device) != NONE) {
            let descriptor = config.hardcoded_object(device);
            layers.reads.insert((device, (descriptor, state.held(descriptor))), None);
        }
        layers
    }

    /// All that can be read with the pairs collected.
    fn read_all(&mut self) {
        let mut waiting: Vec<Read> = self.reads.keys().copied().collect();
        while let Some(read) = waiting.pop() {
            let (device, (_, value)) = read;
            for entry in self.config.value(value).iter().filter(|entry| matches!(entry.mode, 1 | 3)) {
                for (pair, writer) in self.pairs.range((entry.object, 0)..=(entry.object, usize::MAX)) {
                    // A pair of this layer comes from its writer; one that was there before, from who reads it.
                    let from = writer.filter(|_| self.new.contains(pair)).unwrap_or(read);
                    self.reads.entry((device, *pair)).or_insert_with(|| {
                        waiting.push((device, *pair));
                        Some(from)
                    });
                }
            }
        }
    }

    /// All that the pairs read write; whether there is anything new.
    fn write_all(&mut self) -> bool {
        self.new.clear();
        for read in self.reads.keys() {
            for entry in self.config.value(read.1.1).iter().filter(|entry| matches!(entry.mode, 2 | 3)) {
                let pair = (entry.object, entry.stored);
                if self.config.kind(entry.object) == Kind::Transfer && !self.pairs.contains_key(&pair) {
                    self.pairs.insert(pair, Some(*read));
                    self.new.push(pair);
                }
            }
        }
        !self.new.is_empty()
    }

    /// The descriptors on the way to a pair, without the hardcoded one.
    fn way_to(&self, read: Read) -> Vec<usize> {
        let mut way = Vec::new();
        let mut next = Some(read);
        while let Some(read) = next {
            way.push(read.1.0);
            next = self.reads.get(&read).copied().flatten();
        }
        way.reverse();
        way.retain(|object| self.config.kind(*object) != Kind::Hardcoded);
        way
    }
}
