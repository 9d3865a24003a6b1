//! Worlds whose devices advance rings of their own (request N4): hardcoded values that write the device's descriptors.
//! They are made from worlds without rings, so that these stay as they are for a seed.

use super::rng::Rng;
use super::worlds::{Size, World, world};
use crate::config::{Entry, Kind, Owner};
use crate::limits::MAX_ENTRIES;
use crate::tokens;

/// A world of this size. Three in four have rings, if a device has a descriptor for one.
pub fn ringed(rng: &mut Rng, size: Size) -> World {
    let mut world = world(rng, size);
    if rng.percent(75) {
        for device in 1..=world.config.devices() {
            if rng.percent(65) {
                add_ring(rng, &mut world, device);
            }
        }
        world.line = tokens::encode(&tokens::of_config(&world.config));
    }
    world
}

/// Lets a device's hardcoded value write one of its descriptors, or two.
fn add_ring(rng: &mut Rng, world: &mut World, device: usize) {
    let value = world.config.hardcoded[device - 1];
    let own = world.config.owned_by(Owner::Device(device));
    let own: Vec<usize> = own.into_iter().filter(|object| world.config.kind(*object) == Kind::Transfer).collect();
    if value == 0 {
        return;
    }
    for _ in 0..rng.between(1, 2) {
        let read: Vec<usize> = own.iter().copied().filter(|object| is_named(world, value, *object)).collect();
        let Some(object) = rng.pick(&read).filter(|_| rng.percent(80)).or_else(|| rng.pick(&own)) else {
            return;
        };
        let stored = put_value(rng, world, device);
        write_in(rng, &mut world.config.values[value - 1], object, stored);
    }
}

fn is_named(world: &World, value: usize, object: usize) -> bool {
    world.config.value(value).iter().any(|entry| entry.object == object)
}

/// Adds a write to a value: beside what it has, or in the place of the entry that names the object. One in six writes
/// what it does not read.
fn write_in(rng: &mut Rng, entries: &mut Vec<Entry>, object: usize, stored: usize) {
    let named = entries.iter().position(|entry| entry.object == object && entry.mode == 1);
    match (rng.weighted(&[50, 33, 17]), named) {
        (0, Some(place)) => entries[place] = Entry { object, mode: 3, stored },
        (2, Some(place)) => entries[place] = Entry { object, mode: 2, stored },
        (way, _) if entries.len() < MAX_ENTRIES => {
            let mode = if way == 0 { 3 } else { 2 };
            let place = rng.between(0, entries.len());
            entries.insert(place, Entry { object, mode, stored });
        }
        _ => (),
    }
}

/// What a ring puts: the first value of a chain in the device's partition, a value that names only what is meant to be
/// there, 0, or any value.
fn put_value(rng: &mut Rng, world: &World, device: usize) -> usize {
    let home = world.devices[device - 1];
    let config = &world.config;
    let is_home = |object: usize| world.objects[object - 1] == home && config.kind(object) != Kind::Hardcoded;
    let heads = world.heads.iter().filter(|(head, _)| is_home(*head)).map(|(_, value)| *value);
    let heads: Vec<usize> = heads.collect();
    let inside = |value: &usize| {
        let entries = config.value(*value);
        !entries.is_empty() && entries.iter().all(|entry| is_home(entry.object))
    };
    let inside: Vec<usize> = (1..=config.values.len()).filter(inside).collect();
    let any = rng.between(0, config.values.len());
    match rng.weighted(&[30, 45, 10, 15]) {
        0 => rng.pick(&heads).unwrap_or(any),
        1 => rng.pick(&inside).unwrap_or(0),
        2 => 0,
        _ => any,
    }
}

/// The world with a hardcoded value that names an object of another device, of a driver or of nobody, by any mode: a
/// file that question 6 refuses. The world stays as it is if it has no room for one.
pub fn with_stray(rng: &mut Rng, world: &World) -> World {
    let mut world = world.clone();
    let config = &mut world.config;
    let device = rng.between(1, config.devices());
    let Some(value) = config.hardcoded.get(device - 1).copied().filter(|value| *value != 0) else {
        return world;
    };
    let stray = |object: &usize| {
        config.kind(*object) != Kind::Hardcoded && config.object(*object).owner != Owner::Device(device)
    };
    let objects: Vec<usize> = (1..=config.objects.len()).filter(stray).collect();
    let descriptors: Vec<usize> = objects.iter().copied().filter(|o| config.kind(*o) == Kind::Transfer).collect();
    let Some(object) = rng.pick(&descriptors).filter(|_| rng.percent(70)).or_else(|| rng.pick(&objects)) else {
        return world;
    };
    let mode = [1, 2, 3][rng.weighted(&[50, 25, 25])];
    let takes_value = mode != 1 && config.kind(object) == Kind::Transfer;
    let stored = if takes_value { rng.between(0, config.values.len()) } else { 0 };
    let entries = &mut config.values[value - 1];
    entries.truncate(MAX_ENTRIES - 1);
    entries.push(Entry { object, mode, stored });
    world.line = tokens::encode(&tokens::of_config(&world.config));
    world
}
