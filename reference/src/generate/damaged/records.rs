//! One record broken in one rule: at the first place, at the last object's and the one behind it, at the room's last,
//! and at an object's, an absent one's and a hardcoded descriptor's anywhere.

use super::{Damaged, stray};
use crate::config::{Config, Kind};
use crate::generate::areas::zones;
use crate::generate::rng::Rng;
use crate::limits::{CONTENT_BYTES, MAX_PARTITION};
use crate::state::{Contents, DESTROYED, NEVER_USED, NONE, Record, State, exists, holding};
use std::collections::BTreeSet;

const MOST: usize = u8::MAX as usize;

/// The record of an object with a rule broken, if it is one that the rule can be broken in.
type Breach = fn(&mut Rng, &Config, &State, usize) -> Option<Record>;

/// The rules of an object's record, by how they are broken.
const PRESENT: [(&str, Breach); 9] = [
    ("a partition above 63", above_63),
    ("a partition never used", |rng, _, state, number| {
        moved_to_any(rng, state, number, |status| status == NEVER_USED, NONE)
    }),
    ("a destroyed partition", |rng, _, state, number| {
        moved_to_any(rng, state, number, |status| status == DESTROYED, NONE)
    }),
    ("another partition than the owner's", elsewhere),
    ("no partition, and the owner is active", left_behind),
    ("a value above K", above_k),
    ("a byte behind a value", |rng, config, state, number| behind(rng, config, state, number, Kind::Transfer)),
    ("another hardcoded value", other_hardcoded),
    ("a byte behind a hardcoded value", |rng, config, state, number| {
        behind(rng, config, state, number, Kind::Hardcoded)
    }),
];

/// Those of an absent object's.
const ABSENT: [(&str, Breach); 2] = [
    ("an absent object's partition", |rng, _, state, number| moved(state, number, stray(rng, state))),
    ("an absent object's contents", |rng, _, state, number| {
        let byte = rng.below(CONTENT_BYTES);
        filled(rng, state, number, byte)
    }),
];

pub fn broken(rng: &mut Rng, config: &Config, sound: &State) -> Vec<Damaged> {
    let mut out = Vec::new();
    for place in places(rng, config) {
        let rules = if place <= config.objects.len() { &PRESENT[..] } else { &ABSENT };
        for (name, breach) in rules {
            if let Some(record) = breach(rng, config, sound, place) {
                let mut state = sound.clone();
                state.objects[place - 1] = record;
                out.push(Damaged { place, ..Damaged::nothing(name, state) });
            }
        }
    }
    out
}

fn places(rng: &mut Rng, config: &Config) -> BTreeSet<usize> {
    let (objects, room) = (config.objects.len(), config.room());
    let hardcoded = config.hardcoded_object(rng.between(1, config.devices()));
    let all = [1, objects, objects + 1, room, rng.between(1, objects), rng.between(objects + 1, room), hardcoded];
    all.into_iter().filter(|place| (1..=room).contains(place)).collect()
}

fn moved(state: &State, number: usize, partition: u8) -> Option<Record> {
    Some(Record { partition, ..state.objects[number - 1] })
}

/// Moved into a partition of a status that is asked for, other than the one where it has to be.
fn moved_to_any(rng: &mut Rng, state: &State, number: usize, asked: fn(u8) -> bool, home: u8) -> Option<Record> {
    let mut others = zones(state, asked);
    others.retain(|zone| *zone != home);
    rng.pick(&others).and_then(|zone| moved(state, number, zone))
}

fn above_63(rng: &mut Rng, _: &Config, state: &State, number: usize) -> Option<Record> {
    moved(state, number, rng.between(MAX_PARTITION + 1, MOST) as u8)
}

fn elsewhere(rng: &mut Rng, config: &Config, state: &State, number: usize) -> Option<Record> {
    let home = state.owner(config.object(number).owner)?;
    moved_to_any(rng, state, number, exists, home)
}

fn left_behind(_: &mut Rng, config: &Config, state: &State, number: usize) -> Option<Record> {
    let home = state.owner(config.object(number).owner)?;
    if home == NONE { None } else { moved(state, number, NONE) }
}

fn changed(state: &State, number: usize, contents: Contents) -> Option<Record> {
    Some(Record { contents, ..state.objects[number - 1] })
}

/// With a byte of its contents that is not 0.
fn filled(rng: &mut Rng, state: &State, number: usize, byte: usize) -> Option<Record> {
    let mut contents = state.contents(number);
    contents[byte] = rng.between(1, MOST) as u8;
    changed(state, number, contents)
}

fn above_k(rng: &mut Rng, config: &Config, state: &State, number: usize) -> Option<Record> {
    let values = config.values.len();
    // Often the first that is too many.
    let value = if rng.percent(50) { values + 1 } else { rng.between(values + 1, MOST) };
    if config.kind(number) == Kind::Transfer { changed(state, number, holding(value)) } else { None }
}

fn behind(rng: &mut Rng, config: &Config, state: &State, number: usize, kind: Kind) -> Option<Record> {
    let byte = rng.between(1, CONTENT_BYTES - 1);
    if config.kind(number) == kind { filled(rng, state, number, byte) } else { None }
}

/// Any other value, or one that the file has: of both there are always some.
fn other_hardcoded(rng: &mut Rng, config: &Config, state: &State, number: usize) -> Option<Record> {
    let values: Vec<usize> = (0..=config.values.len()).filter(|value| *value != state.held(number)).collect();
    let other = rng.pick(&values).unwrap_or(MOST);
    let beyond = rng.between(config.values.len() + 1, MOST);
    let value = if rng.percent(70) { other } else { beyond };
    if config.kind(number) == Kind::Hardcoded { changed(state, number, holding(value)) } else { None }
}
