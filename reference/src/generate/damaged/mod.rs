//! State areas that are broken on purpose, each with the record that has to be found (request N3): one record in one
//! rule, at every place that matters; two records; the head alone, in each of its rules; the head so that records break
//! with it; the lock bytes alone, in each of their rules (request N6), and beside the head and records.

mod heads;
mod locks;
mod records;

use super::areas::{scrambled, zones};
use super::rng::Rng;
use crate::config::Config;
use crate::state::{DESTROYED, EXISTING, GREEN, NEVER_USED, State, exists};
use crate::tokens;

/// A state, and what has to be found in it.
#[derive(Clone, Debug)]
pub struct Damaged {
    /// What was broken.
    pub name: String,
    pub state: State,
    /// The first record that breaks a rule; 0 if none does.
    pub place: usize,
    /// Whether the bytes before the records keep their rules, and the lock bytes behind them.
    pub head_fits: bool,
    pub locks_fit: bool,
}

impl Damaged {
    /// A state in which nothing is broken yet.
    fn nothing(name: &str, state: State) -> Damaged {
        Damaged { name: name.to_string(), state, place: 0, head_fits: true, locks_fit: true }
    }
}

/// A configuration, and areas for it.
#[derive(Clone, Debug)]
pub struct Line {
    pub config: Config,
    pub line: Vec<u8>,
    pub areas: Vec<Damaged>,
}

/// How many areas are made of two that are broken each in its own way.
const PAIRS: usize = 6;

/// What is made of a configuration: itself, and with a hardcoded descriptor, of which there are few, as its first
/// object and as its last; areas for each.
pub fn lines(rng: &mut Rng, config: &Config) -> Vec<Line> {
    let mut configs = vec![config.clone()];
    if config.devices() > 0 {
        let hardcoded = config.hardcoded_object(rng.between(1, config.devices()));
        configs.extend([1, config.objects.len()].map(|place| exchanged(config, hardcoded, place)));
    }
    let line = |config: Config| {
        let sound = sound(rng, &config);
        let areas = damaged(rng, &config, &sound);
        Line { line: tokens::encode(&tokens::of_config(&config)), config, areas }
    };
    configs.into_iter().map(line).collect()
}

/// The configuration with two objects exchanged, in entries too.
fn exchanged(config: &Config, one: usize, other: usize) -> Config {
    let mut config = config.clone();
    config.objects.swap(one - 1, other - 1);
    for entry in config.values.iter_mut().flatten() {
        entry.object = match entry.object {
            object if object == one => other,
            object if object == other => one,
            object => object,
        };
    }
    config
}

/// A well formed state that can be broken in many ways: a partition is destroyed, and two exist, one of them green,
/// with nothing in them.
pub fn sound(rng: &mut Rng, config: &Config) -> State {
    let mut state = scrambled(rng, config);
    for status in [DESTROYED, EXISTING, GREEN] {
        let unused = zones(&state, |status| status == NEVER_USED);
        if let Some(zone) = rng.pick(&unused) {
            state.status[usize::from(zone)] = status;
        }
    }
    state
}

/// What is made of a well formed state: itself, and all ways to break it that it has room for.
fn damaged(rng: &mut Rng, config: &Config, sound: &State) -> Vec<Damaged> {
    let records = records::broken(rng, config, sound);
    let heads = heads::alone(rng, config, sound);
    let locks = locks::alone(rng, config, sound);
    let mut all = vec![Damaged::nothing("nothing", sound.clone())];
    all.extend(pairs(rng, "two records", &records, &records));
    all.extend(pairs(rng, "the head and a record", &heads, &records));
    all.extend(pairs(rng, "a lock and a record", &locks, &records));
    all.extend(heads::with_records(rng, config, sound));
    all.extend(heads);
    all.extend(locks);
    all.extend(records);
    all
}

/// Some of the first list, each with the record that one of the second list breaks elsewhere.
fn pairs(rng: &mut Rng, name: &str, first: &[Damaged], second: &[Damaged]) -> Vec<Damaged> {
    let mut out = Vec::new();
    for _ in 0..PAIRS {
        let both = (first.get(rng.below(first.len())), second.get(rng.below(second.len())));
        if let (Some(one), Some(other)) = both
            && one.place != other.place
        {
            out.push(with_record(name, one, other));
        }
    }
    out
}

/// One with the broken record of another; the smaller place counts, unless it is none.
fn with_record(name: &str, one: &Damaged, other: &Damaged) -> Damaged {
    let mut state = one.state.clone();
    state.objects[other.place - 1] = other.state.objects[other.place - 1];
    let place = if one.place == 0 { other.place } else { one.place.min(other.place) };
    Damaged { name: name.to_string(), state, place, ..*one }
}

/// A byte other than 0, often one that names an existing partition.
fn stray(rng: &mut Rng, state: &State) -> u8 {
    let existing = zones(state, exists);
    let any = rng.between(1, usize::from(u8::MAX)) as u8;
    if rng.percent(50) { rng.pick(&existing).unwrap_or(any) } else { any }
}
