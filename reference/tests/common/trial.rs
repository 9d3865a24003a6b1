//! The trial of demand 3 and of `locked-out` (request N6) on generated lists of calls and random traces, for the
//! papers' gate and for faulty ones.

use crate::common::book::Book;
use reference::closure::{any_crosses, closure};
use reference::config::{Config, Entry, Kind};
use reference::gate::{Judgement, operate_with};
use reference::generate::drills::Drill;
use reference::generate::records::record;
use reference::generate::{Rng, Size, Want, World, drills, greened, locking, ringed, rings::with_stray};
use reference::operation::{self, Actor};
use reference::state::{EXISTING, GREEN, NONE, State};
use reference::tokens::row;
use reference::{effect, fresh, green, trace};
use std::collections::{BTreeMap, BTreeSet, VecDeque};
use std::ops::Range;

/// A gate under trial: what it takes a file for, how it judges a record, and whether what it accepts in green zones is
/// searched.
#[derive(Clone, Copy)]
pub struct Gate<'a> {
    pub load: fn(&[u8]) -> Result<Config, u8>,
    pub judge: &'a dyn Fn(&Config, &State, &[u8]) -> Judgement,
    pub searched: bool,
}

/// How many lists a trial has.
pub const SEEDS: u64 = 1_200;

/// What a trial went through.
#[derive(Debug, Default)]
pub struct Trial {
    pub refused_files: usize,
    pub ring_lines: usize,
    pub calls: usize,
    pub accepted: usize,
    pub moved: usize,
    pub traces: usize,
    pub transfers: usize,
    pub descriptor_writes: usize,
    /// Writes by which a device advances its ring, and those of them that do so again in one trace.
    pub ring_writes: usize,
    pub rounds: usize,
    /// Devices that were refused by 21, and devices with a ring that came in.
    pub refused_rings: usize,
    pub rings: usize,
    /// Lines with green zones, and calls that 22 refused.
    pub green_lines: usize,
    pub refused_by_22: usize,
    /// Accepted writes and copies that store a value with entries into a green zone's descriptor; each was searched.
    pub green_writes: usize,
    pub green_copies: usize,
    /// Calls after which a device was locked, devices that were locked then, and calls that 23 refused, by code.
    pub beside_locks: usize,
    pub locked: usize,
    pub refused_by_23: BTreeMap<usize, usize>,
}

/// Lists of calls from fresh states, one for each seed. One line in three is that of a drill, and with green zones or
/// locks its list begins with the drill; one file in six is one that question 6 refuses.
pub fn trial(gate: Gate, seeds: Range<u64>) -> Result<Trial, String> {
    let mut trial = Trial::default();
    for seed in seeds {
        let mut rng = Rng::part(3, seed);
        let size = Size::any(&mut rng);
        let (mut world, mut records) = match rng.weighted(&[8, 24, 6, 16, 28, 18]) {
            0 => (drills::any_ring(&mut rng).world, Vec::new()),
            1 => begun(drills::any_green(&mut rng)),
            2 => begun(drills::any_lock(&mut rng)),
            3 => (ringed(&mut rng, size), Vec::new()),
            4 => (greened(&mut rng, size), Vec::new()),
            _ => (locking(&mut rng, size), Vec::new()),
        };
        if rng.percent(17) {
            (world, records) = (with_stray(&mut rng, &world), Vec::new());
        }
        if (gate.load)(&world.line).is_err() {
            trial.refused_files += 1;
            continue;
        }
        trial.ring_lines += usize::from(world.config.has_rings());
        trial.green_lines += usize::from(!world.greens.is_empty());
        trial.list(gate, &mut rng, &world, records.into()).map_err(|fault| format!("seed {seed}: {fault}"))?;
    }
    Ok(trial)
}

/// A drill's world, and its records to begin with.
fn begun(drill: Drill) -> (World, Vec<Vec<u8>>) {
    (drill.world, drill.records)
}

impl Trial {
    fn list(&mut self, gate: Gate, rng: &mut Rng, world: &World, mut records: VecDeque<Vec<u8>>) -> Result<(), String> {
        let mut area = rng.bytes(world.config.state_bytes());
        if fresh(&world.line, &mut area) != 0 {
            // Only a gate with another question 6 comes here.
            area = State::fresh(&world.config).to_bytes();
        }
        let mut book = Book::new(&world.config);
        let mut padlocks = Padlocks::default();
        for _ in 0..records.len() + rng.between(0, 60) + world.config.objects.len() {
            let before = book.copied();
            let state = State::from_bytes(&world.config, &area).expect("the length is right");
            let record = records.pop_front().unwrap_or_else(|| next_record(rng, world, &state));
            let number = self.call(gate, rng, world, (&mut area, &record), &mut book)?;
            if gate.searched && number == 0 {
                self.green_passes(&world.config, &state, &record)?;
            }
            if area != book.area() {
                return Err(format!("the area is not the book after answer {number}"));
            }
            padlocks.feed(&record, number);
            self.locked_out(gate, &world.config, &book, &padlocks)?;
            let entered = before.moved_in(&book);
            if let Some(object) = entered.iter().find(|object| !book.is_cleared(**object)) {
                return Err(format!("object {object} entered and was not cleared"));
            }
            self.moved += entered.len();
            if number == 0 && rng.percent(25) {
                self.trace(rng, &world.config, &book.area())?;
            }
        }
        self.trace(rng, &world.config, &book.area())
    }

    /// One call with an answer area of any length and content; the book is fed.
    fn call(
        &mut self,
        gate: Gate,
        rng: &mut Rng,
        world: &World,
        (area, record): (&mut [u8], &[u8]),
        book: &mut Book,
    ) -> Result<u32, String> {
        let length = if rng.percent(4) { rng.below(128) } else { rng.between(128, 160) };
        let mut answer = rng.bytes(length);
        let (state_before, answer_before) = (area.to_vec(), answer.clone());
        let number = operate_with(gate.load, gate.judge, &world.line, area, record, &mut answer);
        assert!(
            number == 0 || (area == &state_before[..] && answer == answer_before),
            "refusal {number} changed an area"
        );
        book.feed(record, number);
        self.calls += 1;
        self.refused_by_22 += usize::from(number == 22);
        if number == 23 {
            *self.refused_by_23.entry(usize::from(record[0])).or_default() += 1;
        }
        self.accepted += usize::from(number == 0);
        self.entering(&world.config, record, number)?;
        Ok(number)
    }

    /// `locked-out` (request N6): a device whose lock is 1 in the book is in no partition, has no entry in reach, and
    /// comes into no partition that exists; and it is locked from the accepted 14 to the next accepted 15 of it.
    fn locked_out(&mut self, gate: Gate, config: &Config, book: &Book, padlocks: &Padlocks) -> Result<(), String> {
        let locked: BTreeSet<usize> = (1..=config.devices()).filter(|device| book.is_locked(*device)).collect();
        if locked != padlocks.devices {
            return Err(format!("the book has {locked:?} locked, and the records {:?}", padlocks.devices));
        }
        if locked.is_empty() {
            return Ok(());
        }
        self.beside_locks += 1;
        self.locked += locked.len();
        let state = State::from_bytes(config, &book.area()).expect("the length is right");
        let found = closure(config, &state);
        let reading: BTreeSet<usize> = found.reads.iter().map(|(device, _)| *device).collect();
        for device in locked {
            if book.card(device) != NONE || reading.contains(&device) {
                return Err(format!("device {device} is locked and in partition {}", book.card(device)));
            }
            let existing = (1..=63).filter(|zone| matches!(state.status[*zone], EXISTING | GREEN));
            for partition in existing {
                if (gate.judge)(config, &state, &row(&[8, device, partition])).is_ok() {
                    return Err(format!("device {device} is locked and would come into partition {partition}"));
                }
            }
        }
        Ok(())
    }

    /// What the rule of a green zone has passed, the search of 19 passes too: no entry crosses in the state that
    /// followed.
    fn green_passes(&mut self, config: &Config, before: &State, record: &[u8]) -> Result<(), String> {
        let operation = operation::read(record).expect("it was accepted");
        let Some(Actor::Driver(driver)) = operation.actor().filter(|_| matches!(operation.code(), 1 | 3)) else {
            return Ok(());
        };
        let zone = before.driver(driver);
        if before.status[usize::from(zone)] != GREEN {
            return Ok(());
        }
        let stored = green::stored_values(config, before, &operation);
        if stored.iter().any(|value| !config.value(*value).is_empty()) {
            *(if operation.code() == 1 { &mut self.green_writes } else { &mut self.green_copies }) += 1;
        }
        let after = effect::apply(config, before, &operation);
        match any_crosses(config, &after, closure) {
            true => Err(format!("the search refuses what was accepted in green zone {zone}: {record:?}")),
            false => Ok(()),
        }
    }

    /// In a state that calls have made, only a device with a ring is refused by 21.
    fn entering(&mut self, config: &Config, record: &[u8], number: u32) -> Result<(), String> {
        let operation = operation::read(record).filter(|operation| operation.code() == 8);
        let Some(Actor::Device(device)) = operation.and_then(|operation| operation.actor()) else {
            return Ok(());
        };
        match number {
            21 if !config.has_ring(device) => Err(format!("device {device} has no ring, and 21 refuses it")),
            21 => {
                self.refused_rings += 1;
                Ok(())
            }
            _ => {
                self.rings += usize::from(number == 0 && config.has_ring(device));
                Ok(())
            }
        }
    }

    /// A few traces from the book.
    fn trace(&mut self, rng: &mut Rng, config: &Config, area: &[u8]) -> Result<(), String> {
        let state = State::from_bytes(config, area).expect("the length is right");
        for _ in 0..2 {
            self.traces += 1;
            let length = rng.between(1, 60);
            self.transfers(rng, config, state.clone(), length)?;
        }
        Ok(())
    }

    fn transfers(&mut self, rng: &mut Rng, config: &Config, mut state: State, length: usize) -> Result<(), String> {
        let mut advanced = BTreeSet::new();
        for _ in 0..length {
            let active: Vec<usize> = (1..=config.devices()).filter(|device| state.device(*device) != NONE).collect();
            let Some(device) = rng.pick(&active) else { return Ok(()) };
            let entries = trace::described(config, &state, device);
            let Some(entry) = choose(rng, config, &entries) else {
                continue;
            };
            self.transfers += 1;
            let object = entry.object;
            if config.kind(object) == Kind::Hardcoded || state.object(object) != state.device(device) {
                return Err(format!("device {device} touches object {object}"));
            }
            if entry.writes() && (!entry.reads() || rng.percent(80)) {
                trace::write(config, &mut state, &entry, rng.contents());
                self.descriptor_writes += usize::from(config.kind(object) == Kind::Transfer);
                if config.stores(&entry) && config.hardcoded_entries(device).contains(&entry) {
                    self.ring_writes += 1;
                    self.rounds += usize::from(!advanced.insert((device, object, entry.stored)));
                }
            }
            hardcoded_values_hold(config, &state)?;
        }
        Ok(())
    }
}

/// The devices with a padlock, told by records and answers alone.
#[derive(Default)]
struct Padlocks {
    devices: BTreeSet<usize>,
}

impl Padlocks {
    fn feed(&mut self, record: &[u8], number: u32) {
        match record {
            [14, device] if number == 0 => drop(self.devices.insert(usize::from(*device))),
            [15, device] if number == 0 => drop(self.devices.remove(&usize::from(*device))),
            _ => (),
        }
    }
}

/// A record for a state. Where no device has a ring, nothing else asks for devices that are refused by 21.
fn next_record(rng: &mut Rng, world: &World, state: &State) -> Vec<u8> {
    let want = if rng.percent(8) { Want::Refused(21) } else { Want::any(rng, world) };
    record(rng, world, state, want)
}

/// Any entry, with writes to descriptors chosen more often: they lead on.
fn choose(rng: &mut Rng, config: &Config, entries: &[Entry]) -> Option<Entry> {
    let leads_on = |entry: &&Entry| entry.writes() && config.kind(entry.object) == Kind::Transfer;
    let leading: Vec<Entry> = entries.iter().filter(leads_on).copied().collect();
    if rng.percent(60) { rng.pick(&leading).or_else(|| rng.pick(entries)) } else { rng.pick(entries) }
}

fn hardcoded_values_hold(config: &Config, state: &State) -> Result<(), String> {
    for device in 1..=config.devices() {
        if state.held(config.hardcoded_object(device)) != config.hardcoded[device - 1] {
            return Err(format!("the hardcoded descriptor of device {device} has another value"));
        }
    }
    Ok(())
}
