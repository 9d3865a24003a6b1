//! Sessions of the office program: records behind their lengths, carried on from the fresh state, with cut endings.

use super::broken;
use super::greens::greened;
use super::locks::locking;
use super::records::{self, Want};
use super::rings::ringed;
use super::rng::Rng;
use super::serials::labelled;
use super::worlds::{Size, World, world};
use crate::limits::{MAX_NUMBER, MAX_NUMBER_BEFORE};
use crate::state::State;
use crate::varint;

/// A folder of the office program: its two files.
#[derive(Clone, Debug, PartialEq, Eq)]
pub struct Folder {
    pub line: Vec<u8>,
    pub session: Vec<u8>,
}

/// How a session ends.
#[derive(Clone, Copy, Debug, PartialEq, Eq)]
pub enum End {
    Whole,
    /// In a number or record that is cut.
    Cut,
}

/// What breaks a world's file for a question.
type Breaking = fn(&mut Rng, &World, u8) -> Vec<u8>;

/// A folder of this size with about `records` records; `focus` is a number to see often. Lines are of both editions,
/// some have rings, and all sessions green zones and locks.
pub fn folder(rng: &mut Rng, size: Size, records: usize, focus: Option<u8>) -> Folder {
    let world = labelled(rng, size);
    folder_over(rng, &world, records, focus, broken::line)
}

/// The same without serials, as it was before there were any.
pub fn folder_with_locks(rng: &mut Rng, size: Size, records: usize, focus: Option<u8>) -> Folder {
    let world = locking(rng, size);
    folder_over(rng, &world, records, focus, broken::line)
}

/// The same without locks, as it was before there were any.
pub fn folder_with_greens(rng: &mut Rng, size: Size, records: usize, focus: Option<u8>) -> Folder {
    let world = greened(rng, size);
    folder_over(rng, &world, records, focus, broken::line)
}

/// The same without green zones, as it was before there were any.
pub fn folder_with_rings(rng: &mut Rng, size: Size, records: usize, focus: Option<u8>) -> Folder {
    let world = ringed(rng, size);
    folder_over(rng, &world, records, focus, broken::line)
}

/// The same without rings, as it was before there were any.
pub fn folder_of_before(rng: &mut Rng, size: Size, records: usize, focus: Option<u8>) -> Folder {
    let world = world(rng, size);
    folder_over(rng, &world, records, focus, broken::line_of_before)
}

fn folder_over(rng: &mut Rng, world: &World, records: usize, focus: Option<u8>, breaking: Breaking) -> Folder {
    let line = match focus {
        Some(number @ 1..=6) => breaking(rng, world, number),
        _ => world.line.clone(),
    };
    let end = if rng.percent(8) { End::Cut } else { End::Whole };
    let session = session(rng, world, records, focus, end);
    Folder { line, session }
}

/// A session over a world.
pub fn session(rng: &mut Rng, world: &World, records: usize, focus: Option<u8>, end: End) -> Vec<u8> {
    let mut state = State::fresh(&world.config);
    let mut out = Vec::new();
    for place in 0..records {
        let want = match focus {
            Some(number @ 10..=23) if place * 2 > records && rng.percent(30) => Want::Refused(number),
            _ => Want::any(rng, world),
        };
        let record = records::record(rng, world, &state, want);
        if let Ok((next, _)) = records::judgement(world, &state, &record) {
            state = next;
        }
        varint::write(record.len(), &mut out);
        out.extend(record);
    }
    if end == End::Cut {
        out.extend(cut_end(rng, world));
    }
    out
}

/// Lengths of records that are cut; those behind the first six come with serials (request N7).
const CUT: [usize; 9] = [1, 2, 127, 128, 300, MAX_NUMBER_BEFORE, MAX_NUMBER_BEFORE + 1, broken::LARGE, MAX_NUMBER];
const CUT_BEFORE: usize = 6;

/// A length without a last byte, in a bad form, or larger than what follows.
fn cut_end(rng: &mut Rng, world: &World) -> Vec<u8> {
    let length = CUT[rng.below(if world.serials { CUT.len() } else { CUT_BEFORE })];
    let mut bytes = Vec::new();
    match rng.below(4) {
        0 => bytes.extend([200, 128, 255, 128].iter().take(rng.between(1, 4))),
        1 => {
            bytes.extend(broken::bad_number(rng, length, world.rules().most_number));
            bytes.extend(rng.bytes(3));
        }
        2 => varint::write(length, &mut bytes),
        _ => {
            varint::write(length, &mut bytes);
            bytes.extend(rng.bytes((length - 1).min(9)));
        }
    }
    bytes
}
