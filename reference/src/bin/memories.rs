//! Cases of the writer of files for the programs `vectors`, this package's and the proved one: configurations in memory
//! that the generator makes, of both editions, each into an area of a length that matters. As many as a program takes
//! in.
//!
//!     memories SEED > CASES

use reference::Memory;
use reference::generate::memories::cases;
use reference::generate::serials::label;
use reference::generate::{Rng, Size, ringed};
use reference::memory::{OBJECT_PLACES, SMALL_OBJECT_PLACES};
use std::io::Write;
use std::process::ExitCode;

/// What a case of the writer begins with: the columns for objects have the places of small configurations, or all; or
/// edition and serials stand before the counts.
const WRITE_SMALL: u8 = 7;
const WRITE: u8 = 11;
const WRITE_SERIALS: u8 = 14;

/// How much is put to the program `vectors` at the most, which takes in more.
const MOST_INPUT: usize = 131_072;

/// How much longer than the file the longest area is.
const SPARE: usize = 40;

fn main() -> ExitCode {
    let seed = std::env::args().nth(1).and_then(|word| word.parse().ok());
    match seed.map(|seed| std::io::stdout().write_all(&input(seed))) {
        Some(Ok(())) => ExitCode::SUCCESS,
        Some(Err(error)) => {
            eprintln!("memories: {error}");
            ExitCode::FAILURE
        }
        None => {
            eprintln!("usage: memories SEED");
            ExitCode::FAILURE
        }
    }
}

/// The cases of one line after the other, until the next one would be too much.
fn input(seed: u64) -> Vec<u8> {
    let mut out = Vec::new();
    for part in 0.. {
        let mut rng = Rng::part(seed, part);
        let size = Size::any(&mut rng);
        let mut world = ringed(&mut rng, size);
        if rng.percent(50) {
            label(&mut rng, &mut world);
        }
        for memory in cases(&mut rng, &Memory::of(&world.config)) {
            let kind = kind(&mut rng, &memory, world.config.is_wide());
            let case = case(&mut rng, &memory, world.line.len(), kind);
            if out.len() + case.len() > MOST_INPUT {
                return out;
            }
            out.extend(case);
        }
    }
    out
}

/// What a case calls. Without edition and serials stands only what is of edition 1 and has none.
fn kind(rng: &mut Rng, memory: &Memory, wide: bool) -> u8 {
    let empty = Memory::empty();
    let plain = memory.edition == empty.edition && memory.serials == empty.serials;
    match rng.weighted(&[30, 40, 30]) {
        _ if !plain => WRITE_SERIALS,
        0 if !wide => WRITE_SMALL,
        2 => WRITE_SERIALS,
        _ => WRITE,
    }
}

/// A configuration into an area; zeros at its end are left out, as the programs take them for given.
fn case(rng: &mut Rng, memory: &Memory, length: usize, kind: u8) -> Vec<u8> {
    let rooms = [0, length - 1, length, length + 1, length + SPARE];
    let mut bytes = two(rooms[rng.below(rooms.len())]).to_vec();
    bytes.extend(match kind {
        WRITE_SMALL => memory.to_row(SMALL_OBJECT_PLACES),
        WRITE => memory.to_row(OBJECT_PLACES),
        _ => memory.to_bytes(),
    });
    bytes.truncate(bytes.iter().rposition(|byte| *byte != 0).map_or(2, |last| last.max(1) + 1));
    [&[kind][..], &two(bytes.len()), &bytes].concat()
}

/// A number in two bytes, the lower one first.
fn two(number: usize) -> [u8; 2] {
    [(number % 256) as u8, (number / 256) as u8]
}
