//! Calls of the function that rewrites a configuration file: an accepted file into areas of every length that matters,
//! files that each question refuses, files that announce many objects, files with a serial changed, and files of any
//! bytes. The areas are full of noise.

use super::broken;
use super::rng::Rng;
use super::serials;
use super::worlds::World;

/// One call: the file, and the area before it.
#[derive(Clone, Debug, PartialEq, Eq)]
pub struct Rewrite {
    pub line: Vec<u8>,
    pub out: Vec<u8>,
}

/// How much longer than the file the longest area is.
const SPARE: usize = 40;

/// The calls for one world.
pub fn rewrites(rng: &mut Rng, world: &World) -> Vec<Rewrite> {
    let length = world.line.len();
    let mut calls = Vec::new();
    for room in [0, length - 1, length, length + 1, length + SPARE] {
        calls.push(Rewrite { line: world.line.clone(), out: rng.bytes(room) });
    }
    for number in 1..=6 {
        let line = broken::line(rng, world, number);
        calls.push(somewhere(rng, line));
    }
    let widened = broken::widened(rng, world);
    calls.push(somewhere(rng, widened));
    let mut changed = world.line.clone();
    changed[rng.below(length)] = rng.between(0, 130) as u8;
    calls.push(somewhere(rng, changed));
    if let Some(line) = serials::changed(rng, world) {
        calls.push(somewhere(rng, line));
    }
    let count = rng.below(2 * SPARE);
    let any = rng.bytes(count);
    calls.push(somewhere(rng, any));
    calls
}

/// The file into an area of some length.
fn somewhere(rng: &mut Rng, line: Vec<u8>) -> Rewrite {
    let lengths = [0, line.len(), line.len() + SPARE, rng.below(line.len() + SPARE)];
    let room = lengths[rng.below(lengths.len())];
    Rewrite { line, out: rng.bytes(room) }
}
