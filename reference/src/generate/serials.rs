//! Worlds with serials (request N7): files of both editions, and numbers as large as they can be in files and records.
//! The worlds are those with locks, so that these stay as they are for a seed.

use super::broken::{LARGE, bad_number};
use super::locks::locking;
use super::rng::Rng;
use super::worlds::{Size, World};
use crate::limits::{LAST_EDITION, MAX_NUMBER, MAX_NUMBER_BEFORE, MAX_SERIAL, SERIALS_FROM};
use crate::operation::Operation;
use crate::tokens::{self, Token, row, serial_place};

/// Serials that matter: none, those around a number's lengths, around the limit of before, and the largest.
pub const SERIALS: [usize; 9] = [0, 1, 127, 128, 16_383, 16_384, MAX_NUMBER_BEFORE, MAX_NUMBER_BEFORE + 1, MAX_SERIAL];

/// How often, in a hundred, a world is of the edition with serials.
const LABELLED: usize = 70;

/// A world of this size whose records have numbers of any size; most are of the edition with serials.
pub fn labelled(rng: &mut Rng, size: Size) -> World {
    let mut world = World { serials: true, ..locking(rng, size) };
    if rng.percent(LABELLED) {
        label(rng, &mut world);
    }
    world
}

/// Puts a world's file into the edition with serials, and gives each device one.
pub fn label(rng: &mut Rng, world: &mut World) {
    world.config.edition = LAST_EDITION;
    world.config.serials.iter_mut().for_each(|serial| *serial = some_serial(rng));
    world.line = tokens::encode(&tokens::of_config(&world.config));
}

/// A serial that matters, or any.
pub fn some_serial(rng: &mut Rng) -> usize {
    if rng.percent(70) { SERIALS[rng.below(SERIALS.len())] } else { rng.between(0, MAX_SERIAL) }
}

/// The world's file with something changed at one of its serials: cut before or inside it, in a form that question 2
/// refuses, another serial, left out, put before the value number, or behind a value number that is out of range; or of
/// an edition that is none. Nothing if the file has no serial.
pub fn changed(rng: &mut Rng, world: &World) -> Option<Vec<u8>> {
    let config = &world.config;
    if config.edition < SERIALS_FROM || config.devices() == 0 {
        return None;
    }
    let device = [1, config.devices(), rng.between(1, config.devices())][rng.below(3)];
    let place = serial_place(config.objects.len(), device);
    let mut tokens = tokens::of_config(config);
    match rng.weighted(&[30, 25, 15, 10, 10, 10, 10]) {
        0 => return Some(cut_inside(rng, &tokens[..place])),
        1 => tokens[place] = Token::Bytes(bad_number(rng, config.serials[device - 1], MAX_SERIAL)),
        2 => tokens[place] = Token::Number(some_serial(rng)),
        3 => drop(tokens.remove(place)),
        4 => tokens.swap(place - 1, place),
        5 => tokens[0] = Token::Number([0, LAST_EDITION + 1, LARGE][rng.below(3)]),
        _ => tokens[place - 1] = Token::Number([config.values.len() + 1, LARGE, MAX_SERIAL][rng.below(3)]),
    }
    Some(tokens::encode(&tokens))
}

/// A file that ends before a serial, or inside one of two or three bytes.
fn cut_inside(rng: &mut Rng, before: &[Token]) -> Vec<u8> {
    let mut serial = row(&[rng.between(MAX_NUMBER_BEFORE, MAX_SERIAL)]);
    serial.truncate(rng.below(serial.len()));
    [tokens::encode(before), serial].concat()
}

/// The place of the first item's form among the numbers of a write.
const FIRST_FORM: usize = 4;

/// An operation's record with a number from 65,536 on in the place of one of its numbers: code, count and form too.
pub fn with_large_number(rng: &mut Rng, operation: &Operation) -> Vec<u8> {
    let mut tokens = tokens::of_operation(operation);
    let places: Vec<usize> = (0..tokens.len()).filter(|place| matches!(tokens[*place], Token::Number(_))).collect();
    let form = matches!(operation, Operation::Write { .. }) && rng.percent(40);
    if let Some(place) = rng.pick(&places) {
        let place = if form { FIRST_FORM } else { place };
        let any = rng.between(MAX_NUMBER_BEFORE + 1, MAX_NUMBER);
        let numbers = [MAX_NUMBER_BEFORE + 1, MAX_NUMBER_BEFORE + 2, LARGE, MAX_NUMBER, any];
        tokens[place] = Token::Number(numbers[rng.below(numbers.len())]);
    }
    tokens::encode(&tokens)
}
