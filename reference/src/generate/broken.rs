//! Malformed input: configuration files that break questions 1 to 6, records that break question 10.

use super::rings;
use super::rng::Rng;
use super::worlds::World;
use crate::config::{Config, Entry, Kind, Object, Owner, load_by};
use crate::limits::{MAX_NUMBER, MAX_NUMBER_BEFORE, MAX_OBJECTS, MAX_ONE_BYTE, SMALL_ROOM};
use crate::operation::Operation;
use crate::tokens::{self, Token};
use crate::varint;

/// How often a malformed file is made anew when it does not get the number that is wanted.
const TRIES: usize = 6;

/// A form of a number that question 2 refuses: four bytes, not the shortest, or above what is passed at the most.
pub fn bad_number(rng: &mut Rng, number: usize, most: usize) -> Vec<u8> {
    let mut bytes = Vec::new();
    match rng.below(6) {
        0 => {
            varint::write(number, &mut bytes);
            let last = bytes.len() - 1;
            bytes[last] |= 128;
            bytes.push(0);
        }
        1 => bytes.extend([128 + (number % 128) as u8, 128, 0]),
        2 => bytes.extend([128 + (number % 128) as u8, 128, 128, rng.between(0, 1) as u8]),
        3 => varint::write(most + 1, &mut bytes),
        4 if most < MAX_NUMBER => varint::write(rng.between(most + 1, MAX_NUMBER), &mut bytes),
        4 => bytes.extend([128 + rng.below(128) as u8, 128 + rng.below(128) as u8, 0]),
        _ => varint::write(rng.between(MAX_NUMBER + 1, 1 << 40), &mut bytes),
    }
    bytes
}

/// A number without a last byte, at the end of what there is.
fn unfinished(rng: &mut Rng) -> Vec<u8> {
    (0..rng.between(1, 6)).map(|_| 128 + rng.below(128) as u8).collect()
}

/// A file that question `number`, 1 to 6, refuses if one of a few attempts does it; else the last attempt.
pub fn line(rng: &mut Rng, world: &World, number: u8) -> Vec<u8> {
    // Half of the files for question 6 have a sound hardcoded value with one entry too many.
    if number == 6 && rng.percent(50) {
        let line = rings::with_stray(rng, world).line;
        if line != world.line {
            return line;
        }
    }
    first_that(|line| load_by(world.rules(), line).err() == Some(number), || attempt(rng, world, number))
}

/// The same for the cases that were stored before devices had rings, which are to stay as they are: a file in which a
/// hardcoded value writes a descriptor was refused by 6 then, and is accepted now.
pub fn line_of_before(rng: &mut Rng, world: &World, number: u8) -> Vec<u8> {
    let refused = |line: &[u8]| match load_by(world.rules(), line) {
        Err(refusal) => refusal == number,
        Ok(config) => number == 6 && config.has_rings(),
    };
    first_that(refused, || attempt(rng, world, number))
}

/// The first of a few attempts that will do, or the last of them.
fn first_that(will_do: impl Fn(&[u8]) -> bool, mut attempt: impl FnMut() -> Vec<u8>) -> Vec<u8> {
    let mut line = attempt();
    for _ in 0..TRIES {
        if will_do(&line) {
            break;
        }
        line = attempt();
    }
    line
}

fn attempt(rng: &mut Rng, world: &World, number: u8) -> Vec<u8> {
    let tokens = tokens::of_config(&world.config);
    let place = rng.below(tokens.len());
    match number {
        1 => {
            let mut bytes = tokens::encode(&tokens[..place]);
            if rng.percent(50) {
                bytes.extend(unfinished(rng));
            }
            bytes
        }
        2 => with_bad_number(rng, tokens, place, world.rules().most_number),
        3 => out_of_range(rng, tokens, place, world),
        4 => {
            let count = rng.between(1, 5);
            [world.line.clone(), rng.bytes(count)].concat()
        }
        5 => changed(&world.config, |config| break_owners(rng, config)),
        _ => changed(&world.config, |config| break_hardcoded(rng, config)),
    }
}

fn with_bad_number(rng: &mut Rng, mut tokens: Vec<Token>, place: usize, most: usize) -> Vec<u8> {
    let number = match tokens[place] {
        Token::Number(number) => number,
        Token::Bytes(_) => 0,
    };
    tokens[place] = Token::Bytes(bad_number(rng, number, most));
    tokens::encode(&tokens)
}

/// Numbers that are out of range in some field; those behind the first ten come with serials (request N7).
const BEYOND: [usize; 14] =
    [0, 2, 4, 5, 7, 17, 48, MAX_OBJECTS + 1, 128, MAX_NUMBER_BEFORE, 3, MAX_NUMBER_BEFORE + 1, LARGE, MAX_NUMBER];
const BEYOND_BEFORE: usize = 10;

/// A number of the kind that was refused by 2 before there were serials.
pub const LARGE: usize = 70_000;

/// Sets one number to what its field, or most fields, cannot be.
fn out_of_range(rng: &mut Rng, mut tokens: Vec<Token>, place: usize, world: &World) -> Vec<u8> {
    let beyond = if world.serials { &BEYOND[..] } else { &BEYOND[..BEYOND_BEFORE] };
    let place = if rng.percent(40) { place.min(rng.below(8)) } else { place };
    let number = match (rng.below(3), &tokens[place]) {
        (0, Token::Number(number)) => *number + 1,
        (1, _) => beyond[rng.below(beyond.len())],
        _ => rng.between(0, 100),
    };
    tokens[place] = Token::Number(number);
    tokens::encode(&tokens)
}

fn changed(config: &Config, mut change: impl FnMut(&mut Config)) -> Vec<u8> {
    let mut config = config.clone();
    change(&mut config);
    tokens::encode(&tokens::of_config(&config))
}

/// How many objects a widened file announces: around the limits, more than there can be, or any wide count.
const ANNOUNCED: [usize; 8] =
    [SMALL_ROOM + 1, MAX_ONE_BYTE, MAX_ONE_BYTE + 1, MAX_OBJECTS - 1, MAX_OBJECTS, MAX_OBJECTS + 1, 255, 256];

/// The world's file with external objects added until it is wide or beyond, whole or cut anywhere.
pub fn widened(rng: &mut Rng, world: &World) -> Vec<u8> {
    let any = rng.between(SMALL_ROOM + 1, MAX_OBJECTS);
    let count = rng.pick(&ANNOUNCED).filter(|_| rng.percent(70)).unwrap_or(any);
    let mut file = changed(&world.config, |config| {
        let count = count.max(config.objects.len());
        config.objects.resize(count, Object { kind: Kind::Data, owner: Owner::External });
    });
    if rng.percent(50) {
        file.truncate(rng.below(file.len()));
    }
    file
}

/// A device with two kind 4 objects or none, or a kind 4 object of a driver or of nobody.
fn break_owners(rng: &mut Rng, config: &mut Config) {
    let place = rng.below(config.objects.len());
    let device = rng.between(1, config.devices());
    let Some(object) = config.objects.get_mut(place) else {
        return;
    };
    match rng.below(4) {
        0 if object.kind == Kind::Hardcoded => object.kind = Kind::Data,
        0 | 1 => object.kind = Kind::Hardcoded,
        2 => object.owner = Owner::External,
        _ => object.owner = Owner::Device(device),
    }
    // Entries keep to their fields' ranges, so that no earlier question refuses.
    for entry in config.values.iter_mut().flatten().filter(|entry| entry.object == place + 1) {
        entry.stored = 0;
    }
}

/// A hardcoded value that names what it may not, or another value in its place.
fn break_hardcoded(rng: &mut Rng, config: &mut Config) {
    let device = rng.below(config.devices());
    let object = rng.between(1, config.objects.len());
    if config.devices() == 0 || config.values.is_empty() {
        return;
    }
    let value = config.hardcoded[device];
    if value == 0 || rng.percent(40) {
        config.hardcoded[device] = rng.between(1, config.values.len());
        return;
    }
    let entries = &mut config.values[value - 1];
    match rng.below(2) {
        0 if entries.len() < 6 => entries.push(Entry { object, mode: 1, stored: 0 }),
        _ => entries.iter_mut().for_each(|entry| entry.mode = rng.between(1, 3)),
    }
}

/// Codes that nobody knows, those of before there were serials (request N7), those of before there were locks (N6), and
/// those of before there were green zones (N5).
const NO_CODES: [usize; 8] = [0, 16, 17, 128, MAX_NUMBER_BEFORE, MAX_NUMBER_BEFORE + 1, LARGE, MAX_NUMBER];
const NO_CODES_BEFORE_SERIALS: [usize; 5] = [0, 16, 17, 128, MAX_NUMBER_BEFORE];
const NO_CODES_BEFORE_LOCKS: [usize; 5] = [0, 14, 15, 128, MAX_NUMBER_BEFORE];
const NO_CODES_BEFORE_GREENS: [usize; 5] = [0, 13, 14, 128, MAX_NUMBER_BEFORE];

/// Counts and forms that there are none of; the last one of each comes with serials.
const NO_COUNTS: [usize; 2] = [128, LARGE];
const NO_FORMS: [usize; 4] = [2, 3, 128, LARGE];

/// The codes that a world takes for unknown.
fn no_codes(world: &World) -> &'static [usize] {
    match (world.serials, world.locks, world.greens.is_empty()) {
        (true, _, _) => &NO_CODES,
        (false, true, _) => &NO_CODES_BEFORE_SERIALS,
        (false, false, false) => &NO_CODES_BEFORE_LOCKS,
        (false, false, true) => &NO_CODES_BEFORE_GREENS,
    }
}

/// A record that cannot be read, made from one that can (question 10).
pub fn record(rng: &mut Rng, operation: &Operation, world: &World) -> Vec<u8> {
    let no_codes = no_codes(world);
    let mut tokens = tokens::of_operation(operation);
    let whole = tokens::encode(&tokens);
    let place = rng.below(tokens.len());
    match rng.below(7) {
        0 => whole[..rng.below(whole.len())].to_vec(),
        1 => [whole, vec![rng.below(256) as u8]].concat(),
        2 => with_bad_number(rng, tokens, place, world.rules().most_number),
        3 => {
            tokens[0] = Token::Number(no_codes[rng.below(no_codes.len())]);
            tokens::encode(&tokens)
        }
        4 => with_bad_count(rng, operation, tokens, world),
        5 => with_bad_form(rng, operation, tokens, world),
        _ => [whole[..rng.below(whole.len())].to_vec(), unfinished(rng)].concat(),
    }
}

/// The third token of every operation with a count is the count.
fn with_bad_count(rng: &mut Rng, operation: &Operation, mut tokens: Vec<Token>, world: &World) -> Vec<u8> {
    let count = tokens.len();
    let has_count = !operation.targets().is_empty() || !operation.sources().is_empty();
    if has_count && count > 3 {
        let Token::Number(now) = tokens[2] else {
            return tokens::encode(&tokens);
        };
        let no_counts = &NO_COUNTS[..NO_COUNTS.len() - usize::from(!world.serials)];
        let counts = [&[0, 9, now + 1, now - 1], no_counts].concat();
        tokens[2] = Token::Number(counts[rng.below(counts.len())]);
        // No part, or nine whole ones: the count is the only fault.
        if tokens[2] == Token::Number(0) {
            tokens.truncate(3);
        } else if tokens[2] == Token::Number(9) {
            let part: Vec<Token> = tokens[3..3 + (count - 3) / now].to_vec();
            (now..9).for_each(|_| tokens.extend(part.clone()));
        }
    } else {
        tokens.push(Token::Number(0));
    }
    tokens::encode(&tokens)
}

/// A form of 2 or more in one of the items.
fn with_bad_form(rng: &mut Rng, operation: &Operation, mut tokens: Vec<Token>, world: &World) -> Vec<u8> {
    if let Operation::Write { items, .. } = operation {
        let item = rng.below(items.len());
        let forms = NO_FORMS.len() - usize::from(!world.serials);
        tokens[3 + item * 3 + 1] = Token::Number(NO_FORMS[rng.below(forms)]);
    } else {
        tokens.pop();
    }
    tokens::encode(&tokens)
}
