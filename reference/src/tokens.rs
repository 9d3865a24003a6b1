//! Configuration files and records as rows of tokens, a token being a number or bytes as they stand: what comes before
//! the bytes when a file or record is written, and where the generator breaks them.

use crate::config::Config;
use crate::limits::SERIALS_FROM;
use crate::operation::{Operation, Put};
use crate::varint;

#[derive(Clone, Debug, PartialEq, Eq)]
pub enum Token {
    Number(usize),
    Bytes(Vec<u8>),
}

pub fn encode(tokens: &[Token]) -> Vec<u8> {
    let mut out = Vec::new();
    for token in tokens {
        match token {
            Token::Number(number) => varint::write(*number, &mut out),
            Token::Bytes(bytes) => out.extend_from_slice(bytes),
        }
    }
    out
}

/// A row of numbers as bytes.
pub fn row(numbers: &[usize]) -> Vec<u8> {
    encode(&numbers.iter().map(|number| Token::Number(*number)).collect::<Vec<_>>())
}

/// The numbers of a configuration's file, in the order of the file and in the configuration's own edition.
pub fn of_config(config: &Config) -> Vec<Token> {
    let mut row = vec![config.edition, config.drivers, config.devices(), config.objects.len(), config.values.len()];
    for object in &config.objects {
        let (class, owner) = object.owner.numbers();
        row.extend([object.kind.number(), class, owner]);
    }
    for (hardcoded, serial) in config.hardcoded.iter().zip(&config.serials) {
        row.push(*hardcoded);
        row.extend((config.edition >= SERIALS_FROM).then_some(serial));
    }
    for value in &config.values {
        row.push(value.len());
        value.iter().for_each(|entry| row.extend([entry.object, entry.mode, entry.stored]));
    }
    row.into_iter().map(Token::Number).collect()
}

/// The numbers before the objects in a file, those of an object, and those of a device in an edition with serials.
const FIRST_NUMBERS: usize = 5;
const OBJECT_NUMBERS: usize = 3;
const DEVICE_NUMBERS: usize = 2;

/// The place, from 0, of a serial among the numbers of a file with so many objects, of an edition that has serials.
pub fn serial_place(objects: usize, device: usize) -> usize {
    FIRST_NUMBERS + OBJECT_NUMBERS * objects + DEVICE_NUMBERS * device - 1
}

/// The tokens of an operation's record.
pub fn of_operation(operation: &Operation) -> Vec<Token> {
    let mut row = vec![Token::Number(operation.code())];
    let mut numbers = |values: &[usize]| row.extend(values.iter().map(|value| Token::Number(*value)));
    match operation {
        Operation::Create { partition, .. } | Operation::Destroy { partition } => numbers(&[*partition]),
        Operation::Activate { actor, partition } => numbers(&[actor.number(), *partition]),
        Operation::Deactivate { actor } | Operation::Lock { actor, .. } => numbers(&[actor.number()]),
        Operation::ActivateExternal { partition, objects } | Operation::DeactivateExternal { partition, objects } => {
            numbers(&[*partition, objects.len()]);
            numbers(objects);
        }
        Operation::Read { actor, pairs } => {
            numbers(&[actor.number(), pairs.len()]);
            pairs.iter().for_each(|pair| numbers(&[pair.source, pair.destination]));
        }
        Operation::Write { actor, items } => {
            numbers(&[actor.number(), items.len()]);
            for item in items {
                row.extend(of_item(item.object, &item.put));
            }
        }
    }
    row
}

fn of_item(object: usize, put: &Put) -> [Token; 3] {
    match put {
        Put::Value(value) => [Token::Number(object), Token::Number(0), Token::Number(*value)],
        Put::Raw(bytes) => [Token::Number(object), Token::Number(1), Token::Bytes(bytes.to_vec())],
    }
}
