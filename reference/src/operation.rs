//! Operations (document 01: operation records): taken apart from bytes (question 10), what they name, and put down as
//! bytes again.

use crate::limits::{CONTENT_BYTES, MAX_COUNT, MAX_NUMBER};
use crate::state::Contents;
use crate::tokens;
use crate::varint::Reader;

/// Who acts: a driver or a device (document 01: card).
#[derive(Clone, Copy, Debug, PartialEq, Eq)]
pub enum Actor {
    Driver(usize),
    Device(usize),
}

/// What an item puts into its object: form 0 a value number, form 1 sixteen raw bytes.
#[derive(Clone, Copy, Debug, PartialEq, Eq)]
pub enum Put {
    Value(usize),
    Raw(Contents),
}

#[derive(Clone, Copy, Debug, PartialEq, Eq)]
pub struct Item {
    pub object: usize,
    pub put: Put,
}

/// Destination 0 is none: the source is read and not copied.
#[derive(Clone, Copy, Debug, PartialEq, Eq)]
pub struct Copying {
    pub source: usize,
    pub destination: usize,
}

#[derive(Clone, Debug, PartialEq, Eq)]
pub enum Operation {
    /// Codes 1, 2.
    Write { actor: Actor, items: Vec<Item> },
    /// Codes 3, 4.
    Read { actor: Actor, pairs: Vec<Copying> },
    /// Code 5, and code 13 for a green zone (request N5).
    Create { partition: usize, green: bool },
    /// Code 6.
    Destroy { partition: usize },
    /// Codes 7, 8.
    Activate { actor: Actor, partition: usize },
    /// Code 9.
    ActivateExternal { partition: usize, objects: Vec<usize> },
    /// Codes 10, 11.
    Deactivate { actor: Actor },
    /// Code 12.
    DeactivateExternal { partition: usize, objects: Vec<usize> },
    /// Code 14, and code 15 to unlock (request N6). The actor is the device that gets or loses its padlock.
    Lock { actor: Actor, locked: bool },
}

/// Takes a record apart; nothing if it cannot be read to its last byte, or a byte is left over (question 10).
pub fn read(record: &[u8]) -> Option<Operation> {
    read_up_to(MAX_NUMBER, record)
}

/// The same with another limit of numbers than the papers'.
pub fn read_up_to(most: usize, record: &[u8]) -> Option<Operation> {
    let mut reader = Reader::up_to(most, record);
    let operation = read_operation(&mut reader)?;
    reader.at_end().then_some(operation)
}

fn number(reader: &mut Reader) -> Option<usize> {
    reader.number().ok()
}

fn read_operation(reader: &mut Reader) -> Option<Operation> {
    let code = number(reader)?;
    Some(match code {
        1 | 2 => Operation::Write { actor: actor(code, number(reader)?), items: counted(reader, item)? },
        3 | 4 => Operation::Read { actor: actor(code, number(reader)?), pairs: counted(reader, copying)? },
        5 | 13 => Operation::Create { partition: number(reader)?, green: code == 13 },
        6 => Operation::Destroy { partition: number(reader)? },
        7 | 8 => Operation::Activate { actor: actor(code, number(reader)?), partition: number(reader)? },
        9 => Operation::ActivateExternal { partition: number(reader)?, objects: counted(reader, number)? },
        10 | 11 => Operation::Deactivate { actor: actor(code, number(reader)?) },
        12 => Operation::DeactivateExternal { partition: number(reader)?, objects: counted(reader, number)? },
        14 | 15 => Operation::Lock { actor: actor(code, number(reader)?), locked: code == 14 },
        _ => return None,
    })
}

fn actor(code: usize, number: usize) -> Actor {
    match code {
        1 | 3 | 7 | 10 => Actor::Driver(number),
        _ => Actor::Device(number),
    }
}

/// A count of 1 to 8, then so many parts.
fn counted<Part>(reader: &mut Reader, part: fn(&mut Reader) -> Option<Part>) -> Option<Vec<Part>> {
    let count = number(reader)?;
    if !(1..=MAX_COUNT).contains(&count) {
        return None;
    }
    (0..count).map(|_| part(reader)).collect()
}

fn item(reader: &mut Reader) -> Option<Item> {
    let object = number(reader)?;
    let put = match number(reader)? {
        0 => Put::Value(number(reader)?),
        1 => Put::Raw(reader.raw(CONTENT_BYTES)?.try_into().ok()?),
        _ => return None,
    };
    Some(Item { object, put })
}

fn copying(reader: &mut Reader) -> Option<Copying> {
    Some(Copying { source: number(reader)?, destination: number(reader)? })
}

impl Operation {
    pub fn code(&self) -> usize {
        let by = |actor: &Actor, driver: usize, device: usize| match actor {
            Actor::Driver(_) => driver,
            Actor::Device(_) => device,
        };
        match self {
            Operation::Write { actor, .. } => by(actor, 1, 2),
            Operation::Read { actor, .. } => by(actor, 3, 4),
            Operation::Create { green, .. } => [5, 13][usize::from(*green)],
            Operation::Destroy { .. } => 6,
            Operation::Activate { actor, .. } => by(actor, 7, 8),
            Operation::ActivateExternal { .. } => 9,
            Operation::Deactivate { actor } => by(actor, 10, 11),
            Operation::DeactivateExternal { .. } => 12,
            Operation::Lock { locked, .. } => [15, 14][usize::from(*locked)],
        }
    }

    pub fn actor(&self) -> Option<Actor> {
        match self {
            Operation::Write { actor, .. }
            | Operation::Read { actor, .. }
            | Operation::Activate { actor, .. }
            | Operation::Deactivate { actor }
            | Operation::Lock { actor, .. } => Some(*actor),
            _ => None,
        }
    }

    /// The partition that is named.
    pub fn partition(&self) -> Option<usize> {
        match self {
            Operation::Create { partition, .. }
            | Operation::Destroy { partition }
            | Operation::Activate { partition, .. }
            | Operation::ActivateExternal { partition, .. }
            | Operation::DeactivateExternal { partition, .. } => Some(*partition),
            _ => None,
        }
    }

    /// Sources of a read.
    pub fn sources(&self) -> Vec<usize> {
        match self {
            Operation::Read { pairs, .. } => pairs.iter().map(|pair| pair.source).collect(),
            _ => Vec::new(),
        }
    }

    /// Targets of a write, destinations other than 0, listed objects.
    pub fn targets(&self) -> Vec<usize> {
        match self {
            Operation::Write { items, .. } => items.iter().map(|item| item.object).collect(),
            Operation::Read { pairs, .. } => pairs.iter().map(|pair| pair.destination).filter(|to| *to != 0).collect(),
            Operation::ActivateExternal { objects, .. } | Operation::DeactivateExternal { objects, .. } => {
                objects.clone()
            }
            _ => Vec::new(),
        }
    }

    /// The record that reads as this operation.
    pub fn to_bytes(&self) -> Vec<u8> {
        tokens::encode(&tokens::of_operation(self))
    }
}

impl Actor {
    /// The number of the driver or device.
    pub fn number(&self) -> usize {
        match self {
            Actor::Driver(number) | Actor::Device(number) => *number,
        }
    }
}
