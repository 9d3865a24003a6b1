//! What cases show of editions, serials and large numbers (request N7).

use crate::config::{Config, load};
use crate::limits::{MAX_NUMBER_BEFORE, SERIALS_FROM};
use crate::operation;
use crate::tokens::serial_place;
use crate::varint::Reader;
use std::collections::BTreeMap;

#[derive(Clone, Debug, Default)]
pub struct Serials {
    /// Cases whose file is accepted, by edition.
    pub editions: BTreeMap<usize, usize>,
    /// The serials of accepted files.
    pub serials: BTreeMap<usize, usize>,
    /// Files of edition 2 that are refused at a serial: cut before it, cut inside it, and by 2; and those refused by 3
    /// at the value number before it. No serial is refused by 3: what it cannot be is no number.
    pub cut_before: usize,
    pub cut_inside: usize,
    pub malformed: usize,
    pub no_value: usize,
    /// Files that are refused by 3 at the number of their edition.
    pub no_edition: usize,
    /// Records that name a number from 65,536 on, refused by 11, by code.
    pub unknown: BTreeMap<usize, usize>,
    /// Records that have such a number as code, count or form, refused by 10.
    pub unreadable: BTreeMap<Role, usize>,
}

/// What a number stands for that is not a name.
#[derive(Clone, Copy, Debug, PartialEq, Eq, PartialOrd, Ord)]
pub enum Role {
    Code,
    Count,
    Form,
}

impl Serials {
    /// Takes in the file of a case.
    pub fn count_file(&mut self, line: &[u8]) {
        match load(line) {
            Ok(config) => self.count_accepted(&config),
            Err(number) => self.count_refused(line, number),
        }
    }

    fn count_accepted(&mut self, config: &Config) {
        *self.editions.entry(config.edition).or_default() += 1;
        if config.edition >= SERIALS_FROM {
            config.serials.iter().for_each(|serial| *self.serials.entry(*serial).or_default() += 1);
        }
    }

    /// Where a file is refused is told by the numbers before it.
    fn count_refused(&mut self, line: &[u8], number: u8) {
        let read = numbers(line);
        self.no_edition += usize::from(number == 3 && load(&line[..length(line, 1)]) == Err(3));
        self.no_value += usize::from(number == 3 && is_refused_before_serial(line, &read));
        if matches!(number, 1 | 2) && is_serial(&read, read.len()) {
            let inside = length(line, read.len()) < line.len();
            self.cut_before += usize::from(number == 1 && !inside);
            self.cut_inside += usize::from(number == 1 && inside);
            self.malformed += usize::from(number == 2);
        }
    }

    /// Takes in a record and its answer.
    pub fn count(&mut self, record: &[u8], number: u8) {
        match (number, operation::read(record)) {
            (11, Some(operation)) if operation::read_up_to(MAX_NUMBER_BEFORE, record).is_none() => {
                *self.unknown.entry(operation.code()).or_default() += 1;
            }
            (10, None) => {
                if let Some(role) = large_role(&numbers(record)) {
                    *self.unreadable.entry(role).or_default() += 1;
                }
            }
            _ => (),
        }
    }
}

/// The numbers at the start of a row that can be read.
fn numbers(row: &[u8]) -> Vec<usize> {
    let mut reader = Reader::new(row);
    std::iter::from_fn(|| reader.number().ok()).collect()
}

/// How many bytes the first numbers of a row have.
fn length(row: &[u8], count: usize) -> usize {
    let ends = row.iter().enumerate().filter(|(_, byte)| **byte < 128).map(|(place, _)| place + 1);
    ends.take(count).last().unwrap_or(0)
}

/// Whether the number at this place of a file, by those before it, is a serial.
fn is_serial(read: &[usize], place: usize) -> bool {
    let [edition, _, devices, objects, _, ..] = *read else { return false };
    edition >= SERIALS_FROM && (1..=devices).any(|device| serial_place(objects, device) == place)
}

/// Whether a file of edition 2 is good up to the value number before a serial, and that number is out of range.
fn is_refused_before_serial(line: &[u8], read: &[usize]) -> bool {
    let up_to = |count: usize| load(&line[..length(line, count)]).err();
    (0..read.len())
        .filter(|place| is_serial(read, place + 1))
        .any(|place| up_to(place) == Some(1) && up_to(place + 1) == Some(3))
}

/// What the first number from 65,536 on of a record stands for, if it is not a name. Bytes of an item are taken for
/// numbers too, so that what stands behind one is not looked at.
fn large_role(numbers: &[usize]) -> Option<Role> {
    let place = numbers.iter().position(|number| *number > MAX_NUMBER_BEFORE)?;
    match (numbers[0], place) {
        (_, 0) => Some(Role::Code),
        (1..=4 | 9 | 12, 2) => Some(Role::Count),
        (1 | 2, 4) => Some(Role::Form),
        _ => None,
    }
}
