//! The plain book of document 01, kept from the file, the records and the answers alone. It shares no code with the
//! library's state and effect: records are taken apart here by hand, offsets are written out. In an accepted record
//! only objects can have numbers of two bytes, because everything that it names exists.

use super::{SMALL_AREA, SMALL_LOCKS, WIDE_AREA, WIDE_LOCKS};
use reference::config::{Config, Kind, Owner};

pub struct Book {
    file: Config,
    standings: [u8; 64],
    drivers: [u8; 17],
    cards: [u8; 17],
    partitions: [u8; 193],
    contents: [[u8; 16]; 193],
    locks: [u8; 17],
}

/// The object that a record names here, and what stands behind it.
fn object(record: &[u8]) -> (usize, &[u8]) {
    match record {
        [low @ 128..=255, high, rest @ ..] => (usize::from(*low) - 128 + 128 * usize::from(*high), rest),
        [low, rest @ ..] => (usize::from(*low), rest),
        [] => panic!("an object is missing"),
    }
}

/// All objects that a record lists from here on.
fn objects(mut record: &[u8]) -> Vec<usize> {
    let mut list = Vec::new();
    while !record.is_empty() {
        let (number, rest) = object(record);
        list.push(number);
        record = rest;
    }
    list
}

impl Book {
    pub fn new(file: &Config) -> Book {
        let mut book = Book {
            file: file.clone(),
            standings: [0; 64],
            drivers: [0; 17],
            cards: [0; 17],
            partitions: [0; 193],
            contents: [[0; 16]; 193],
            locks: [0; 17],
        };
        for (place, object) in file.objects.iter().enumerate() {
            if let (Kind::Hardcoded, Owner::Device(card)) = (object.kind, object.owner) {
                book.contents[place + 1][0] = file.hardcoded[card - 1] as u8;
            }
        }
        book
    }

    /// At answer 0 the book changes as the record says; at any other it stays.
    pub fn feed(&mut self, record: &[u8], answer: u32) {
        if answer != 0 {
            return;
        }
        let first = usize::from(record[1]);
        match record[0] {
            1 | 2 => self.write(record),
            3 | 4 => self.copy(record),
            5 => self.standings[first] = 1,
            13 => self.standings[first] = 3,
            6 => self.standings[first] = 2,
            7 => self.move_driver(first, record[2], true),
            8 => self.move_card(first, record[2], true),
            9 => objects(&record[3..]).iter().for_each(|object| self.move_object(*object, record[1], true)),
            10 => self.move_driver(first, 0, false),
            11 => self.move_card(first, 0, false),
            14 => self.locks[first] = 1,
            15 => self.locks[first] = 0,
            _ => objects(&record[3..]).iter().for_each(|object| self.move_object(*object, 0, false)),
        }
    }

    fn write(&mut self, record: &[u8]) {
        let mut rest = &record[3..];
        while !rest.is_empty() {
            let (number, item) = object(rest);
            let contents = &mut self.contents[number];
            if item[0] == 0 {
                *contents = [0; 16];
                contents[0] = item[1];
                rest = &item[2..];
            } else {
                contents.copy_from_slice(&item[1..17]);
                rest = &item[17..];
            }
        }
    }

    fn copy(&mut self, record: &[u8]) {
        let before = self.contents;
        for pair in objects(&record[3..]).chunks(2) {
            if pair[1] != 0 {
                self.contents[pair[1]] = before[pair[0]];
            }
        }
    }

    fn move_driver(&mut self, driver: usize, partition: u8, clear: bool) {
        self.drivers[driver] = partition;
        self.move_owned(Owner::Driver(driver), partition, clear);
    }

    fn move_card(&mut self, card: usize, partition: u8, clear: bool) {
        self.cards[card] = partition;
        self.move_owned(Owner::Device(card), partition, clear);
    }

    fn move_owned(&mut self, owner: Owner, partition: u8, clear: bool) {
        for object in 1..=self.file.objects.len() {
            if self.file.objects[object - 1].owner == owner {
                self.move_object(object, partition, clear);
            }
        }
    }

    fn move_object(&mut self, object: usize, partition: u8, clear: bool) {
        self.partitions[object] = partition;
        if clear && self.file.objects[object - 1].kind != Kind::Hardcoded {
            self.contents[object] = [0; 16];
        }
    }

    /// What a state area shows: room for 96 objects, or for 192 where there are more, and sixteen locks behind it.
    pub fn area(&self) -> Vec<u8> {
        let wide = self.file.objects.len() > 96;
        let (length, room, locks) = if wide { (WIDE_AREA, 192, WIDE_LOCKS) } else { (SMALL_AREA, 96, SMALL_LOCKS) };
        let mut area = vec![0; length];
        area[..64].copy_from_slice(&self.standings);
        area[64..80].copy_from_slice(&self.drivers[1..]);
        area[80..96].copy_from_slice(&self.cards[1..]);
        for object in 1..=room {
            let place = 96 + 17 * (object - 1);
            area[place] = self.partitions[object];
            area[place + 1..place + 17].copy_from_slice(&self.contents[object]);
        }
        area[locks..].copy_from_slice(&self.locks[1..]);
        area
    }

    /// The objects that are in no partition here and in one after; each must be cleared there, but kind 4.
    pub fn moved_in(&self, after: &Book) -> Vec<usize> {
        let entered = |object: &usize| self.partitions[*object] == 0 && after.partitions[*object] != 0;
        (1..=self.file.objects.len()).filter(entered).collect()
    }

    pub fn is_cleared(&self, object: usize) -> bool {
        self.file.objects[object - 1].kind == Kind::Hardcoded || self.contents[object] == [0; 16]
    }

    pub fn is_locked(&self, card: usize) -> bool {
        self.locks[card] == 1
    }

    /// The partition of a card.
    pub fn card(&self, card: usize) -> u8 {
        self.cards[card]
    }

    pub fn copied(&self) -> Book {
        Book { file: self.file.clone(), ..*self }
    }
}
