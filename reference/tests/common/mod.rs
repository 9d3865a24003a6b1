//! What the tests share: document 01's file L and short ways to call.
#![allow(dead_code)]

pub mod book;

use reference::limits::ANSWER_BYTES;
use reference::tokens::row;
use reference::{fresh, load, operate};

/// The lengths of state areas, written out here once: for at most 96 objects, and for more. Both were sixteen bytes
/// shorter before there were locks (request N6); the lock bytes begin there.
pub const SMALL_AREA: usize = 1_744;
pub const WIDE_AREA: usize = 3_376;
pub const SMALL_LOCKS: usize = 1_728;
pub const WIDE_LOCKS: usize = 3_360;

/// L in edition 2 with these serials of its two devices (request N7).
pub fn l_with_serials(serials: [usize; 2]) -> Vec<u8> {
    let l: Vec<usize> = file_l().iter().map(|byte| usize::from(*byte)).collect();
    row(&[&[2], &l[1..24], &[serials[0], l[24], serials[1]], &l[25..]].concat())
}

/// File L of document 01, 45 bytes.
pub fn file_l() -> Vec<u8> {
    let counts = [1, 2, 2, 6, 5];
    let objects = [4, 2, 1, 1, 2, 1, 4, 2, 2, 1, 2, 2, 3, 0, 0, 3, 1, 1];
    let hardcoded = [1, 2];
    let values = [1, 2, 1, 0, 1, 4, 1, 0, 1, 5, 2, 0, 1, 4, 2, 3, 1, 2, 2, 4];
    row(&[&counts[..], &objects, &hardcoded, &values].concat())
}

/// The P sequence of document 01: records and answers.
pub fn sequence_p() -> Vec<(Vec<usize>, u32)> {
    let rows: [(&[usize], u32); 16] = [
        (&[5, 1], 0),
        (&[5, 2], 0),
        (&[7, 1, 1], 0),
        (&[8, 1, 1], 0),
        (&[8, 2, 2], 0),
        (&[9, 1, 1, 5], 0),
        (&[1, 1, 1, 2, 0, 3], 0),
        (&[12, 1, 1, 5], 20),
        (&[1, 1, 1, 2, 0, 4], 19),
        (&[1, 1, 1, 2, 0, 5], 19),
        (&[1, 1, 1, 4, 0, 3], 17),
        (&[1, 1, 1, 1, 0, 0], 13),
        (&[1, 2, 1, 2, 0, 0], 16),
        (&[6, 2], 15),
        (&[11, 2], 0),
        (&[6, 2], 0),
    ];
    rows.into_iter().map(|(record, answer)| (record.to_vec(), answer)).collect()
}

/// A configuration with its state and answer areas carried on from call to call.
pub struct Desk {
    pub line: Vec<u8>,
    pub state: Vec<u8>,
    pub answer: Vec<u8>,
}

impl Desk {
    pub fn new(line: &[u8]) -> Desk {
        let length = load(line).expect("the file is accepted").state_bytes();
        let mut state = vec![0xEE; length];
        assert_eq!(fresh(line, &mut state), 0);
        Desk { line: line.to_vec(), state, answer: vec![0; ANSWER_BYTES] }
    }

    /// Judges a record of numbers; a refusal must leave both areas as they were.
    pub fn numbers(&mut self, record: &[usize]) -> u32 {
        self.record(&row(record))
    }

    pub fn record(&mut self, record: &[u8]) -> u32 {
        let before = (self.state.clone(), self.answer.clone());
        let number = operate(&self.line, &mut self.state, record, &mut self.answer);
        if number != 0 {
            assert!(before == (self.state.clone(), self.answer.clone()), "refusal {number} changed an area");
        }
        number
    }

    /// Judges records that must all be accepted.
    pub fn accept(&mut self, records: &[&[usize]]) {
        for record in records {
            assert_eq!(self.numbers(record), 0, "{record:?}");
        }
    }
}

/// The first seven rows of P over L.
pub fn desk_after_seven() -> Desk {
    let mut desk = Desk::new(&file_l());
    for (record, answer) in sequence_p().into_iter().take(7) {
        assert_eq!(desk.numbers(&record), answer, "{record:?}");
    }
    desk
}
