//! Lines for the tests, up to the longest, and calls on areas.
#![allow(dead_code)] // no test uses all of it

use sorter_gate::{ANSWER_BYTES, LOCK_BYTES, Refusal, STATE_BYTES, STATE_BYTES_WIDE, fresh, operate, state_bytes};

/// The objects that a line has at most; from 128 on a number has two bytes.
pub const FULL: u8 = 192;

/// The last line that has the shorter area, and the first that has the longer.
pub const SMALL: u8 = 96;
pub const WIDE: u8 = SMALL + 1;

/// Each length of a state area with those about it, those of before there were locks, and none.
pub const LENGTHS: [usize; 9] = [
    0,
    STATE_BYTES - LOCK_BYTES,
    STATE_BYTES - 1,
    STATE_BYTES,
    STATE_BYTES + 1,
    STATE_BYTES_WIDE - LOCK_BYTES,
    STATE_BYTES_WIDE - 1,
    STATE_BYTES_WIDE,
    STATE_BYTES_WIDE + 1,
];

/// Lines at the ends of both sorts, by their objects, with the length that each needs.
pub const ENDS: [(u8, usize); 4] =
    [(0, STATE_BYTES), (SMALL, STATE_BYTES), (WIDE, STATE_BYTES_WIDE), (FULL, STATE_BYTES_WIDE)];

/// What the areas hold before a call.
pub const OLD: u8 = 0xEE;

/// Where the record of an object begins in a state area.
pub fn record_at(object: u8) -> usize {
    64 + 16 + 16 + 17 * (usize::from(object) - 1)
}

/// Where the lock byte of a card stands in a state area of either length.
pub fn lock_at(length: usize, card: u8) -> usize {
    length - LOCK_BYTES + usize::from(card) - 1
}

pub fn question(result: Result<(), Refusal>) -> u32 {
    result.err().map_or(0, Refusal::number)
}

/// The number of an operation on an area that is lent as it is, with what must not change if it is refused.
pub fn looked_at(line: &[u8], state: &mut [u8], record: &[u8]) -> u32 {
    let (before, mut answer) = (state.to_vec(), [OLD; ANSWER_BYTES]);
    let number = question(operate(line, state, record, &mut answer));
    assert!(number == 0 || state == before, "refused by {number}, and changed");
    assert_eq!(answer, [OLD; ANSWER_BYTES]);
    number
}

/// A fresh state of a line, of the length that the line needs.
pub fn fresh_of(line: &[u8]) -> Vec<u8> {
    let mut state = vec![0; state_bytes(line).expect("the line is accepted")];
    fresh(line, &mut state).expect("the line is accepted");
    state
}

/// A file of a question's example.
pub fn example(question: u32, name: &str) -> Vec<u8> {
    let path = format!("{}/../../examples/questions/{question:02}/{name}.bin", env!("CARGO_MANIFEST_DIR"));
    std::fs::read(path).expect("the example has the file")
}

/// The largest serial that a card can have, and the largest number that there can be.
pub const MOST_SERIAL: u32 = 2_097_151;

/// A number in its shortest form.
pub fn number(n: impl Into<u32>) -> Vec<u8> {
    let (mut rest, mut bytes) = (n.into(), vec![]);
    while rest >= 128 {
        bytes.push(rest as u8 | 128);
        rest >>= 7;
    }
    bytes.push(rest as u8);
    bytes
}

/// A line file of edition 1 as one of edition 2, each card with the serial that it is given.
pub fn with_serials(line: &[u8], serial: impl Fn(usize) -> u32) -> Vec<u8> {
    let (cards, long) = (usize::from(line[2]), line[3] >= 128);
    let objects = usize::from(line[3] & 127) + if long { 128 * usize::from(line[4]) } else { 0 };
    let (head, rest) = line.split_at(5 + usize::from(long) + 3 * objects);
    let mut out = [&[2], &head[1..]].concat();
    for (place, value) in rest[..cards].iter().enumerate() {
        out.push(*value);
        out.extend(number(serial(place + 1)));
    }
    [&out[..], &rest[cards..]].concat()
}

/// A line of external data alone.
pub fn data_line(objects: u8) -> Vec<u8> {
    [&[1, 0, 0], &number(objects)[..], &[0], &[3, 0, 0].repeat(objects.into())].concat()
}

/// A line of edition 1 with every count at its limit: 16 drivers, 16 cards, 192 objects, 47 values of six entries each.
/// The first 16 objects are the cards' hard-wired descriptors, the rest is external, of the kind that is given; each
/// entry names the last object, by the mode and put value that are given.
pub fn full_line(kind: u8, mode: u8, put: u8) -> Vec<u8> {
    let mut line = [&[1, 16, 16], &number(FULL)[..], &[47]].concat();
    (1..=16).for_each(|card| line.extend([4, 2, card]));
    (17..=FULL).for_each(|_| line.extend([kind, 0, 0]));
    line.extend([0; 16]);
    let entry = [number(FULL), vec![mode, put]].concat();
    (0..47).for_each(|_| line.extend([&[6][..], &entry.repeat(6)].concat()));
    line
}
