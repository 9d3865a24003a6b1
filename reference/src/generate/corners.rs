//! Stored cases that are worth having whatever the seed is.

use super::sessions::Folder;
use crate::tokens::row;
use crate::varint;

/// Document 01's file L.
pub fn file_l() -> Vec<u8> {
    l_with(&[[2, 1, 0]])
}

/// L with other entries in its first value, device 1's hardcoded one.
fn l_with(entries: &[[usize; 3]]) -> Vec<u8> {
    let objects = [4, 2, 1, 1, 2, 1, 4, 2, 2, 1, 2, 2, 3, 0, 0, 3, 1, 1];
    let values = [1, 4, 1, 0, 1, 5, 2, 0, 1, 4, 2, 3, 1, 2, 2, 4];
    row(&[&[1, 2, 2, 6, 5][..], &objects, &[1, 2], &[entries.len()], &entries.concat(), &values].concat())
}

/// Cases that are worth having whatever the seed is.
pub fn corners() -> Vec<Folder> {
    [corner_sessions(), corner_lines()].concat()
}

fn corner_sessions() -> Vec<Folder> {
    let over_l = |session: &[u8]| Folder { line: file_l(), session: session.to_vec() };
    let of_length = |length: usize, there: usize| {
        let mut session = vec![2, 5, 1];
        varint::write(length, &mut session);
        session.extend(std::iter::repeat_n(1, there));
        over_l(&session)
    };
    vec![
        over_l(&[]),
        over_l(&[2, 5, 1, 2, 5, 1, 2, 6, 1, 2, 5, 1]),
        sequence_p(),
        over_l(&[0, 2, 5, 1, 0]),
        of_length(127, 127),
        of_length(127, 126),
        of_length(128, 128),
        of_length(128, 127),
        of_length(65_535, 40),
        over_l(&[128]),
        over_l(&[2, 5, 1, 130, 0, 5, 2]),
        over_l(&[128, 128, 4]),
        over_l(&[129, 128, 128, 0, 5]),
        over_l(&[255, 255, 255, 255, 255]),
    ]
}

fn corner_lines() -> Vec<Folder> {
    let line = |line: &[u8]| Folder { line: line.to_vec(), session: vec![2, 5, 63] };
    let values = |count: usize| line(&row(&[&[1, 0, 0, 0, count][..], &vec![0; count]].concat()));
    vec![
        Folder { line: Vec::new(), session: Vec::new() },
        values(47),
        values(48),
        line(&[1, 0, 0, 0, 0]),
        line(&[1, 0, 0, 0, 0, 128]),
        line(&[1, 0, 0, 1, 0, 1, 1]),
        line(&[1, 0, 0, 1, 0, 1, 1, 1]),
        line(&[129, 0]),
        line(&[1, 0, 0, 1, 0, 4, 0, 0]),
    ]
}

/// The P sequence over L.
pub fn sequence_p() -> Folder {
    let records: [&[u8]; 17] = [
        &[5, 1],
        &[5, 2],
        &[7, 1, 1],
        &[8, 1, 1],
        &[8, 2, 2],
        &[9, 1, 1, 5],
        &[1, 1, 1, 2, 0, 3],
        &[4, 1, 1, 2, 4],
        &[12, 1, 1, 5],
        &[1, 1, 1, 2, 0, 4],
        &[1, 1, 1, 2, 0, 5],
        &[1, 1, 1, 4, 0, 3],
        &[1, 1, 1, 1, 0, 0],
        &[1, 2, 1, 2, 0, 0],
        &[6, 2],
        &[11, 2],
        &[6, 2],
    ];
    Folder { line: file_l(), session: session(&records) }
}

fn session(records: &[&[u8]]) -> Vec<u8> {
    records.iter().flat_map(|record| [&[record.len() as u8][..], record].concat()).collect()
}

/// Example R of request N4, and what question 6 has to say of other first values of L: another device's, an external
/// and a driver's object, its own kind 4, by every mode; put values that question 3 refuses.
pub fn ring_corners() -> Vec<Folder> {
    let records: [&[u8]; 7] =
        [&[5, 1], &[8, 1, 1], &[9, 1, 1, 5], &[8, 1, 1], &[12, 1, 1, 5], &[11, 1], &[12, 1, 1, 5]];
    let over = |line: Vec<u8>| Folder { line, session: session(&records) };
    let rings: [&[[usize; 3]]; 6] = [
        &[[2, 3, 3]],
        &[[2, 2, 4]],
        &[[2, 3, 5]],
        &[[2, 1, 0], [2, 2, 3]],
        &[[2, 2, 3], [2, 2, 0], [2, 1, 0], [2, 3, 0], [2, 2, 5], [2, 2, 4]],
        &[],
    ];
    let by_each_mode = |object: usize, stored: usize| [[object, 1, 0], [object, 2, stored], [object, 3, stored]];
    let strays = [by_each_mode(4, 3), by_each_mode(5, 0), by_each_mode(6, 0), by_each_mode(1, 0)].concat();
    let out_of_range = [[2, 1, 3], [2, 2, 6], [2, 3, 6], [2, 3, 48]];
    let with_one = strays.into_iter().chain(out_of_range).map(|entry| l_with(&[entry]));
    let beside = [[2, 3, 3], [4, 2, 3]];
    rings.into_iter().map(l_with).chain(with_one).chain([l_with(&beside)]).map(over).collect()
}

/// The example of request N5 over L.
const GREEN_OVER_L: [&[u8]; 18] = [
    &[13, 1],
    &[7, 1, 1],
    &[8, 1, 1],
    &[9, 1, 1, 5],
    &[1, 1, 1, 2, 0, 3],
    &[12, 1, 1, 5],
    &[1, 1, 1, 2, 0, 4],
    &[1, 1, 1, 2, 0, 2],
    &[3, 1, 1, 2, 0],
    &[3, 1, 1, 2, 2],
    &[1, 1, 1, 2, 0, 0],
    &[12, 1, 1, 5],
    &[6, 1],
    &[10, 1],
    &[11, 1],
    &[6, 1],
    &[13, 1],
    &[5, 1],
];

/// Records of code 13 that cannot be read or name no partition, the next code, which nobody knew before request N6, and
/// the last partition.
const BAD_GREEN: [&[u8]; 17] = [
    &[13],
    &[13, 0],
    &[13, 64],
    &[13, 70],
    &[13, 127],
    &[13, 1, 0],
    &[13, 128],
    &[13, 129, 0],
    &[141, 0, 1],
    &[13, 255, 255, 3],
    &[13, 128, 128, 4],
    &[14, 1],
    &[14],
    &[14, 1, 1],
    &[13, 63],
    &[13, 63],
    &[5, 63],
];

/// The example of request N6 over L.
const LOCKS_OVER_L: [&[u8]; 14] = [
    &[14, 1],
    &[14, 1],
    &[5, 1],
    &[8, 1, 1],
    &[8, 1, 9],
    &[15, 1],
    &[15, 1],
    &[8, 1, 1],
    &[14, 1],
    &[15, 1],
    &[14, 3],
    &[14, 0],
    &[11, 1],
    &[14, 1],
];

/// What stands behind code 14 or 15 in records that cannot be read, and in those whose device does not exist.
const BAD_LOCK: [&[u8]; 14] = [
    &[],
    &[1, 0],
    &[1, 1],
    &[128],
    &[129, 0],
    &[129, 128, 0],
    &[128, 128, 4],
    &[255, 255, 255, 1],
    &[0],
    &[3],
    &[17],
    &[127],
    &[208, 15],
    &[255, 255, 3],
];

/// The example of request N6, and bad records of each code, with the next codes, which nobody knows, and the codes in a
/// longer form.
pub fn lock_corners() -> Vec<Folder> {
    let bad = |code: u8| {
        let records: Vec<Vec<u8>> = BAD_LOCK.iter().map(|rest| [&[code][..], rest].concat()).collect();
        let others = [vec![code + 2, 1], vec![code + 128, 0, 1], vec![14, 2], vec![code, 2], vec![code, 2]];
        let records: Vec<&[u8]> = records.iter().chain(&others).map(Vec::as_slice).collect();
        session(&records)
    };
    vec![
        Folder { line: file_l(), session: session(&LOCKS_OVER_L) },
        Folder { line: file_l(), session: bad(14) },
        Folder { line: file_l(), session: bad(15) },
    ]
}

/// The examples of request N5: over L, over a file without devices, whose object is held back in a green zone only, and
/// over R, whose device has a ring; and bad records.
pub fn green_corners() -> Vec<Folder> {
    let stricter = |code: u8| -> Vec<u8> {
        let records: [&[u8]; 6] =
            [&[code, 1], &[7, 1, 1], &[9, 1, 1, 2], &[1, 1, 1, 1, 0, 1], &[12, 1, 1, 2], &[10, 1]];
        session(&records)
    };
    let without_devices = row(&[1, 1, 0, 2, 1, 1, 1, 1, 3, 0, 0, 1, 2, 2, 0]);
    let over_r: [&[u8]; 3] = [&[13, 1], &[9, 1, 1, 5], &[8, 1, 1]];
    vec![
        Folder { line: file_l(), session: session(&GREEN_OVER_L) },
        Folder { line: without_devices.clone(), session: stricter(13) },
        Folder { line: without_devices, session: stricter(5) },
        Folder { line: l_with(&[[2, 3, 3]]), session: session(&over_r) },
        Folder { line: file_l(), session: session(&BAD_GREEN) },
    ]
}
