//! Line files of edition 2, whose cards have serials, and numbers that were too large once.

mod common;

use common::{MOST_SERIAL, fresh_of, number, question, with_serials};
use sorter_gate::{ANSWER_BYTES, RewriteError, first_bad, load_check, operate, rewrite, state_bytes};

const LINE_L: [u8; 45] = *include_bytes!("../../../crates/office/data/line.bin");

/// Where the serial's length changes, about the limit of before, and the largest.
const SERIALS: [u32; 10] = [0, 1, 127, 128, 16_383, 16_384, 65_535, 65_536, 70_000, MOST_SERIAL];

/// File L in edition 2.
fn serials_of_l(first: u32, second: u32) -> Vec<u8> {
    with_serials(&LINE_L, |card| if card == 1 { first } else { second })
}

/// A record of numbers.
fn record(numbers: &[u32]) -> Vec<u8> {
    numbers.iter().flat_map(|n| number(*n)).collect()
}

#[test]
fn file_l_with_serials_is_the_line_that_it_was() {
    let line = serials_of_l(70_000, 0);
    assert_eq!(line.len(), 49);
    assert_eq!(line[23..29], [1, 240, 162, 4, 2, 0]);
    assert_eq!(state_bytes(&line), state_bytes(&LINE_L));
    let (mut state, mut other) = (fresh_of(&line), fresh_of(&LINE_L));
    assert_eq!(state, other);
    // Accepted and refused by 10 and 11 to 20, on what the records before have left.
    let records: [&[u32]; 14] = [
        &[5, 1],
        &[5, 1],
        &[7, 1, 1],
        &[8, 1, 1],
        &[8, 1],
        &[9, 1, 1, 5],
        &[1, 1, 1, 2, 0, 3],
        &[12, 1, 1, 5],
        &[1, 1, 1, 2, 0, 4],
        &[3, 1, 1, 5, 0],
        &[6, 1],
        &[14, 2],
        &[8, 2, 1],
        &[11, 1],
    ];
    for numbers in records {
        let (mut answer, mut second) = ([9; ANSWER_BYTES], [9; ANSWER_BYTES]);
        let told = operate(&line, &mut state, &record(numbers), &mut answer);
        assert_eq!(told, operate(&LINE_L, &mut other, &record(numbers), &mut second), "{numbers:?}");
        assert_eq!((&state, answer), (&other, second), "{numbers:?}");
        assert_eq!(first_bad(&line, &state), Ok(None), "{numbers:?}");
    }
}

#[test]
fn a_line_is_written_in_its_own_edition_with_its_serials() {
    for first in SERIALS {
        for second in SERIALS {
            let line = serials_of_l(first, second);
            let mut out = vec![0; line.len()];
            let length = line.len();
            assert_eq!(rewrite(&line, &mut out[1..]), Err(RewriteError::Short(length)), "{first} {second}");
            assert_eq!(rewrite(&line, &mut out), Ok(length), "{first} {second}");
            assert_eq!(out, line, "{first} {second}");
        }
    }
    let mut out = LINE_L.map(|_| 0);
    assert_eq!(rewrite(&LINE_L, &mut out), Ok(45));
    assert_eq!(out, LINE_L);
}

#[test]
fn there_are_two_editions() {
    for edition in [0, 3, 4, 127, 128, 257, 258, 65_537, 65_538, 70_000, MOST_SERIAL] {
        for line in [&LINE_L[..], &serials_of_l(70_000, 0)] {
            let other = [&number(edition)[..], &line[1..]].concat();
            assert_eq!(question(load_check(&other)), 3, "edition {edition}");
        }
    }
    // Without cards the editions differ by their number alone.
    for edition in [1, 2] {
        assert_eq!(load_check(&[edition, 1, 0, 1, 0, 3, 0, 0]), Ok(()));
    }
}

#[test]
fn a_serial_is_put_questions_one_and_two() {
    let line = serials_of_l(MOST_SERIAL, 0);
    for length in 24..line.len() {
        assert_eq!(question(load_check(&line[..length])), 1, "{length}");
    }
    let behind = &line[27..];
    for (serial, expected) in [
        (&[128, 128, 128, 1][..], 2),
        (&[255, 255, 255, 127], 2),
        (&[255, 255, 0], 2),
        (&[129, 0], 2),
        (&[255, 255, 127], 0),
        (&[0], 0),
    ] {
        let other = [&line[..24], serial, behind].concat();
        assert_eq!(question(load_check(&other)), expected, "{serial:?}");
    }
}

#[test]
fn large_numbers_of_a_record_are_read_and_then_name_nothing() {
    for line in [&LINE_L[..], &serials_of_l(1, 2)] {
        let (mut state, mut answer) = (fresh_of(line), [0; ANSWER_BYTES]);
        for large in [65_536, 65_537, 70_000, 131_073, MOST_SERIAL] {
            for (numbers, expected) in [
                (&[5, large][..], 11),
                (&[large, 1], 10),
                (&[1, 1, large, 2, 0, 3], 10),
                (&[1, 1, 1, 2, large, 3], 10),
                (&[1, 1, 1, 2, 0, large], 11),
                (&[8, large, 1], 11),
            ] {
                let told = operate(line, &mut state, &record(numbers), &mut answer);
                assert_eq!(question(told), expected, "{numbers:?}");
            }
        }
        // Four bytes are no number.
        assert_eq!(question(operate(line, &mut state, &[5, 128, 128, 128, 1], &mut answer)), 10);
    }
}
