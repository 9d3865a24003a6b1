//! Line files that are loaded and written again.

mod common;

use sorter_gate::{LONGEST_LINE, Refusal, RewriteError, load_check, rewrite};
use std::error::Error;

const LINE_L: [u8; 45] = *include_bytes!("../../../crates/office/data/line.bin");

/// What the areas hold before a call: no byte of file L.
const OLD: u8 = 0xEE;

/// The line file of a question's example.
fn example(number: u32) -> Vec<u8> {
    let path = format!("{}/../../examples/questions/{number:02}/line.bin", env!("CARGO_MANIFEST_DIR"));
    std::fs::read(path).expect("an example has a line file")
}

/// What rewriting into an area of some length gives, with the area that it leaves.
fn rewritten(line: &[u8], length: usize) -> (Result<usize, RewriteError>, Vec<u8>) {
    let mut out = vec![OLD; length];
    (rewrite(line, &mut out), out)
}

#[test]
fn file_l_needs_its_length_and_no_byte_more() {
    for length in [0, 1, 44] {
        assert_eq!(rewritten(&LINE_L, length), (Err(RewriteError::Short(45)), vec![OLD; length]));
    }
    for length in [45, 46, 85, 4096] {
        let (result, out) = rewritten(&LINE_L, length);
        assert_eq!(result, Ok(45));
        assert_eq!(out[..45], LINE_L);
        assert_eq!(out[45..], vec![OLD; length - 45]);
    }
}

#[test]
fn a_refused_file_has_its_question_and_leaves_the_area() {
    for number in 1..=6 {
        let refusal = Refusal::new(number).expect("only 0 is no refusal");
        let line = example(number);
        assert_eq!(load_check(&line), Err(refusal));
        for length in [0, line.len(), LONGEST_LINE] {
            assert_eq!(rewritten(&line, length), (Err(RewriteError::Refused(refusal)), vec![OLD; length]));
        }
    }
}

#[test]
fn the_smallest_and_the_longest_line_come_out_as_they_are() {
    let first = common::full_line(1, 2, 47);
    let longest = common::with_serials(&first, |_| common::MOST_SERIAL);
    assert_eq!(longest.len(), LONGEST_LINE);
    for line in [vec![1, 0, 0, 0, 0], common::data_line(127), common::data_line(128), first, longest] {
        assert_eq!(rewritten(&line, line.len() - 1).0, Err(RewriteError::Short(line.len())));
        assert_eq!(rewritten(&line, line.len()), (Ok(line.len()), line.clone()));
    }
}

#[test]
fn an_empty_line_is_refused_before_the_area_is_looked_at() {
    let first = Refusal::new(1).expect("only 0 is no refusal");
    assert_eq!(rewrite(&[], &mut []), Err(RewriteError::Refused(first)));
}

#[test]
fn an_error_says_which_it_is() {
    fn told(line: &[u8], length: usize) -> Result<usize, Box<dyn Error>> {
        Ok(rewrite(line, &mut vec![OLD; length])?)
    }
    let refused = told(&LINE_L[..44], 45).expect_err("a cut file is refused");
    assert_eq!(refused.to_string(), "refused by question 1: line file: a number's last byte is missing");
    let short = told(&LINE_L, 44).expect_err("an area of 44 bytes is too short");
    assert_eq!(short.to_string(), "the area is too short: the line file needs 45 bytes");
    let unknown = RewriteError::Unknown(77).to_string();
    assert_eq!(unknown, "an answer that this package does not know, 77; the library is of a later version");
}
