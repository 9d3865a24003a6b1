//! The calls that judge, over document 01's file L.

use sorter_gate::{ANSWER_BYTES, Refusal, STATE_BYTES, fresh, load_check, operate};
use std::error::Error;

const LINE_L: [u8; 45] = *include_bytes!("../../../crates/office/data/line.bin");

/// Document 01's sequence P, with its answers.
const SEQUENCE_P: [(&[u8], u32); 16] = [
    (&[5, 1], 0),
    (&[5, 2], 0),
    (&[7, 1, 1], 0),
    (&[8, 1, 1], 0),
    (&[8, 2, 2], 0),
    (&[9, 1, 1, 5], 0),
    (&[1, 1, 1, 2, 0, 3], 0),
    (&[12, 1, 1, 5], 20),
    (&[1, 1, 1, 2, 0, 4], 19),
    (&[1, 1, 1, 2, 0, 5], 19),
    (&[1, 1, 1, 4, 0, 3], 17),
    (&[1, 1, 1, 1, 0, 0], 13),
    (&[1, 2, 1, 2, 0, 0], 16),
    (&[6, 2], 15),
    (&[11, 2], 0),
    (&[6, 2], 0),
];

/// The number of a result; 0 if it is accepted.
fn number(result: Result<(), Refusal>) -> u32 {
    result.err().map_or(0, Refusal::number)
}

fn fresh_l() -> [u8; STATE_BYTES] {
    let mut state = [0xAA; STATE_BYTES];
    fresh(&LINE_L, &mut state).expect("file L is accepted");
    state
}

#[test]
fn sequence_p_has_its_answers_and_a_refusal_changes_nothing() {
    let (mut state, mut answer) = (fresh_l(), [9; ANSWER_BYTES]);
    for (record, expected) in SEQUENCE_P {
        let before = (state, answer);
        assert_eq!(number(operate(&LINE_L, &mut state, record, &mut answer)), expected, "{record:?}");
        if expected != 0 {
            assert_eq!((state, answer), before, "{record:?}");
        }
    }
}

/// On file L with value 1 as `1 2 3 3`: card 1 reads and writes its own object 2, and puts value 3 there, which writes
/// object 5.
const RING: [(&[u8], u32); 7] = [
    (&[5, 1], 0),
    (&[8, 1, 1], 21),
    (&[9, 1, 1, 5], 0),
    (&[8, 1, 1], 0),
    (&[12, 1, 1, 5], 20),
    (&[11, 1], 0),
    (&[12, 1, 1, 5], 0),
];

#[test]
fn a_card_with_a_ring_comes_in_after_what_its_ring_names() {
    let (mut line, mut state, mut answer) = (LINE_L, fresh_l(), [0; ANSWER_BYTES]);
    let [_, mode, put] = &mut line[26..29] else { unreachable!("an entry has three numbers") };
    (*mode, *put) = (3, 3);
    for (record, expected) in RING {
        assert_eq!(number(operate(&line, &mut state, record, &mut answer)), expected, "{record:?}");
    }
}

#[test]
fn each_number_has_a_text_of_its_own() {
    let all: Vec<Refusal> = (1..=Refusal::QUESTIONS).filter_map(Refusal::new).collect();
    assert_eq!(all.len(), Refusal::QUESTIONS as usize);
    for (place, refusal) in all.iter().enumerate() {
        assert_eq!(refusal.number() as usize, place + 1);
        assert!(refusal.is_known());
        assert!(!refusal.text().is_empty());
        assert_eq!(refusal.to_string(), format!("refused by question {}: {}", place + 1, refusal.text()));
        assert_eq!(all.iter().filter(|other| other.text() == refusal.text()).count(), 1);
    }
    assert_eq!(Refusal::new(0), None);
}

/// Each example of the questions, through the binding, is refused by its own.
#[test]
fn the_examples_have_their_numbers() {
    let folder = |number: u32| format!("{}/../../examples/questions/{number:02}", env!("CARGO_MANIFEST_DIR"));
    let file = |number, name| std::fs::read(format!("{}/{name}", folder(number)));
    for expected in 1..=Refusal::QUESTIONS {
        let line = file(expected, "line.bin").expect("an example has a line file");
        let result = match (file(expected, "state.bin"), file(expected, "answer.bin")) {
            (Ok(mut state), Ok(mut answer)) => {
                let record = file(expected, "record.bin").expect("an example with areas has a record");
                operate(&line, &mut state, &record, &mut answer)
            }
            _ => session(&line, &file(expected, "session.bin").expect("an example has a session")),
        };
        assert_eq!(number(result), expected);
    }
}

/// The records of a session, each after its length, up to the first that is refused. All lengths are below 128.
fn session(line: &[u8], mut records: &[u8]) -> Result<(), Refusal> {
    let (mut state, mut answer) = ([0; STATE_BYTES], [0; ANSWER_BYTES]);
    fresh(line, &mut state)?;
    while let [length, rest @ ..] = records {
        let (record, left) = rest.split_at(usize::from(*length));
        operate(line, &mut state, record, &mut answer)?;
        records = left;
    }
    Ok(())
}

#[test]
fn a_refusal_is_an_error() {
    fn cut() -> Result<(), Box<dyn Error>> {
        Ok(load_check(&LINE_L[..44])?)
    }
    let error = cut().expect_err("a cut file is refused");
    assert_eq!(error.to_string(), "refused by question 1: line file: a number's last byte is missing");
}

#[test]
fn lengths_are_those_of_the_library() {
    for (length, expected) in [(0, 7), (STATE_BYTES - 1, 7), (STATE_BYTES, 0), (STATE_BYTES + 1, 7)] {
        let mut state = vec![7; length];
        assert_eq!(number(fresh(&LINE_L, &mut state)), expected, "a state area of {length} bytes");
        assert!(expected == 0 || state.iter().all(|byte| *byte == 7));
    }
    for (length, expected) in [(0, 8), (ANSWER_BYTES - 1, 8), (ANSWER_BYTES, 0), (ANSWER_BYTES + 1, 0)] {
        let (mut state, mut answer) = (fresh_l(), vec![7; length]);
        assert_eq!(number(operate(&LINE_L, &mut state, &[5, 1], &mut answer)), expected, "{length} answer bytes");
        assert!(answer.iter().all(|byte| *byte == 7));
    }
}

/// An empty slice has a pointer that is not null and belongs to nothing: the library reads nothing there.
#[test]
fn empty_slices_are_answered() {
    assert_eq!(number(load_check(&[])), 1);
    assert_eq!(number(fresh(&[], &mut [])), 1);
    assert_eq!(number(fresh(&LINE_L, &mut [])), 7);
    assert_eq!(number(operate(&[], &mut [], &[], &mut [])), 1);
    let mut state = fresh_l();
    assert_eq!(number(operate(&LINE_L, &mut state, &[], &mut [])), 8);
}

/// How a host looks at a state area that it has restored.
#[test]
fn an_empty_record_tells_whether_the_areas_are_in_order() {
    let (mut state, mut answer) = (fresh_l(), [0; ANSWER_BYTES]);
    assert_eq!(number(operate(&LINE_L, &mut state, &[], &mut answer)), 10);
    assert_eq!(state, fresh_l());
    state[STATE_BYTES - 1] = 1;
    assert_eq!(number(operate(&LINE_L, &mut state, &[], &mut answer)), 9);
}

#[test]
fn a_read_fills_the_start_of_the_answer_area() {
    let (mut state, mut answer) = (fresh_l(), [9; ANSWER_BYTES + 2]);
    let contents: Vec<u8> = (1..=16).collect();
    let written = [&[1, 1, 1, 6, 1], &contents[..]].concat();
    for record in [&[5, 1][..], &[7, 1, 1], &written, &[3, 1, 1, 6, 0]] {
        assert_eq!(operate(&LINE_L, &mut state, record, &mut answer), Ok(()));
    }
    assert_eq!(answer[..16], contents[..]);
    assert_eq!(answer[16..], [9; ANSWER_BYTES - 14]);
}
