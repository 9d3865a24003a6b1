//! The examples of document 01 and of requests N4, N5 and N6.

mod common;

use common::{Desk, SMALL_AREA, SMALL_LOCKS, WIDE_AREA, WIDE_LOCKS, desk_after_seven, file_l, sequence_p};
use reference::limits::{ANSWER_BYTES, STATE_BYTES, STATE_BYTES_WIDE, locks_place};
use reference::tokens::row;
use reference::{fresh, load_check, operate, report};

#[test]
fn file_l_is_accepted() {
    assert_eq!(file_l().len(), 45);
    assert_eq!(load_check(&file_l()), 0);
}

#[test]
fn the_session_over_l() {
    let session = [2, 5, 1, 2, 5, 1, 2, 6, 1, 2, 5, 1];
    assert_eq!(report(&file_l(), &session), b"1 0\n2 14\n3 0\n4 14\n");
}

#[test]
fn the_whole_p_sequence() {
    let mut desk = Desk::new(&file_l());
    for (record, answer) in sequence_p() {
        assert_eq!(desk.numbers(&record), answer, "{record:?}");
    }
}

#[test]
fn the_p_sequence_as_a_session() {
    let mut session = Vec::new();
    let mut expected = String::new();
    for (place, (record, answer)) in sequence_p().into_iter().enumerate() {
        session.push(record.len() as u8);
        session.extend(row(&record));
        expected += &format!("{} {answer}\n", place + 1);
    }
    assert_eq!(report(&file_l(), &session), expected.into_bytes());
}

/// L with this entry in its first value.
fn l_with(entry: [u8; 3]) -> Vec<u8> {
    let mut line = file_l();
    line.splice(26..29, entry);
    line
}

#[test]
fn example_r() {
    // Device 1 reads and writes its own object 2, putting value 3, which writes object 5.
    let mut desk = Desk::new(&l_with([2, 3, 3]));
    let rows: [(&[usize], u32); 7] = [
        (&[5, 1], 0),
        (&[8, 1, 1], 21),
        (&[9, 1, 1, 5], 0),
        (&[8, 1, 1], 0),
        (&[12, 1, 1, 5], 20),
        (&[11, 1], 0),
        (&[12, 1, 1, 5], 0),
    ];
    for (record, answer) in rows {
        assert_eq!(desk.numbers(record), answer, "{record:?}");
    }
    // It writes, and never reads, object 2.
    Desk::new(&l_with([2, 2, 4])).accept(&[&[5, 1], &[8, 1, 1]]);
    // Device 2's object.
    assert_eq!(load_check(&l_with([4, 2, 3])), 6);
}

/// Records and answers, one list of calls.
fn judged(line: &[u8], rows: &[(&[usize], u32)]) {
    let mut desk = Desk::new(line);
    for (record, answer) in rows {
        assert_eq!(desk.numbers(record), *answer, "{record:?}");
    }
}

#[test]
fn a_green_zone_over_l() {
    let rows: [(&[usize], u32); 18] = [
        (&[13, 1], 0),
        (&[7, 1, 1], 0),
        (&[8, 1, 1], 0),
        (&[9, 1, 1, 5], 0),
        (&[1, 1, 1, 2, 0, 3], 0),
        (&[12, 1, 1, 5], 20),
        (&[1, 1, 1, 2, 0, 4], 22),
        (&[1, 1, 1, 2, 0, 2], 22),
        (&[3, 1, 1, 2, 0], 0),
        (&[3, 1, 1, 2, 2], 0),
        (&[1, 1, 1, 2, 0, 0], 0),
        (&[12, 1, 1, 5], 0),
        (&[6, 1], 15),
        (&[10, 1], 0),
        (&[11, 1], 0),
        (&[6, 1], 0),
        (&[13, 1], 14),
        (&[5, 1], 14),
    ];
    judged(&file_l(), &rows);
}

/// No device at all: the driver's descriptor holds the external object back that it names, in a green zone only.
#[test]
fn question_20_is_stricter_in_green_zones() {
    let line = row(&[1, 1, 0, 2, 1, 1, 1, 1, 3, 0, 0, 1, 2, 2, 0]);
    let session = |create: usize, leaving: u32| {
        judged(
            &line,
            &[
                (&[create, 1], 0),
                (&[7, 1, 1], 0),
                (&[9, 1, 1, 2], 0),
                (&[1, 1, 1, 1, 0, 1], 0),
                (&[12, 1, 1, 2], leaving),
                (&[10, 1], 0),
            ],
        );
    };
    session(13, 20);
    session(5, 0);
}

#[test]
fn a_ring_card_stays_out_of_green_zones() {
    judged(&l_with([2, 3, 3]), &[(&[13, 1], 0), (&[9, 1, 1, 5], 0), (&[8, 1, 1], 22)]);
}

#[test]
fn locks_over_l() {
    let rows: [(&[usize], u32); 14] = [
        (&[14, 1], 0),
        (&[14, 1], 23),
        (&[5, 1], 0),
        (&[8, 1, 1], 23),
        (&[8, 1, 9], 14),
        (&[15, 1], 0),
        (&[15, 1], 23),
        (&[8, 1, 1], 0),
        (&[14, 1], 16),
        (&[15, 1], 16),
        (&[14, 3], 11),
        (&[14, 0], 11),
        (&[11, 1], 0),
        (&[14, 1], 0),
    ];
    judged(&file_l(), &rows);
}

#[test]
fn a_copy_by_a_device_is_a_write_transfer() {
    assert_eq!(desk_after_seven().numbers(&[4, 1, 1, 2, 4]), 18);
    assert_eq!(desk_after_seven().numbers(&[4, 1, 1, 2, 0]), 0);
}

#[test]
fn values_47_pass_and_48_give_3() {
    let file = |values: usize| row(&[&[1, 0, 0, 0, values][..], &vec![0; values]].concat());
    assert_eq!(load_check(&file(47)), 0);
    assert_eq!(load_check(&file(48)), 3);
}

#[test]
fn count_8_is_read_and_9_gives_10() {
    // Eight external objects of kind 3 that one driver reads.
    let objects: Vec<usize> = [3, 0, 0].repeat(9);
    let mut desk = Desk::new(&row(&[&[1, 1, 0, 9, 0][..], &objects].concat()));
    desk.accept(&[&[5, 1], &[7, 1, 1], &[9, 1, 8, 1, 2, 3, 4, 5, 6, 7, 8]]);
    assert_eq!(desk.numbers(&[3, 1, 8, 1, 2, 2, 3, 3, 4, 4, 5, 5, 6, 6, 7, 7, 8, 8, 1]), 0);
    assert_eq!(desk.numbers(&[9, 1, 9, 1, 2, 3, 4, 5, 6, 7, 8, 9]), 10);
    assert_eq!(desk.numbers(&[12, 1, 0]), 10);
}

#[test]
fn state_areas_of_other_lengths() {
    for (length, answer) in [(0, 7), (STATE_BYTES - 1, 7), (STATE_BYTES, 0), (STATE_BYTES + 1, 7)] {
        let mut state = vec![9; length];
        assert_eq!(fresh(&file_l(), &mut state), answer);
        assert!(answer == 0 || state == vec![9; length]);
        let mut state = vec![0; length];
        fresh(&file_l(), &mut state[..length.min(STATE_BYTES)]);
        assert_eq!(operate(&file_l(), &mut state, &row(&[5, 1]), &mut [0; ANSWER_BYTES]), answer);
    }
    assert_eq!((STATE_BYTES, STATE_BYTES_WIDE), (SMALL_AREA, WIDE_AREA));
    assert_eq!((locks_place(96), locks_place(192)), (SMALL_LOCKS, WIDE_LOCKS));
}

#[test]
fn answer_areas_of_other_lengths() {
    for (length, answer) in [(0, 8), (127, 8), (128, 0), (129, 0)] {
        let mut desk = desk_after_seven();
        desk.answer = vec![7; length];
        assert_eq!(desk.numbers(&[3, 1, 1, 2, 0]), answer);
        assert!(desk.answer[16.min(length)..].iter().all(|byte| *byte == 7));
    }
}
