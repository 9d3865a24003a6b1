//! Lines of up to 192 objects: how long their state areas are, and objects whose numbers have two bytes.

mod common;

use common::{ENDS, FULL, LENGTHS, OLD, SMALL, WIDE, data_line, example, looked_at, number, question, record_at};
use sorter_gate::{
    ANSWER_BYTES, LOCK_BYTES, Refusal, STATE_BYTES, STATE_BYTES_WIDE, code, fresh, load_check, operate, state_bytes,
};

#[test]
fn a_line_has_up_to_192_objects() {
    for objects in [0, SMALL, WIDE, 127, 128, 191, FULL] {
        assert_eq!(load_check(&data_line(objects)), Ok(()), "{objects}");
    }
    for objects in [FULL + 1, u8::MAX] {
        assert_eq!(question(load_check(&data_line(objects))), 3, "{objects}");
    }
    // 127 in two bytes is not the shortest form.
    assert_eq!(question(load_check(&[1, 0, 0, 255, 0, 0])), 2);
}

#[test]
fn the_objects_alone_decide_the_length() {
    for objects in 0..=FULL {
        let expected = if objects <= SMALL { STATE_BYTES } else { STATE_BYTES_WIDE };
        assert_eq!(state_bytes(&data_line(objects)), Ok(expected), "{objects}");
    }
    assert_eq!(state_bytes(&common::full_line(3, 1, 0)), Ok(STATE_BYTES_WIDE));
    // Other counts at their limits do not matter.
    let others = [&[1, 16, 0, 0, 47], &[0; 47][..]].concat();
    assert_eq!(state_bytes(&others), Ok(STATE_BYTES));
}

#[test]
fn a_refused_line_has_no_length_but_its_question() {
    for expected in 1..=6 {
        assert_eq!(state_bytes(&example(expected, "line")).map_err(Refusal::number), Err(expected));
    }
    assert_eq!(state_bytes(&[]).map_err(Refusal::number), Err(1));
    assert_eq!(state_bytes(&data_line(FULL + 1)).map_err(Refusal::number), Err(3));
}

/// Both calls on areas of both lengths and about them: only the length that the line needs passes question 7.
#[test]
fn each_line_takes_its_own_length_alone() {
    for (objects, right) in ENDS {
        let line = data_line(objects);
        for length in LENGTHS {
            let mut state = vec![OLD; length];
            let expected = if length == right { 0 } else { 7 };
            assert_eq!(question(fresh(&line, &mut state)), expected, "fresh: {objects} objects, {length} bytes");
            assert!(state == vec![if expected == 0 { 0 } else { OLD }; length]);
            let number = looked_at(&line, &mut state, &[code::CREATE_PARTITION, 1]);
            assert_eq!(number, expected, "operate: {objects} objects, {length} bytes");
        }
    }
}

/// Every record behind the line's last object is looked at, to the last byte.
#[test]
fn what_the_line_does_not_have_is_zero_in_both_areas() {
    for (objects, room) in [(0, SMALL), (SMALL - 1, SMALL), (WIDE, FULL), (FULL - 1, FULL)] {
        let line = data_line(objects);
        let mut state = vec![0; state_bytes(&line).expect("the line is accepted")];
        assert_eq!(state.len(), record_at(room) + 17 + LOCK_BYTES);
        assert_eq!(looked_at(&line, &mut state, &[]), 10);
        for place in [record_at(objects + 1), record_at(room), record_at(room) + 16] {
            state[place] = 1;
            assert_eq!(looked_at(&line, &mut state, &[]), 9, "{objects} objects, place {place}");
            state[place] = 0;
        }
    }
    // The last object's contents are free where there is one.
    let (line, mut state) = (data_line(FULL), vec![0; STATE_BYTES_WIDE]);
    state[record_at(FULL) + 16] = OLD;
    assert_eq!(looked_at(&line, &mut state, &[]), 10);
}

/// An entry of a value names an object by its number, in one byte or two.
#[test]
fn entries_name_objects_up_to_the_last() {
    let line = |objects: u8, named: &[u8]| {
        [&[1, 0, 0], &number(objects)[..], &[1], &[3, 0, 0].repeat(objects.into()), &[1], named, &[1, 0]].concat()
    };
    for named in [1, 127, 128, FULL] {
        assert_eq!(load_check(&line(FULL, &number(named))), Ok(()), "{named}");
    }
    for (objects, named) in [(FULL, FULL + 1), (128, 129), (127, 128), (SMALL, WIDE)] {
        assert_eq!(question(load_check(&line(objects, &number(named)))), 3, "{named} of {objects}");
    }
    assert_eq!(question(load_check(&line(FULL, &[255, 0]))), 2);
}

/// A record that names an object above 127 acts on that object and on no other.
#[test]
fn records_act_on_the_object_that_they_name() {
    for object in [127, 128, 191, FULL] {
        let (line, mut answer) = (common::full_line(3, 1, 0), [OLD; ANSWER_BYTES]);
        let mut state = vec![0; STATE_BYTES_WIDE];
        fresh(&line, &mut state).expect("the line is accepted");
        let named = number(object);
        let (comes, leaves) = ([&[9, 1, 1], &named[..]].concat(), [&[12, 1, 1], &named[..]].concat());
        let written = [&[1, 1, 1], &named[..], &[1], &[7; 16]].concat();
        let read = [&[3, 1, 1], &named[..], &[0]].concat();
        for record in [&[5, 1][..], &[7, 1, 1], &comes, &written, &read] {
            assert_eq!(operate(&line, &mut state, record, &mut answer), Ok(()), "{record:?}");
        }
        assert_eq!(answer[..16], [7; 16]);
        let mut expected = vec![0; STATE_BYTES_WIDE];
        fresh(&line, &mut expected).expect("the line is accepted");
        (expected[1], expected[64], expected[record_at(object)]) = (1, 1, 1);
        expected[record_at(object) + 1..record_at(object) + 17].fill(7);
        assert!(state == expected, "object {object}");
        assert_eq!(operate(&line, &mut state, &leaves, &mut answer), Ok(()));
        assert_eq!(question(operate(&line, &mut state, &leaves, &mut answer)), 16);
    }
    let (line, mut state) = (data_line(FULL), vec![0; STATE_BYTES_WIDE]);
    assert_eq!(looked_at(&line, &mut state, &[9, 1, 1, 193, 1]), 11);
}
