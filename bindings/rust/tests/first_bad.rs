//! The record that a damaged state area is refused for: which object it is of, in areas of both lengths.

mod common;

use common::{ENDS, FULL, LENGTHS, OLD, SMALL, WIDE, data_line, example, fresh_of, looked_at, record_at};
use sorter_gate::{Refusal, code, first_bad};

/// What the binding says of an area: the place, or the question's number.
fn named(line: &[u8], state: &[u8]) -> Result<Option<usize>, u32> {
    first_bad(line, state).map_err(Refusal::number)
}

/// The place for an area that question 9 refuses.
fn place_of(line: &[u8], state: &mut [u8]) -> Option<usize> {
    assert_eq!(looked_at(line, state, &[]), 9);
    named(line, state).expect("line and length are in order")
}

/// File L: objects 1 and 3 are the cards' hard-wired descriptors, 2 and 4 their transfer descriptors, 5 is external
/// data, 6 is data of driver 1; it has five values.
fn line_l() -> Vec<u8> {
    example(9, "line")
}

/// L with driver 1, card 1 and object 5 in partition 1, and a partition that was destroyed.
fn visited() -> Vec<u8> {
    let (line, mut state) = (line_l(), fresh_of(&line_l()));
    let records: [&[u8]; 6] = [
        &[code::CREATE_PARTITION, 1],
        &[code::CREATE_PARTITION, 2],
        &[code::DESTROY_PARTITION, 2],
        &[code::ACTIVATE_DRIVER, 1, 1],
        &[code::ACTIVATE_CARD, 1, 1],
        &[code::ACTIVATE_OBJECTS, 1, 1, 5],
    ];
    for record in records {
        assert_eq!(looked_at(&line, &mut state, record), 0, "{record:?}");
    }
    state
}

#[test]
fn a_good_area_has_no_broken_record() {
    for objects in [0, 1, SMALL, WIDE, FULL] {
        let line = data_line(objects);
        assert_eq!(named(&line, &fresh_of(&line)), Ok(None), "{objects} objects");
    }
    let full = common::full_line(1, 2, 47);
    assert_eq!(named(&full, &fresh_of(&full)), Ok(None));
    assert_eq!(named(&line_l(), &visited()), Ok(None));
}

/// A partition that nobody created, at the first record, the line's last, the one behind it, and the area's last.
#[test]
fn the_broken_record_is_named() {
    for (objects, room) in
        [(0, SMALL), (SMALL - 1, SMALL), (SMALL, SMALL), (WIDE, FULL), (FULL - 1, FULL), (FULL, FULL)]
    {
        let line = data_line(objects);
        let mut state = fresh_of(&line);
        for object in [1, objects.max(1), (objects + 1).min(room), room] {
            state[record_at(object)] = 5;
            assert_eq!(place_of(&line, &mut state), Some(object.into()), "{objects} objects");
            state[record_at(object)] = 0;
        }
    }
}

#[test]
fn the_first_of_several_is_named() {
    for (objects, room) in [(SMALL, SMALL), (WIDE, FULL)] {
        let line = data_line(objects);
        let mut state = fresh_of(&line);
        for object in [room, objects, 40, 2] {
            state[record_at(object)] = 64;
            assert_eq!(place_of(&line, &mut state), Some(object.into()), "{objects} objects");
        }
    }
}

/// Every rule that a record of L can break, a byte for each: where it stands in the record, and what it is then.
#[test]
fn each_rule_of_a_record_is_looked_at() {
    let line = line_l();
    for (object, at, byte, rule) in [
        (5, 0, 64, "a partition above 63"),
        (5, 0, 3, "a partition that was never created"),
        (5, 0, 2, "a partition that was destroyed"),
        (6, 0, 0, "a driver's object in 0, and the driver is active"),
        (2, 0, 0, "a card's object in 0, and the card is active"),
        (4, 0, 1, "a card's object in a partition, and the card is not active"),
        (2, 1, 6, "a value that there is not"),
        (4, 16, 1, "a byte behind a value number"),
        (3, 1, 1, "a hard-wired descriptor with another value"),
        (1, 2, 1, "a byte behind a hard-wired value"),
        (7, 0, 1, "an object that there is not, in a partition"),
        (96, 16, 1, "an object that there is not, with contents"),
    ] {
        let mut state = visited();
        state[record_at(object) + at] = byte;
        assert_eq!(place_of(&line, &mut state), Some(object.into()), "{rule}");
    }
    let mut free = visited();
    (free[record_at(5) + 1], free[record_at(6) + 16]) = (OLD, OLD);
    assert_eq!((looked_at(&line, &mut free, &[]), named(&line, &free)), (10, Ok(None)));
}

/// Bytes of partitions, drivers and cards that break no record: the area is refused, and no object is named.
#[test]
fn a_fault_before_the_records_is_no_objects() {
    let line = line_l();
    for (at, byte, fault) in [
        (0, 1, "partition 0 exists"),
        (0, 3, "partition 0 is a green zone"),
        (9, 4, "partition 9 is neither used nor not"),
        (64 + 1, 5, "driver 2, who owns nothing, is in a partition that does not exist"),
        (64 + 2, 1, "a driver that there is not"),
        (80 + 15, 1, "a card that there is not"),
    ] {
        let mut state = visited();
        state[at] = byte;
        assert_eq!(place_of(&line, &mut state), None, "{fault}");
    }
}

/// The records are judged by those bytes all the same: what is in a partition breaks with it, and so does an owner's.
#[test]
fn a_fault_before_the_records_can_break_some() {
    let line = line_l();
    for (at, byte, object, fault) in [
        (1, 2, 1, "partition 1 is destroyed"),
        (1, 0, 1, "partition 1 was never created"),
        (1, 4, 1, "partition 1 is neither used nor not"),
        (64, 0, 6, "driver 1 is not active"),
        (80, 0, 1, "card 1 is not active"),
        (81, 1, 3, "card 2 is active"),
    ] {
        let mut state = visited();
        state[at] = byte;
        assert_eq!(place_of(&line, &mut state), Some(object), "{fault}");
    }
}

#[test]
fn the_example_of_question_9_is_object_1s() {
    assert_eq!(named(&line_l(), &example(9, "state")), Ok(Some(1)));
}

#[test]
fn a_refused_line_has_no_record() {
    for expected in 1..=6 {
        for length in LENGTHS {
            assert_eq!(named(&example(expected, "line"), &vec![OLD; length]), Err(expected), "{length} bytes");
        }
    }
    assert_eq!(named(&[], &[]), Err(1));
}

#[test]
fn an_area_of_another_length_is_refused() {
    for (objects, right) in ENDS {
        for length in LENGTHS {
            let expected = if length == right { Ok(None) } else { Err(7) };
            assert_eq!(named(&data_line(objects), &vec![0; length]), expected, "{objects} objects, {length} bytes");
        }
    }
}
