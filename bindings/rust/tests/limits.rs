//! The named codes and the longest files and records: what the library makes of them.

mod common;

use common::{FULL, MOST_SERIAL, fresh_of, number, with_serials};
use sorter_gate::{ANSWER_BYTES, LONGEST_LINE, LONGEST_RECORD, code, fresh, load_check, operate, state_bytes};

/// Every count at its limit; what is not hard-wired is external data.
fn full_line() -> Vec<u8> {
    common::full_line(3, 1, 0)
}

/// Carries records out on a fresh state of the full line, and gives the number of the last; the others are accepted.
fn last_of(records: &[&[u8]]) -> u32 {
    let (line, mut answer) = (full_line(), [0; ANSWER_BYTES]);
    let mut state = fresh_of(&line);
    let (last, before) = records.split_last().expect("there is a record");
    for record in before {
        assert_eq!(operate(&line, &mut state, record, &mut answer), Ok(()), "{record:?}");
    }
    operate(&line, &mut state, last, &mut answer).err().map_or(0, |refusal| refusal.number())
}

/// Sixteen serials of three bytes each are what edition 1 does not have.
#[test]
fn the_longest_line_is_accepted_and_no_longer_one() {
    let line = with_serials(&full_line(), |_| MOST_SERIAL);
    assert_eq!(line.len(), LONGEST_LINE);
    assert_eq!(full_line().len(), LONGEST_LINE - 3 * 16);
    assert_eq!(load_check(&full_line()), Ok(()));
    assert_eq!(load_check(&line), Ok(()));
    for byte in 0..=u8::MAX {
        assert!(load_check(&[&line[..], &[byte]].concat()).is_err());
    }
}

#[test]
fn the_longest_record_is_accepted_and_no_longer_one() {
    let objects: Vec<Vec<u8>> = (FULL - 7..=FULL).map(number).collect();
    let before: [&[u8]; 3] = [
        &[code::CREATE_PARTITION, 1],
        &[code::ACTIVATE_DRIVER, 1, 1],
        &[&[code::ACTIVATE_OBJECTS, 1, 8], &objects.concat()[..]].concat(),
    ];
    let mut record = vec![code::DRIVER_WRITE, 1, 8];
    objects.iter().for_each(|object| record.extend([&object[..], &[1], &[7; 16]].concat()));
    assert_eq!(record.len(), LONGEST_RECORD);
    assert_eq!(last_of(&[&before[..], &[&record]].concat()), 0);
    record.push(0);
    assert_eq!(last_of(&[&before[..], &[&record]].concat()), 10);
}

/// What each code does shows in what it lets follow, in a green zone as in another.
#[test]
fn each_code_does_what_its_name_says() {
    for create in [code::CREATE_PARTITION, code::CREATE_GREEN_PARTITION] {
        what_each_code_does(&[create, 1]);
    }
}

fn what_each_code_does(create: &[u8]) {
    let (driver, card): (&[u8], &[u8]) = (&[code::ACTIVATE_DRIVER, 1, 1], &[code::ACTIVATE_CARD, 1, 1]);
    let object: &[u8] = &[code::ACTIVATE_OBJECTS, 1, 1, 17];
    let destroy: &[u8] = &[code::DESTROY_PARTITION, 1];
    assert_eq!(last_of(&[create, create]), 14);
    assert_eq!(last_of(&[create, destroy, destroy]), 14);
    for (comes, leaves) in [
        (driver, &[code::DEACTIVATE_DRIVER, 1][..]),
        (card, &[code::DEACTIVATE_CARD, 1]),
        (object, &[code::DEACTIVATE_OBJECTS, 1, 1, 17]),
    ] {
        assert_eq!(last_of(&[create, comes, destroy]), 15);
        assert_eq!(last_of(&[create, comes, comes]), 16);
        assert_eq!(last_of(&[create, comes, leaves, destroy]), 0);
    }
    assert_eq!(last_of(&[create, driver, object, &[code::DRIVER_READ, 1, 1, 17, 0]]), 0);
    let contents = [7; 16];
    let written = |code: u8| [&[code, 1, 1, 17, 1], &contents[..]].concat();
    assert_eq!(last_of(&[create, driver, object, &written(code::DRIVER_WRITE)]), 0);
    // A card does only what a descriptor tells it, and nothing tells this one anything.
    assert_eq!(last_of(&[create, card, object, &[code::CARD_READ, 1, 1, 17, 0]]), 18);
    assert_eq!(last_of(&[create, card, object, &written(code::CARD_WRITE)]), 18);
}

/// Line and record are only read: a record may stand inside the line file.
#[test]
fn line_and_record_may_overlap() {
    // A line of 17 objects, whose value begins as a record that destroys partition 17 does.
    let line = [&[1, 0, 0, 17, 1], &[3, 0, 0].repeat(17)[..], &[6], &[17, 1, 0].repeat(6)].concat();
    let (mut state, mut answer) = (fresh_of(&line), [0; ANSWER_BYTES]);
    let inside = line.windows(2).rposition(|two| two == [code::DESTROY_PARTITION, 17]).expect("a value begins so");
    let record = &line[inside..inside + 2];
    let apart = operate(&line, &mut state.clone(), &[code::DESTROY_PARTITION, 17], &mut answer);
    assert_eq!(apart.map_err(|refusal| refusal.number()), Err(14));
    assert_eq!(operate(&line, &mut state, record, &mut answer), apart);
}

/// A part of `room` that begins a number of bytes behind an address that 16 divides.
fn shifted(room: &mut [u8], by: usize, length: usize) -> &mut [u8] {
    let start = room.as_ptr().align_offset(16) + by;
    &mut room[start..start + length]
}

#[test]
fn areas_may_stand_anywhere() {
    let full = full_line();
    let length = state_bytes(&full).expect("the full line is accepted");
    let records: [&[u8]; 3] = [&[code::CREATE_PARTITION, 1], &[code::ACTIVATE_CARD, 1, 1], &[code::DEACTIVATE_CARD, 1]];
    let mut expected = None;
    for by in 0..16 {
        let mut rooms = [(); 4].map(|()| vec![0; length + 64]);
        let [line_room, state_room, record_room, answer_room] = &mut rooms;
        let line = shifted(line_room, by, full.len());
        line.copy_from_slice(&full);
        let state = shifted(state_room, by, length);
        fresh(line, state).expect("the full line is accepted");
        for wanted in records {
            let record = shifted(record_room, by, wanted.len());
            record.copy_from_slice(wanted);
            assert_eq!(operate(line, state, record, shifted(answer_room, by, ANSWER_BYTES)), Ok(()), "{by} {wanted:?}");
        }
        assert_eq!(state, expected.get_or_insert(state.to_vec()), "{by}");
    }
}

#[test]
fn calls_on_different_areas_run_at_once() {
    let line = full_line();
    std::thread::scope(|threads| {
        for card in 1..=4 {
            let line = &line;
            threads.spawn(move || {
                let mut answer = [0; ANSWER_BYTES];
                for _ in 0..200 {
                    let mut state = fresh_of(line);
                    for record in [&[code::CREATE_PARTITION, card][..], &[code::ACTIVATE_CARD, card, card]] {
                        assert_eq!(operate(line, &mut state, record, &mut answer), Ok(()), "{record:?}");
                    }
                    let again = operate(line, &mut state, &[code::ACTIVATE_CARD, card, card], &mut answer);
                    assert_eq!(again.map_err(|refusal| refusal.number()), Err(16));
                }
            });
        }
    });
}
