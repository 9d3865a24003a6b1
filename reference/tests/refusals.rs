//! Each question refuses by exactly its number, and a refusal changes nothing (the desk checks that at every call).

mod common;

use common::{Desk, desk_after_seven, file_l};
use reference::generate::{Call, Calls, Function};
use reference::tokens::row;
use reference::{fresh, load_check, operate};

/// L with the numbers from a place on replaced.
fn l_with(place: usize, bytes: &[u8]) -> Vec<u8> {
    let mut line = file_l();
    line.splice(place..place + 1, bytes.iter().copied());
    line
}

#[test]
fn question_1_wherever_the_file_ends() {
    for length in 0..45 {
        assert_eq!(load_check(&file_l()[..length]), 1, "{length}");
        let unfinished = [&file_l()[..length], &[200; 5]].concat();
        assert_eq!(load_check(&unfinished), 1, "{length}");
    }
}

#[test]
fn question_2_at_every_number() {
    for place in 0..45 {
        let now = file_l()[place];
        for bad in [&[now | 128, 0][..], &[255, 255, 0], &[now | 128, 128, 128, 1], &[now | 128, 128, 0]] {
            assert_eq!(load_check(&l_with(place, bad)), 2, "{place} {bad:?}");
        }
    }
}

#[test]
fn question_3_at_every_field() {
    // The first number out of range of each field of L, in the order of the file.
    let counts = [3, 17, 17, 193, 48];
    let objects = [5, 3, 3].repeat(6);
    let mut beyond: Vec<usize> = [&counts[..], &objects, &[6, 6]].concat();
    for stored in [1, 1, 1, 6, 6] {
        beyond.extend([7, 7, 4, stored]);
    }
    beyond[5 + 4 * 3 + 2] = 1;
    for (place, number) in beyond.iter().enumerate() {
        assert_eq!(load_check(&l_with(place, &row(&[*number]))), 3, "{place}");
    }
    for (place, number) in [(0, 0), (5, 0), (7, 0), (26, 0), (27, 0)] {
        assert_eq!(load_check(&l_with(place, &[number])), 3, "{place}");
    }
    for number in [65_535, 65_536, 70_000, 2_097_151] {
        (0..45).for_each(|place| assert_eq!(load_check(&l_with(place, &row(&[number]))), 3, "{place} {number}"));
    }
}

#[test]
fn questions_4_to_6_of_the_file() {
    assert_eq!(load_check(&[file_l(), vec![0]].concat()), 4);
    // A second kind 4 object, none, and one that is external or a driver's.
    assert_eq!(load_check(&l_with(8, &[4])), 3, "object 2 is written with a value");
    let line = |objects: &[usize], devices: usize| {
        row(&[&[1, 1, devices, objects.len() / 3, 0][..], objects, &vec![0; devices]].concat())
    };
    assert_eq!(load_check(&line(&[4, 2, 1], 1)), 0);
    assert_eq!(load_check(&line(&[4, 2, 1, 4, 2, 1], 1)), 5);
    assert_eq!(load_check(&line(&[1, 2, 1], 1)), 5);
    assert_eq!(load_check(&line(&[], 1)), 5);
    assert_eq!(load_check(&line(&[4, 2, 1, 4, 0, 0], 1)), 5);
    assert_eq!(load_check(&line(&[4, 2, 1, 4, 1, 1], 1)), 5);
    assert_eq!(load_check(&line(&[4, 2, 1, 4, 2, 1], 2)), 5);
    // Device 1 hardcoded to value 2, 3 and 4: another's object, an external one, another's by mode 2.
    for value in [2, 3, 4] {
        assert_eq!(load_check(&l_with(23, &[value])), 6);
    }
    assert_eq!(load_check(&l_with(26, &[1])), 6, "its own kind 4");
    assert_eq!(load_check(&l_with(23, &[5])), 0, "its own kind 1 by mode 2");
    assert_eq!(load_check(&l_with(27, &[3])), 0, "the same by mode 3");
}

/// L with this entry as its first value, device 1's hardcoded one.
fn l_with_entry(entry: [usize; 3]) -> Vec<u8> {
    let mut line = file_l();
    line.splice(26..29, row(&entry));
    line
}

#[test]
fn question_6_of_every_object_and_mode() {
    for mode in 1..=3 {
        for (object, answer) in [(1, 6), (2, 0), (3, 6), (4, 6), (5, 6), (6, 6)] {
            assert_eq!(load_check(&l_with_entry([object, mode, 0])), answer, "object {object} by mode {mode}");
        }
        // Objects 5 and 6, of nobody and of a driver, as descriptors.
        for object in [5, 6] {
            let mut line = l_with_entry([object, mode, if mode == 1 { 0 } else { 3 }]);
            line[5 + 3 * (object - 1)] = 1;
            assert_eq!(load_check(&line), 6, "descriptor {object} by mode {mode}");
        }
    }
}

#[test]
fn what_a_hardcoded_value_puts_is_asked_by_3() {
    for stored in 0..=50 {
        for mode in [2, 3] {
            let answer = if stored <= 5 { 0 } else { 3 };
            assert_eq!(load_check(&l_with_entry([2, mode, stored])), answer, "{stored} by mode {mode}");
            let others = if stored <= 5 { 6 } else { 3 };
            assert_eq!(load_check(&l_with_entry([4, mode, stored])), others, "another's: {stored} by mode {mode}");
        }
        assert_eq!(load_check(&l_with_entry([2, 1, stored])), if stored == 0 { 0 } else { 3 }, "{stored} by mode 1");
        assert_eq!(load_check(&l_with_entry([6, 2, stored])), if stored == 0 { 6 } else { 3 }, "{stored} into kind 3");
    }
}

/// R's line: device 1 puts value 3 into its descriptor, which names the external object 5.
#[test]
fn question_21_comes_last() {
    let mut desk = Desk::new(&l_with_entry([2, 3, 3]));
    desk.accept(&[&[5, 1], &[5, 2], &[5, 3], &[6, 3], &[9, 1, 1, 5]]);
    let mut refused = |record: &[usize], number: u32| assert_eq!(desk.numbers(record), number, "{record:?}");
    refused(&[8, 1, 2, 0], 10);
    refused(&[8, 3, 2], 11);
    refused(&[8, 1, 64], 11);
    refused(&[8, 1, 3], 14);
    refused(&[8, 1, 4], 14);
    refused(&[8, 1, 2], 21);
    desk.accept(&[&[8, 1, 1]]);
    // Device 1 would be outside in any partition but 1, were it asked.
    for (record, number) in [(&[8, 1, 2][..], 16), (&[8, 1, 1], 16), (&[8, 1, 4], 14), (&[8, 1, 3], 14)] {
        assert_eq!(desk.numbers(record), number, "{record:?}");
    }
    desk.accept(&[&[11, 1], &[12, 1, 1, 5]]);
    assert_eq!(desk.numbers(&[8, 1, 1]), 21);
    assert_eq!(desk.numbers(&[8, 1, 4]), 14);
    assert_eq!(desk.numbers(&[7, 1, 1]), 0, "it is not put to drivers");
    assert_eq!(desk.numbers(&[8, 2, 1]), 0, "nor is what an inactive device could do in anyone's way");
}

/// The place of an object's record in the state area.
fn at(object: usize) -> usize {
    96 + 17 * (object - 1)
}

/// The answer to a record that is accepted, with one byte of the state changed.
fn with_byte(place: usize, byte: u8) -> u32 {
    let mut desk = desk_after_seven();
    assert_ne!(desk.state[place], byte);
    desk.state[place] = byte;
    desk.numbers(&[5, 9])
}

#[test]
fn question_9_for_statuses_drivers_and_devices() {
    let broken = [
        (0, 1),
        (0, 3),
        (3, 4),
        (3, 255),
        (1, 2),
        (1, 4),
        (1, 0),
        (64, 3),
        (64, 64),
        (64, 2),
        (66, 1),
        (80, 0),
        (80, 255),
        (82, 1),
    ];
    for (place, byte) in broken {
        assert_eq!(with_byte(place, byte), 9, "byte {place} set to {byte}");
    }
}

#[test]
fn question_9_for_records() {
    let partitions = [(at(1), 2), (at(2), 0), (at(5), 3), (at(6), 0), (at(7), 1)];
    let values = [(at(1) + 1, 2), (at(1) + 16, 1), (at(2) + 1, 6), (at(2) + 2, 1), (at(7) + 1, 1), (at(96) + 16, 255)];
    for (place, byte) in [&partitions[..], &values].concat() {
        assert_eq!(with_byte(place, byte), 9, "byte {place} set to {byte}");
    }
    // Contents of kinds 2 and 3 are free, and an external object may be in any existing partition.
    for (place, byte) in [(at(5) + 1, 255), (at(6) + 16, 1), (at(5), 2), (at(5), 0), (3, 2)] {
        assert_eq!(with_byte(place, byte), 0, "byte {place} set to {byte}");
    }
}

#[test]
fn question_10_wherever_a_record_is_cut() {
    let raw = [&[1, 1, 2, 2, 0, 0, 6, 1][..], &[9; 16]].concat();
    let records = [
        &raw[..],
        &[3, 1, 2, 2, 0, 6, 5],
        &[5, 3],
        &[13, 4],
        &[14, 1],
        &[15, 1],
        &[6, 2],
        &[7, 2, 1],
        &[9, 1, 1, 5],
        &[11, 2],
        &[12, 1, 1, 5],
    ];
    for record in records {
        let mut desk = desk_after_seven();
        for length in 0..record.len() {
            assert_eq!(desk.record(&record[..length]), 10, "{record:?} {length}");
        }
        assert_eq!(desk.record(&[record, &[0]].concat()), 10);
        assert_ne!(desk.record(record), 10);
    }
}

#[test]
fn question_10_by_codes_numbers_counts_and_forms() {
    let mut desk = desk_after_seven();
    let unreadable: [&[u8]; 14] = [
        &[0],
        &[16, 1],
        &[17, 1],
        &[14, 129, 0],
        &[143, 0, 1],
        &[13, 131, 0],
        &[141, 0, 3],
        &[5, 131, 0],
        &[5, 131, 128, 0],
        &[5, 129, 128, 128, 0],
        &[1, 1, 0],
        &[1, 1, 1, 2, 2, 0],
        &[133, 0, 3],
        &[140, 1, 1],
    ];
    for record in unreadable {
        assert_eq!(desk.record(record), 10, "{record:?}");
    }
}

#[test]
fn questions_11_to_20_of_a_record() {
    let mut desk = desk_after_seven();
    let refused: [(&[usize], u32); 27] = [
        (&[5, 0], 11),
        (&[5, 64], 11),
        (&[7, 3, 1], 11),
        (&[8, 0, 1], 11),
        (&[12, 1, 1, 7], 11),
        (&[1, 1, 1, 2, 0, 6], 11),
        (&[3, 1, 1, 0, 2], 11),
        (&[3, 1, 1, 2, 65_535], 11),
        (&[1, 1, 2, 2, 0, 3, 2, 0, 0], 12),
        (&[3, 1, 2, 5, 6, 6, 6], 12),
        (&[9, 1, 2, 5, 5], 12),
        (&[1, 1, 1, 6, 0, 0], 13),
        (&[3, 1, 1, 1, 0], 13),
        (&[3, 1, 1, 2, 6], 13),
        (&[12, 1, 1, 6], 13),
        (&[5, 1], 14),
        (&[6, 3], 14),
        (&[7, 2, 3], 14),
        (&[12, 3, 1, 5], 14),
        (&[6, 1], 15),
        (&[7, 1, 2], 16),
        (&[10, 2], 16),
        (&[9, 2, 1, 5], 16),
        (&[12, 2, 1, 5], 17),
        (&[3, 1, 1, 4, 0], 17),
        (&[4, 1, 1, 5, 0], 18),
        (&[2, 2, 1, 4, 0, 0], 18),
    ];
    for (record, number) in refused {
        assert_eq!(desk.numbers(record), number, "{record:?}");
    }
    assert_eq!(desk.numbers(&[1, 1, 1, 2, 0, 5]), 19);
    assert_eq!(desk.numbers(&[12, 1, 1, 5]), 20);
}

#[test]
fn code_13_needs_a_partition_that_was_never_used() {
    let mut desk = desk_after_seven();
    for (partition, answer) in [(0, 11), (64, 11), (70, 11), (65_535, 11), (1, 14), (2, 14), (3, 0), (3, 14), (63, 0)] {
        assert_eq!(desk.numbers(&[13, partition]), answer, "{partition}");
    }
    assert_eq!((desk.state[1], desk.state[3], desk.state[63]), (1, 3, 3));
}

#[test]
fn refusals_change_nothing_in_generated_calls() {
    let mut calls = Calls::new(11);
    let mut seen = [0; 24];
    for _ in 0..20_000 {
        let call = calls.next_call();
        let (number, state, answer) = run(&call);
        seen[number as usize] += 1;
        assert!(number == 0 || (state == call.state && answer == call.answer), "{number} {call:?}");
        calls.carry(&call, &state);
    }
    assert!(seen.iter().all(|count| *count >= 20), "{seen:?}");
}

fn run(call: &Call) -> (u32, Vec<u8>, Vec<u8>) {
    let (mut state, mut answer) = (call.state.clone(), call.answer.clone());
    let number = match call.function {
        Function::LoadCheck => load_check(&call.line),
        Function::Fresh => fresh(&call.line, &mut state),
        Function::Operate => operate(&call.line, &mut state, &call.record, &mut answer),
    };
    (number, state, answer)
}
