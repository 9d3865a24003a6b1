//! Readings of the papers that are easy to get wrong. The line here has a driver and two devices whose hardcoded values
//! read one descriptor each; further values come with each test.

mod common;

use common::{Desk, SMALL_AREA, desk_after_seven, file_l};
use reference::generate::Rng;
use reference::tokens::row;
use reference::{fresh, load_check};

/// An entry: object, mode, stored value.
type Entry = [usize; 3];

// Objects of the line. T1 and T2 are the descriptors that device 1 and device 2 read.
const H1: usize = 1;
const T1: usize = 2;
const H2: usize = 3;
const T2: usize = 4;
const DATA: usize = 5;
const FUNCTION: usize = 6;
const T3: usize = 7;
const MORE: usize = 8;
const OWN: usize = 9;

/// Values 1 and 2 are the hardcoded ones; those given are 3, 4 and so on.
fn line(values: &[&[Entry]]) -> Vec<u8> {
    let objects = [[4, 2, 1], [1, 2, 1], [4, 2, 2], [1, 2, 2], [3, 0, 0], [2, 0, 0], [1, 0, 0], [3, 0, 0], [3, 1, 1]];
    let mut numbers = vec![1, 1, 2, objects.len(), 2 + values.len()];
    numbers.extend(objects.concat());
    numbers.extend([1, 2]);
    for value in [&[&[[T1, 1, 0]][..], &[[T2, 1, 0]]], values].concat() {
        numbers.push(value.len());
        numbers.extend(value.concat());
    }
    row(&numbers)
}

/// Driver, device 1 and the external objects in partition 1, device 2 in `second`.
fn desk(values: &[&[Entry]], second: usize) -> Desk {
    let mut desk = Desk::new(&line(values));
    desk.accept(&[&[5, 1], &[5, 2], &[7, 1, 1], &[8, 1, 1], &[8, 2, second], &[9, 1, 4, DATA, FUNCTION, T3, MORE]]);
    desk
}

/// Sets a byte of an object's record, past all questions: 0 its partition, 1 the first content byte.
fn set(desk: &mut Desk, object: usize, place: usize, byte: u8) {
    desk.state[96 + 17 * (object - 1) + place] = byte;
}

fn contents(desk: &Desk, object: usize) -> &[u8] {
    &desk.state[96 + 17 * (object - 1) + 1..96 + 17 * object]
}

#[test]
fn numbers_of_the_file() {
    assert_eq!(load_check(&row(&[1, 0, 0, 1, 0, 1, 1])), 1, "the file ends after the class");
    assert_eq!(load_check(&row(&[1, 0, 0, 1, 0, 1, 1, 1])), 3, "a driver's object without drivers");
    assert_eq!(load_check(&row(&[1, 0, 0, 1, 1, 3, 0, 0, 1, 1, 2, 1])), 3, "a stored value that must be 0");
    assert_eq!(load_check(&row(&[1, 0, 0, 1, 1, 1, 0, 0, 1, 1, 1, 1])), 3, "the same for a read of kind 1");
    assert_eq!(load_check(&row(&[1, 0, 0, 1, 1, 1, 0, 0, 1, 1, 2, 1])), 0);
    assert_eq!(load_check(&[1, 0, 0, 0, 0, 128, 128]), 4, "malformed bytes left over");
    assert_eq!(load_check(&[129, 128, 128, 128]), 1, "no last byte, however long");
    assert_eq!(load_check(&[129, 128, 128, 0, 200]), 2);
    assert_eq!(load_check(&[240, 162, 4]), 3, "70,000");
    assert_eq!(load_check(&[128, 128, 128, 1]), 2, "2,097,152");
}

#[test]
fn the_answer_area_is_asked_about_by_every_operation() {
    let mut desk = Desk::new(&file_l());
    desk.answer = vec![0; 127];
    assert_eq!(desk.numbers(&[5, 1]), 8);
    assert_eq!(desk.numbers(&[]), 8);
    desk.state[0] = 1;
    assert_eq!(desk.numbers(&[]), 8, "8 before 9");
    desk.state.pop();
    assert_eq!(desk.numbers(&[]), 7, "7 before 8");
}

#[test]
fn a_question_is_put_to_the_whole_record_before_the_next() {
    let mut desk = desk(&[], 2);
    assert_eq!(desk.numbers(&[1, 1, 2, H1, 0, 0, 99, 0, 0]), 11);
    assert_eq!(desk.numbers(&[1, 1, 3, H1, 0, 0, T1, 0, 0, T1, 0, 0]), 12);
    assert_eq!(desk.numbers(&[1, 1, 1, DATA, 0, 9]), 11, "a value beyond K for an object that takes none");
    assert_eq!(desk.numbers(&[3, 1, 2, T1, 0, T1, 0]), 0, "sources and destination 0 may be repeated");
    assert_eq!(desk.numbers(&[3, 1, 1, 0, T1]), 11, "source 0");
    assert_eq!(desk.numbers(&[1, 0, 1, T1, 0, 0]), 11);
}

#[test]
fn copies_between_kinds_2_and_3_pass() {
    let mut desk = desk(&[], 2);
    assert_eq!(desk.record(&[&[1, 1, 1, DATA as u8, 1][..], &[7; 16]].concat()), 0);
    assert_eq!(desk.numbers(&[3, 1, 1, DATA, FUNCTION]), 0);
    assert_eq!(contents(&desk, FUNCTION), [7; 16]);
    assert_eq!(desk.answer[..16], [7; 16]);
    assert_eq!(desk.numbers(&[3, 1, 1, DATA, T3]), 13);
    assert_eq!(desk.numbers(&[3, 1, 1, H1, 0]), 13, "kind 4 as a source");
}

#[test]
fn all_sources_are_read_before_anything_is_stored() {
    let mut desk = desk(&[], 2);
    desk.record(&[&[1, 1, 1, DATA as u8, 1][..], &[7; 16]].concat());
    desk.record(&[&[1, 1, 1, MORE as u8, 1][..], &[8; 16]].concat());
    assert_eq!(desk.numbers(&[3, 1, 2, DATA, MORE, MORE, DATA]), 0);
    assert_eq!((contents(&desk, DATA), contents(&desk, MORE)), (&[8; 16][..], &[7; 16][..]));
    assert_eq!(desk.answer[..32], [[7; 16], [8; 16]].concat());
    assert_eq!(desk.answer[32..], [0; 96]);
}

#[test]
fn objects_of_a_driver_read_are_all_asked_for_their_partition() {
    let mut desk = desk(&[], 2);
    assert_eq!(desk.numbers(&[3, 1, 1, T2, 0]), 17);
    assert_eq!(desk.numbers(&[3, 1, 1, T1, T2]), 17);
    assert_eq!(desk.numbers(&[3, 1, 1, T1, T3]), 0);
}

#[test]
fn transfers_are_judged_by_the_values_before_the_call() {
    // Value 3 writes T1 with 4; value 4 writes DATA.
    let mut desk = desk(&[&[[T1, 2, 4]], &[[DATA, 2, 0]]], 2);
    desk.accept(&[&[1, 1, 1, T1, 0, 3]]);
    let both = [&[2, 1, 2, T1 as u8, 0, 4, DATA as u8, 1][..], &[9; 16]].concat();
    assert_eq!(desk.record(&both), 18);
    assert_eq!(desk.numbers(&[2, 1, 1, T1, 0, 0]), 18, "another value than the one described");
    assert_eq!(desk.numbers(&[2, 1, 1, T1, 0, 4]), 0);
    assert_eq!(desk.record(&[&[2, 1, 1, DATA as u8, 1][..], &[9; 16]].concat()), 0);
    assert_eq!(desk.numbers(&[4, 1, 1, DATA, 0]), 18, "described by write only");
}

#[test]
fn a_copy_by_a_device_needs_the_value_that_the_source_holds() {
    // Value 3: T1 may be read, T3 written with 4.
    let mut desk = desk(&[&[[T3, 2, 4], [T3, 1, 0]], &[]], 2);
    desk.accept(&[&[1, 1, 1, T1, 0, 3]]);
    assert_eq!(desk.numbers(&[4, 1, 1, T1, T3]), 18, "T1 holds 3, the entry stores 4");
    desk.accept(&[&[2, 1, 1, T3, 0, 4]]);
    assert_eq!(desk.numbers(&[4, 1, 1, T3, T3]), 0, "T3 holds 4 now");
    assert_eq!(desk_after_seven().numbers(&[4, 1, 1, 2, 4]), 18);
}

#[test]
fn question_18_does_not_ask_about_partitions() {
    // An area that no list of calls reaches: T1 holds a value that writes device 2's descriptor in another partition.
    let mut desk = desk(&[&[[T2, 2, 0]]], 2);
    set(&mut desk, T1, 1, 3);
    assert_eq!(desk.numbers(&[2, 1, 1, T2, 0, 0]), 0);
    assert_eq!(desk.numbers(&[1, 1, 1, T3, 0, 0]), 19);
}

#[test]
fn the_closure_is_over_pairs_and_not_over_states() {
    // 3 puts 4 or 5 into T1; 5 writes T3 with 6; 4 reads T3; 6 leaves the partition. No one state has all of it.
    let values: [&[Entry]; 4] = [&[[T1, 2, 4], [T1, 2, 5]], &[[T3, 1, 0]], &[[T3, 2, 6]], &[[T2, 1, 0]]];
    let mut desk = desk(&values, 2);
    assert_eq!(desk.numbers(&[1, 1, 1, T1, 0, 3]), 19);
    assert_eq!(desk.numbers(&[1, 1, 1, T1, 0, 4]), 0);
    assert_eq!(desk.numbers(&[1, 1, 1, T1, 0, 5]), 0);
}

#[test]
fn question_19_looks_at_every_active_device_and_at_reads_too() {
    // Device 2, in partition 2, holds a value that names DATA of partition 1.
    let mut desk = desk(&[&[[DATA, 1, 0]]], 2);
    assert_eq!(desk.numbers(&[3, 1, 1, DATA, 0]), 0);
    set(&mut desk, T2, 1, 3);
    assert_eq!(desk.numbers(&[1, 1, 1, T3, 0, 0]), 19);
    assert_eq!(desk.numbers(&[3, 1, 1, DATA, 0]), 19);
}

#[test]
fn question_19_looks_at_the_state_that_would_follow() {
    let mut desk = desk(&[&[[T2, 1, 0]]], 2);
    set(&mut desk, T1, 1, 3);
    assert_eq!(desk.numbers(&[3, 1, 1, DATA, 0]), 19);
    assert_eq!(desk.numbers(&[1, 1, 1, T1, 0, 0]), 0, "the write mends it");
    assert_eq!(desk.numbers(&[1, 1, 1, T1, 0, 3]), 19);
}

#[test]
fn kind_4_is_outside_even_at_home() {
    let mut desk = desk(&[&[[H1, 1, 0]], &[[H1, 2, 0]]], 2);
    assert_eq!(desk.numbers(&[1, 1, 1, T1, 0, 3]), 19);
    assert_eq!(desk.numbers(&[1, 1, 1, T1, 0, 4]), 19);
}

#[test]
fn entries_of_any_mode_name_their_object_in_20() {
    for mode in 1..=3 {
        let mut desk = desk(&[&[[DATA, mode, 0], [OWN, mode, 0]]], 2);
        desk.accept(&[&[1, 1, 1, T1, 0, 3]]);
        assert_eq!(desk.numbers(&[12, 1, 1, DATA]), 20);
        assert_eq!(desk.numbers(&[12, 1, 2, MORE, DATA]), 20);
        assert_eq!(desk.numbers(&[10, 1]), 20);
        assert_eq!(desk.numbers(&[12, 1, 1, MORE]), 0);
        assert_eq!(desk.numbers(&[11, 1]), 0, "its own entries do not hold a device back");
        assert_eq!(desk.numbers(&[10, 1]), 0);
    }
}

#[test]
fn pairs_of_the_device_that_leaves_count_for_the_others() {
    // Both devices are in 1. Device 1 may put 4 into T3; device 2 reads T3; 4 names device 1's descriptor.
    let mut desk = desk(&[&[[T3, 2, 4]], &[[T1, 1, 0]], &[[T3, 1, 0]]], 1);
    desk.accept(&[&[1, 1, 1, T2, 0, 5]]);
    assert_eq!(desk.numbers(&[1, 1, 1, T1, 0, 3]), 0);
    assert_eq!(desk.numbers(&[11, 1]), 20);
    desk.accept(&[&[1, 1, 1, T1, 0, 0], &[11, 1]]);
}

#[test]
fn question_20_is_put_on_the_state_before() {
    let mut desk = desk(&[&[[T1, 1, 0]]], 1);
    desk.accept(&[&[1, 1, 1, T2, 0, 3]]);
    assert_eq!(desk.numbers(&[11, 1]), 20);
    assert_eq!(desk.numbers(&[11, 2]), 0);
    assert_eq!(desk.numbers(&[11, 1]), 0);
}

#[test]
fn a_pair_put_to_an_inactive_descriptor_is_collected() {
    // An area that no list of calls reaches: T3 is inactive, value 3 writes and reads it, value 4 names DATA.
    let mut desk = desk(&[&[[T3, 3, 4]], &[[DATA, 1, 0]]], 2);
    set(&mut desk, T1, 1, 3);
    set(&mut desk, T3, 0, 0);
    assert_eq!(desk.numbers(&[12, 1, 1, DATA]), 20);
    assert_eq!(desk.numbers(&[12, 1, 1, MORE]), 0);
}

#[test]
fn another_devices_hardcoded_descriptor_is_read_while_it_is_active() {
    // An area that no list of calls reaches: device 1 reads device 2's hardcoded descriptor, and T2 by it.
    let mut desk = desk(&[&[[H2, 1, 0]]], 2);
    set(&mut desk, T1, 1, 3);
    assert_eq!(desk.numbers(&[4, 1, 1, T2, 0]), 0);
    assert_eq!(desk.numbers(&[11, 2]), 20, "its kind 4 object is concerned too");
    desk.state[81] = 0;
    set(&mut desk, H2, 0, 0);
    set(&mut desk, T2, 0, 0);
    assert_eq!(desk.numbers(&[4, 1, 1, T2, 0]), 18);
}

#[test]
fn activation_clears_and_deactivation_keeps() {
    let mut desk = desk(&[], 2);
    desk.record(&[&[1, 1, 1, DATA as u8, 1][..], &[7; 16]].concat());
    desk.accept(&[&[1, 1, 1, T1, 0, 1], &[12, 1, 1, DATA], &[11, 1]]);
    assert_eq!((contents(&desk, DATA), contents(&desk, T1)[0]), (&[7; 16][..], 1));
    desk.accept(&[&[9, 2, 1, DATA], &[8, 1, 2]]);
    assert_eq!((contents(&desk, DATA), contents(&desk, T1)[0]), (&[0; 16][..], 0));
    assert_eq!(contents(&desk, H1)[0], 1, "kind 4 is not cleared");
}

#[test]
fn a_destroyed_partition_is_not_new() {
    let mut desk = Desk::new(&file_l());
    desk.accept(&[&[5, 7], &[6, 7]]);
    for record in [&[5, 7][..], &[6, 7], &[7, 1, 7], &[9, 7, 1, 5], &[12, 7, 1, 5]] {
        assert_eq!(desk.numbers(record), 14);
    }
    assert_eq!(desk.state[7], 2);
}

#[test]
fn fresh_overwrites_whatever_the_area_held() {
    let mut state = Rng::new(1).bytes(SMALL_AREA);
    assert_eq!(fresh(&file_l(), &mut state), 0);
    let mut expected = vec![0; SMALL_AREA];
    (expected[97], expected[96 + 34 + 1]) = (1, 2);
    assert_eq!(state, expected);
}

/// The line with another value for device 1's hardcoded descriptor; values 3, 4 and so on are those given.
fn ring_desk(hardcoded: &[Entry], values: &[&[Entry]]) -> Desk {
    let numbers = |entries: &[Entry]| [&[entries.len()][..], &entries.concat()].concat();
    let plain = numbers(&[[T1, 1, 0]]);
    let mut line = line(values);
    // The counts, nine objects of three numbers, and two hardcoded values stand before the first value.
    let place = 5 + 9 * 3 + 2;
    line.splice(place..place + plain.len(), row(&numbers(hardcoded)));
    let mut desk = Desk::new(&line);
    desk.accept(&[&[5, 1], &[5, 2]]);
    desk
}

#[test]
fn a_ring_is_judged_by_where_it_leads() {
    // 3 puts 4 into T3, an external descriptor, and reads it; 4 names DATA.
    let mut desk = ring_desk(&[[T1, 3, 3]], &[&[[T3, 3, 4]], &[[DATA, 1, 0]]]);
    assert_eq!(desk.numbers(&[8, 1, 1]), 21, "T3 is in none");
    desk.accept(&[&[9, 1, 1, T3]]);
    assert_eq!(desk.numbers(&[8, 1, 1]), 21, "DATA is in none");
    desk.accept(&[&[9, 2, 1, DATA]]);
    assert_eq!(desk.numbers(&[8, 1, 1]), 21, "DATA is elsewhere");
    desk.accept(&[&[12, 2, 1, DATA], &[9, 1, 1, DATA], &[8, 1, 1]]);
    assert_eq!(desk.numbers(&[12, 1, 1, DATA]), 20);
    assert_eq!(desk.numbers(&[12, 1, 1, T3]), 20);
}

#[test]
fn a_ring_describes_its_own_writes() {
    let mut desk = ring_desk(&[[T1, 3, 3]], &[&[[T1, 3, 4]], &[]]);
    desk.accept(&[&[8, 1, 1]]);
    assert_eq!(desk.numbers(&[2, 1, 1, T1, 0, 4]), 18, "nothing describes it yet");
    desk.accept(&[&[2, 1, 1, T1, 0, 3], &[2, 1, 1, T1, 0, 4]]);
    assert_eq!(desk.numbers(&[2, 1, 1, T1, 0, 0]), 18, "a hardcoded value puts what it says and nothing else");
    desk.accept(&[&[2, 1, 1, T1, 0, 3], &[4, 1, 1, T1, 0]]);
    assert_eq!(desk.numbers(&[4, 1, 1, T1, T1]), 0, "it holds 3, which the ring puts there");
}

#[test]
fn a_ring_that_is_not_read_leads_nowhere_until_it_is() {
    // T1 is written with 3, which names device 2's descriptor.
    let mut desk = ring_desk(&[[T1, 2, 3]], &[&[[T2, 1, 0]]]);
    desk.accept(&[&[8, 1, 1], &[2, 1, 1, T1, 0, 3]]);
    assert_eq!(desk.numbers(&[4, 1, 1, T1, 0]), 18);
    desk.accept(&[&[11, 1], &[8, 1, 2]]);
}

#[test]
fn a_ring_of_six_entries() {
    // Two values are put into T1: 3 is harmless, and 4 names DATA.
    let six = [[T1, 2, 4], [T1, 2, 3], [T1, 1, 0], [T1, 3, 3], [T1, 3, 0], [T1, 2, 0]];
    let mut desk = ring_desk(&six, &[&[], &[[DATA, 2, 0]]]);
    assert_eq!(desk.numbers(&[8, 1, 1]), 21);
    desk.accept(&[&[9, 1, 1, DATA], &[8, 1, 1]]);
    desk.accept(&[&[2, 1, 1, T1, 0, 4], &[2, 1, 1, T1, 0, 3], &[2, 1, 1, T1, 0, 0]]);
    assert_eq!(desk.numbers(&[12, 1, 1, DATA]), 20);
}

#[test]
fn a_descriptor_and_hardcoded_value_0_make_no_ring() {
    let mut desk = ring_desk(&[], &[&[[T2, 1, 0]]]);
    set(&mut desk, T1, 1, 3);
    desk.accept(&[&[8, 1, 1], &[11, 1], &[8, 1, 2]]);
    assert_eq!(desk.numbers(&[4, 1, 1, T1, 0]), 18);
}

#[test]
fn what_a_ring_puts_counts_for_every_device_that_reads_it() {
    // The ring puts 3 into T1, which puts 4 into T3 and does not read it. Device 2 reads T3; 4 names MORE.
    let mut desk = ring_desk(&[[T1, 3, 3]], &[&[[T3, 2, 4]], &[[MORE, 1, 0]], &[[T3, 1, 0]]]);
    desk.accept(&[&[7, 1, 1], &[8, 2, 1], &[9, 1, 1, T3], &[1, 1, 1, T2, 0, 5]]);
    assert_eq!(desk.numbers(&[8, 1, 1]), 21, "device 2 would be outside");
    desk.accept(&[&[9, 1, 1, MORE], &[8, 1, 1]]);
    assert_eq!(desk.numbers(&[12, 1, 1, MORE]), 20);
    desk.accept(&[&[11, 1], &[12, 1, 1, MORE]]);
}

#[test]
fn what_a_device_held_is_cleared_before_21_is_put() {
    let mut desk = ring_desk(&[[T1, 3, 0]], &[&[[DATA, 1, 0]]]);
    desk.accept(&[&[7, 1, 1], &[8, 1, 1], &[9, 1, 1, DATA], &[1, 1, 1, T1, 0, 3], &[11, 1], &[12, 1, 1, DATA]]);
    assert_eq!(contents(&desk, T1)[0], 3);
    desk.accept(&[&[8, 1, 1]]);
}

#[test]
fn question_21_looks_at_every_active_device() {
    // An area that no list of calls reaches: device 2, in partition 2, holds a value that names DATA of partition 1.
    // Device 1 has no ring and is harmless.
    let mut desk = desk(&[&[[DATA, 1, 0]]], 2);
    desk.accept(&[&[11, 1]]);
    set(&mut desk, T2, 1, 3);
    assert_eq!(desk.numbers(&[8, 1, 1]), 21);
    assert_eq!(desk.numbers(&[8, 1, 2]), 21);
    set(&mut desk, T2, 1, 0);
    assert_eq!(desk.numbers(&[8, 1, 2]), 0);
}
