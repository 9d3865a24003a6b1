//! Green zones (request N5), by hand: each clause of the green rule alone and just inside, the stricter 20, the order
//! of the questions, and areas that no list of calls reaches.

mod common;

use common::Desk;
use reference::closure::closure;
use reference::faults::{self, GREEN_UNREACHED};
use reference::gate::judge;
use reference::load;
use reference::state::State;
use reference::tokens::row;

/// Objects: 1 and 2 are device 1's hardcoded descriptor and what it reads; 3 is an external descriptor, 4 external
/// data, 5 a function descriptor of driver 1; 6 and 7 are data and a descriptor of driver 2, 8 is external data; 9 and
/// 10 are device 2's hardcoded descriptor and what it reads; 11 is driver 1's data.
const OBJECTS: [[usize; 3]; 11] = [
    [4, 2, 1],
    [1, 2, 1],
    [1, 0, 0],
    [3, 0, 0],
    [2, 1, 1],
    [3, 1, 2],
    [1, 1, 2],
    [3, 0, 0],
    [4, 2, 2],
    [1, 2, 2],
    [3, 1, 1],
];

/// The values by what they do, in a zone with 1 to 5 and 11 in it: 1 and 2 are the devices' own.
const GOOD: usize = 3;
const WRITES: usize = 4;
const WRITES_AND_READS: usize = 5;
const HARDCODED: usize = 6;
const ELSEWHERE: usize = 7;
const READS_ELSEWHERE: usize = 8;
const IN_NONE: usize = 9;
const LAST_OF_SIX: usize = 10;
const READS_HEAD: usize = 11;
const EMPTY: usize = 12;
const BAD: [usize; 7] = [WRITES, WRITES_AND_READS, HARDCODED, ELSEWHERE, READS_ELSEWHERE, IN_NONE, LAST_OF_SIX];

fn line() -> Vec<u8> {
    let values: [&[[usize; 3]]; 12] = [
        &[[2, 1, 0]],
        &[[10, 1, 0]],
        &[[4, 1, 0], [5, 3, 0], [3, 1, 0], [11, 2, 0]],
        &[[3, 2, 0]],
        &[[3, 3, GOOD]],
        &[[1, 1, 0]],
        &[[6, 1, 0]],
        &[[7, 1, 0]],
        &[[8, 2, 0]],
        &[[4, 3, 0], [5, 2, 0], [3, 1, 0], [2, 1, 0], [11, 1, 0], [2, 2, 0]],
        &[[2, 1, 0], [4, 3, 0]],
        &[],
    ];
    let mut numbers = vec![1, 2, 2, OBJECTS.len(), values.len()];
    numbers.extend(OBJECTS.concat());
    numbers.extend([1, 2]);
    values.iter().for_each(|entries| numbers.extend([&[entries.len()][..], &entries.concat()].concat()));
    row(&numbers)
}

/// Zone 1 is green, with driver 1, device 1 and the external objects 3 and 4; in zone 2, which is not, are driver 2 and
/// device 2. Nothing is anywhere else.
fn desk() -> Desk {
    let mut desk = Desk::new(&line());
    desk.accept(&[&[13, 1], &[5, 2], &[7, 1, 1], &[8, 1, 1], &[7, 2, 2], &[8, 2, 2], &[9, 1, 2, 3, 4]]);
    desk
}

/// The place of an object's record.
fn at(object: usize) -> usize {
    96 + 17 * (object - 1)
}

/// The desk with other values in descriptors, and other standings, than calls would leave there.
fn unreached(held: &[(usize, usize)], standings: &[(usize, u8)]) -> Desk {
    let mut desk = desk();
    held.iter().for_each(|(object, value)| desk.state[at(*object) + 1] = *value as u8);
    standings.iter().for_each(|(partition, standing)| desk.state[*partition] = *standing);
    desk
}

fn answers(mut desk: Desk, rows: &[(&[usize], u32)]) {
    for (record, answer) in rows {
        assert_eq!(desk.numbers(record), *answer, "{record:?}");
    }
}

#[test]
fn each_clause_refuses_alone() {
    for object in [2, 3] {
        let mut desk = desk();
        for value in BAD {
            assert_eq!(desk.numbers(&[1, 1, 1, object, 0, value]), 22, "value {value} into {object}");
        }
        for value in [0, GOOD, READS_HEAD, EMPTY] {
            assert_eq!(desk.numbers(&[1, 1, 1, object, 0, value]), 0, "value {value} into {object}");
        }
    }
}

#[test]
fn what_comes_into_the_zone_passes() {
    let mut desk = desk();
    desk.accept(&[&[9, 1, 1, 8], &[1, 1, 1, 2, 0, IN_NONE], &[10, 2], &[7, 2, 1]]);
    desk.accept(&[&[1, 1, 1, 2, 0, ELSEWHERE], &[1, 2, 1, 3, 0, READS_ELSEWHERE]]);
    for value in [WRITES, WRITES_AND_READS, HARDCODED, LAST_OF_SIX] {
        assert_eq!(desk.numbers(&[1, 2, 1, 7, 0, value]), 22, "value {value}");
    }
}

/// In zone 2 the same values pass where no device reads them, and 19 refuses them where one does.
#[test]
fn other_zones_are_searched_as_before() {
    for value in BAD {
        let mut desk = desk();
        assert_eq!(desk.numbers(&[1, 2, 1, 7, 0, value]), 0, "value {value}");
        // Zone 2 is where driver 2's objects are.
        let copied = if [ELSEWHERE, READS_ELSEWHERE].contains(&value) { 0 } else { 19 };
        assert_eq!(desk.numbers(&[3, 2, 1, 7, 10]), copied, "value {value}");
    }
}

#[test]
fn every_item_is_judged_and_bytes_are_not() {
    let bytes = |value: usize| [&[1][..], &[value; 16]].concat();
    let mut desk = desk();
    for value in BAD {
        assert_eq!(desk.numbers(&[1, 1, 2, 2, 0, GOOD, 3, 0, value]), 22);
        assert_eq!(desk.numbers(&[1, 1, 2, 3, 0, value, 2, 0, GOOD]), 22);
        // Sixteen bytes that begin like a value number, for kinds 3 and 2.
        assert_eq!(desk.numbers(&[&[1, 1, 3, 4][..], &bytes(value), &[2, 0, GOOD, 5], &bytes(value)].concat()), 0);
        assert_eq!(desk.numbers(&[&[1, 1, 2, 4][..], &bytes(value), &[3, 0, value]].concat()), 22);
        // Their copies, and reads without destination, store no value.
        assert_eq!(desk.numbers(&[3, 1, 3, 4, 5, 5, 4, 2, 0]), 0);
    }
}

#[test]
fn questions_come_in_their_order() {
    answers(
        desk(),
        &[
            (&[1, 1, 1, 3, 0, 13], 11),
            (&[1, 1, 2, 3, 0, WRITES, 3, 0, GOOD], 12),
            (&[1, 1, 1, 4, 0, WRITES], 13),
            (&[1, 1, 1, 7, 0, WRITES], 17),
            (&[1, 1, 2, 3, 0, WRITES, 10, 0, 0], 17),
            (&[1, 1, 1, 3, 0, WRITES], 22),
            (&[1, 2, 1, 3, 0, WRITES], 17),
            (&[10, 1], 0),
            (&[1, 1, 1, 3, 0, WRITES], 16),
            (&[3, 1, 1, 3, 2], 16),
        ],
    );
}

/// The line with another entry in device 1's hardcoded value.
fn with_ring(entry: [usize; 3]) -> Vec<u8> {
    let mut line = line();
    let value = 5 + 3 * OBJECTS.len() + 2;
    line.splice(value + 1..value + 4, row(&entry));
    line
}

#[test]
fn a_ring_is_any_write_to_kind_1() {
    for (entry, green, plain) in [
        ([2, 1, 0], 0, 0),
        ([2, 2, 0], 22, 0),
        ([2, 3, 0], 22, 0),
        ([2, 2, ELSEWHERE], 22, 0),
        ([2, 3, ELSEWHERE], 22, 21),
    ] {
        let mut desk = Desk::new(&with_ring(entry));
        desk.accept(&[&[13, 1], &[5, 2], &[13, 4], &[6, 4]]);
        for partition in [3, 4] {
            assert_eq!(desk.numbers(&[8, 1, partition]), 14, "{entry:?}");
        }
        assert_eq!(desk.numbers(&[8, 1, 64]), 11, "{entry:?}");
        assert_eq!(desk.numbers(&[8, 1, 1]), green, "{entry:?}");
        if green == 0 {
            desk.accept(&[&[11, 1]]);
        }
        assert_eq!(desk.numbers(&[8, 1, 2]), plain, "{entry:?}");
        let again = if plain == 0 { 16 } else { green };
        assert_eq!(desk.numbers(&[8, 1, 1]), again, "16 comes before 22: {entry:?}");
    }
}

/// A hardcoded value may write the device's own data: nothing else of it is asked.
#[test]
fn a_device_without_a_ring_comes_in_with_its_objects() {
    let line = row(&[1, 0, 1, 3, 1, 4, 2, 1, 1, 2, 1, 3, 2, 1, 1, 2, 2, 1, 0, 3, 3, 0]);
    answers(Desk::new(&line), &[(&[13, 1], 0), (&[8, 1, 1], 0), (&[11, 1], 0), (&[6, 1], 0), (&[8, 1, 1], 14)]);
}

#[test]
fn code_13_sets_3_and_nothing_else() {
    let mut desk = Desk::new(&line());
    for (record, standing) in [([13, 63], 3), ([6, 63], 2)] {
        let mut expected = desk.state.clone();
        expected[63] = standing;
        desk.accept(&[&record]);
        assert_eq!(desk.state, expected);
    }
    answers(
        desk,
        &[
            (&[13, 63], 14),
            (&[5, 63], 14),
            (&[5, 1], 0),
            (&[13, 1], 14),
            (&[13, 2], 0),
            (&[13, 2], 14),
            (&[5, 2], 14),
            (&[7, 1, 2], 0),
            (&[6, 2], 15),
            (&[10, 1], 0),
            (&[6, 2], 0),
            (&[7, 1, 2], 14),
            (&[9, 2, 1, 4], 14),
            (&[12, 2, 1, 4], 14),
            (&[6, 2], 14),
        ],
    );
}

/// Values that descriptors hold, a record, and its answer where zone 1 is green.
type Leaving<'a> = (&'a [(usize, usize)], &'a [usize], u32);

/// What leaves zone 1, or zone 1 made as one that is not green, when these descriptors hold these values.
fn leaving(create: usize, held: &[(usize, usize)], record: &[usize]) -> u32 {
    let mut desk = Desk::new(&line());
    desk.accept(&[&[create, 1], &[5, 2], &[7, 1, 1], &[7, 2, 1], &[9, 1, 3, 3, 4, 8]]);
    for (object, value) in held {
        desk.accept(&[&[1, 1, 1, *object, 0, *value]]);
    }
    desk.numbers(record)
}

/// No device is active at all, so that reach names nothing.
#[test]
fn what_stays_and_names_holds_back() {
    let cases: [Leaving; 12] = [
        (&[], &[12, 1, 1, 4], 0),
        // By mode 1 and by mode 2; the descriptor is a driver's or external.
        (&[(7, GOOD)], &[12, 1, 1, 4], 20),
        (&[(3, IN_NONE)], &[12, 1, 1, 8], 20),
        (&[(3, IN_NONE)], &[12, 1, 1, 4], 0),
        // The second of two that leave, and a descriptor that leaves with what it names.
        (&[(7, IN_NONE)], &[12, 1, 2, 4, 8], 20),
        (&[(3, IN_NONE)], &[12, 1, 2, 8, 3], 0),
        (&[(3, IN_NONE), (7, IN_NONE)], &[12, 1, 2, 8, 3], 20),
        // The descriptor itself is what leaves.
        (&[(7, GOOD)], &[12, 1, 1, 3], 20),
        // Driver 1's function descriptor and data by modes 3 and 2, driver 2's data by mode 1.
        (&[(3, GOOD)], &[10, 1], 20),
        (&[(3, ELSEWHERE)], &[10, 2], 20),
        (&[(7, ELSEWHERE)], &[10, 2], 0),
        (&[(7, ELSEWHERE)], &[10, 1], 0),
    ];
    for (held, record, answer) in cases {
        assert_eq!(leaving(13, held, record), answer, "{held:?} {record:?}");
        assert_eq!(leaving(5, held, record), 0, "{held:?} {record:?}");
    }
}

/// Device 1 leaves zone 1 with its own descriptor; others that name it stay.
#[test]
fn devices_are_held_back_too() {
    answers(desk(), &[(&[1, 1, 1, 2, 0, READS_HEAD], 0), (&[11, 1], 0)]);
    answers(
        desk(),
        &[
            (&[1, 1, 1, 3, 0, READS_HEAD], 0),
            (&[11, 1], 20),
            (&[12, 1, 1, 4], 20),
            (&[12, 1, 2, 4, 3], 0),
            (&[11, 1], 0),
        ],
    );
}

/// Descriptors of another zone, and inactive ones, hold nothing back.
#[test]
fn only_descriptors_of_the_zone_hold_back() {
    answers(desk(), &[(&[1, 2, 1, 7, 0, READS_HEAD], 0), (&[12, 1, 1, 4], 0), (&[11, 1], 0)]);
    answers(desk(), &[(&[1, 1, 1, 3, 0, READS_HEAD], 0), (&[12, 1, 1, 3], 0), (&[12, 1, 1, 4], 0), (&[11, 1], 0)]);
}

/// On areas that no list of calls reaches: copies are judged by what their sources hold before the call, for every
/// destination of kind 1, and a read without destination is not judged.
#[test]
fn copies_are_judged_by_their_sources() {
    let with = |rows: &[(&[usize], u32)]| answers(unreached(&[(3, WRITES)], &[]), rows);
    with(&[(&[3, 1, 1, 3, 2], 22), (&[3, 1, 1, 3, 0], 0), (&[3, 1, 1, 3, 3], 22), (&[3, 1, 1, 2, 3], 0)]);
    with(&[(&[3, 1, 2, 2, 3, 3, 2], 22), (&[3, 1, 2, 3, 0, 2, 3], 0), (&[3, 1, 1, 3, 2], 0)]);
    with(&[(&[3, 1, 2, 3, 2, 2, 3], 22), (&[3, 1, 1, 4, 5], 0), (&[3, 1, 1, 3, 7], 17), (&[3, 1, 1, 3, 4], 13)]);
}

/// There too: no search is made in a green zone, and in others the devices of green zones count.
#[test]
fn green_zones_are_not_searched_and_their_devices_are() {
    answers(unreached(&[(2, ELSEWHERE)], &[]), &[(&[1, 1, 1, 3, 0, GOOD], 0), (&[3, 1, 1, 2, 0], 0)]);
    answers(unreached(&[(2, ELSEWHERE)], &[]), &[(&[1, 2, 1, 7, 0, 0], 19), (&[3, 2, 1, 7, 0], 19)]);
    answers(unreached(&[(2, ELSEWHERE)], &[(2, 3)]), &[(&[1, 2, 1, 7, 0, 0], 0)]);
}

/// Each fault that no session tells, by a record on such an area: the right answer and the faulty one.
#[test]
fn unreached_areas_tell_each_fault() {
    let bad_source = || unreached(&[(3, WRITES)], &[]);
    let crossing = || unreached(&[(2, ELSEWHERE)], &[]);
    let absent = || {
        let mut desk = crossing();
        desk.state[81] = 0;
        [9, 10].iter().for_each(|object| desk.state[at(*object)] = 0);
        desk
    };
    let told: [(&str, Desk, &[usize], u8, u8); 9] = [
        ("22 judges a copy by what its destination held", bad_source(), &[3, 1, 1, 3, 2], 22, 0),
        ("22 asks the first destination", bad_source(), &[3, 1, 2, 2, 3, 3, 2], 22, 0),
        ("22 not put to copies", bad_source(), &[3, 1, 1, 3, 2], 22, 0),
        ("22 judges reads without destination", bad_source(), &[3, 1, 1, 3, 0], 0, 22),
        ("19 put behind 22 in green zones", crossing(), &[1, 1, 1, 3, 0, GOOD], 0, 22),
        ("20 asks nothing of reach in green zones", unreached(&[(10, READS_HEAD)], &[]), &[12, 1, 1, 4], 20, 0),
        ("20 asks descriptors of every green zone", unreached(&[(7, READS_HEAD)], &[(2, 3)]), &[12, 1, 1, 4], 0, 20),
        ("19 asks devices that are not in green zones", crossing(), &[1, 2, 1, 7, 0, 0], 19, 0),
        ("21 not put in green zones", absent(), &[8, 2, 1], 21, 0),
    ];
    for ((name, desk, record, right, faulty), fault) in told.into_iter().zip(GREEN_UNREACHED) {
        assert_eq!(fault.name, name);
        let config = load(&desk.line).expect("the file is sound");
        let state = State::from_bytes(&config, &desk.state).expect("the length is right");
        let number = |judgement: reference::gate::Judgement| judgement.err().unwrap_or(0);
        let record = row(record);
        assert_eq!(number(judge(closure, &config, &state, &record)), right, "{name}");
        assert_eq!(number(faults::judge(&fault, &config, &state, &record)), faulty, "{name}");
    }
}
