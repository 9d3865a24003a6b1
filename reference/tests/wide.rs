//! Request N2: up to 192 objects, two lengths of state areas, numbers of two bytes. Numbers are written out here.

mod common;

use common::{Desk, SMALL_AREA, WIDE_AREA, file_l};
use reference::config::load;
use reference::generate::lengths::{EDGES, LONGEST_AREA, areas, cuts, plain_line, wide_worlds};
use reference::generate::{Call, Function, Rng};
use reference::tokens::row;
use reference::{Memory, Written, fresh, load_check, operate, report, rewriting, state_bytes, write};

const REFUSED: u64 = 4_294_967_296;

/// Where an object's record begins.
fn at(object: usize) -> usize {
    96 + 17 * (object - 1)
}

/// A call's answer; a refusal must leave both areas as they were.
fn answer(call: &Call) -> u32 {
    let (mut state, mut answer) = (call.state.clone(), call.answer.clone());
    let number = match call.function {
        Function::LoadCheck => load_check(&call.line),
        Function::Fresh => fresh(&call.line, &mut state),
        Function::Operate => operate(&call.line, &mut state, &call.record, &mut answer),
    };
    assert!(number == 0 || (state == call.state && answer == call.answer), "refusal {number} changed an area");
    number
}

#[test]
fn the_table_of_lengths() {
    let lengths = [SMALL_AREA - 1, SMALL_AREA, SMALL_AREA + 1, WIDE_AREA - 1, WIDE_AREA, WIDE_AREA + 1];
    let rows = [(0, [7, 0, 7, 7, 7, 7]), (96, [7, 0, 7, 7, 7, 7]), (97, [7, 7, 7, 7, 0, 7]), (192, [7, 7, 7, 7, 0, 7])];
    for (objects, answers) in rows {
        let line = plain_line(objects);
        for (length, expected) in lengths.into_iter().zip(answers) {
            let mut area = vec![9; length];
            assert_eq!(fresh(&line, &mut area), expected, "{objects} objects, {length} bytes");
            assert_eq!(area, vec![if expected == 0 { 0 } else { 9 }; length]);
            let mut area = vec![0; length];
            assert_eq!(
                operate(&line, &mut area, &[5, 63], &mut [0; 128]),
                expected,
                "{objects} objects, {length} bytes"
            );
            assert_eq!(area.get(63), Some(&u8::from(expected == 0)));
        }
    }
}

#[test]
fn areas_of_every_length() {
    for (objects, needed) in EDGES.into_iter().zip([SMALL_AREA, SMALL_AREA, WIDE_AREA, WIDE_AREA]) {
        let calls: Vec<Call> = areas(&mut Rng::new(1), objects).collect();
        assert_eq!((calls.len(), calls[calls.len() - 1].state.len()), (2 * LONGEST_AREA + 2, 4_096));
        for call in calls {
            let expected = if call.state.len() == needed { 0 } else { 7 };
            assert_eq!(answer(&call), expected, "{objects} objects, {} bytes", call.state.len());
        }
    }
}

#[test]
fn a_file_comes_before_the_areas_length() {
    let refused: [(Vec<u8>, u32); 4] = [
        (plain_line(192)[..300].to_vec(), 1),
        ([vec![1, 0, 0, 193, 0], vec![0; 900]].concat(), 2),
        (plain_line(193), 3),
        ([plain_line(192), vec![0]].concat(), 4),
    ];
    for (line, number) in refused {
        for length in [0, SMALL_AREA, WIDE_AREA, 4_096] {
            assert_eq!(fresh(&line, &mut vec![0; length]), number);
            assert_eq!(operate(&line, &mut vec![0; length], &[5, 1], &mut [0; 128]), number);
        }
        assert_eq!(state_bytes(&line), REFUSED + u64::from(number));
    }
}

#[test]
fn state_bytes_tells_the_length_or_the_question() {
    for objects in 0..=192 {
        let needed = if objects <= 96 { SMALL_AREA } else { WIDE_AREA };
        assert_eq!(state_bytes(&plain_line(objects)), needed as u64, "{objects}");
    }
    assert_eq!(state_bytes(&file_l()), SMALL_AREA as u64);
    assert_eq!(state_bytes(&[]), REFUSED + 1);
    assert_eq!(state_bytes(&[129, 0]), REFUSED + 2);
    assert_eq!(state_bytes(&[3]), REFUSED + 3);
    assert_eq!(state_bytes(&[file_l(), vec![0]].concat()), REFUSED + 4);
    assert_eq!(state_bytes(&row(&[1, 0, 1, 0, 0, 0])), REFUSED + 5);
    assert_eq!(state_bytes(&row(&[1, 0, 1, 2, 1, 4, 2, 1, 3, 0, 0, 1, 1, 2, 1, 0])), REFUSED + 6);
}

#[test]
fn n_goes_up_to_192() {
    for objects in [96, 97, 127, 128, 191, 192] {
        assert_eq!(load_check(&plain_line(objects)), 0, "{objects}");
    }
    for objects in [193, 194, 255, 256, 65_535, 65_536, 2_097_151] {
        assert_eq!(load_check(&plain_line(objects)), 3, "{objects}");
        assert_eq!(load_check(&row(&[1, 0, 0, objects])), 3, "{objects}");
    }
}

#[test]
fn numbers_of_two_bytes_in_a_file() {
    let line = |objects: usize, named: usize| {
        row(&[&[1, 0, 0, objects, 1][..], &[3, 0, 0].repeat(objects), &[1, named, 1, 0]].concat())
    };
    assert_eq!(line(192, 192)[..6], [1, 0, 0, 192, 1, 1]);
    assert_eq!(line(192, 192)[6 + 576..], [1, 192, 1, 1, 0]);
    for objects in [97, 127, 128, 191, 192] {
        assert_eq!(load_check(&line(objects, objects)), 0, "{objects}");
        assert_eq!(load_check(&line(objects, objects + 1)), 3, "{objects}");
        assert_eq!(load(&line(objects, objects)).map(|config| config.values[0][0].object), Ok(objects));
    }
    // 65 in two bytes, and 192 in three.
    let with = |bytes: &[u8]| [&row(&[1, 0, 0, 192, 1])[..], &[3, 0, 0].repeat(192), &[1], bytes, &[1, 0]].concat();
    assert_eq!(load_check(&with(&[192, 1])), 0);
    assert_eq!(load_check(&with(&[193, 0])), 2);
    assert_eq!(load_check(&with(&[192, 129, 0])), 2);
    assert_eq!(load_check(&with(&[193, 1])), 3);
}

#[test]
fn wide_files_cut_anywhere() {
    for world in wide_worlds(&mut Rng::new(2)) {
        for call in cuts(&world) {
            let whole = call.line == world.line;
            assert_eq!(answer(&call), u32::from(!whole), "{} of {} bytes", call.line.len(), world.line.len());
            assert_eq!(state_bytes(&call.line), if whole { WIDE_AREA as u64 } else { REFUSED + 1 });
        }
    }
}

/// A driver and a device in partition 1. The device owns all objects but the last, which is external; its hardcoded
/// descriptor is the first and reads the second. Value 1 is the hardcoded one, those given are 2, 3 and so on.
fn desk(objects: usize, last_kind: usize, values: &[Vec<[usize; 3]>]) -> Desk {
    let mut numbers = vec![1, 1, 1, objects, 1 + values.len(), 4, 2, 1];
    (2..objects).for_each(|_| numbers.extend([1, 2, 1]));
    numbers.extend([last_kind, 0, 0, 1, 1, 2, 1, 0]);
    for value in values {
        numbers.push(value.len());
        numbers.extend(value.concat());
    }
    let mut desk = Desk::new(&row(&numbers));
    desk.accept(&[&[5, 1], &[7, 1, 1], &[8, 1, 1]]);
    desk
}

#[test]
fn a_chain_of_forty_that_ends_at_object_192() {
    // Value k + 1 puts k + 2 into object 150 + k, for k from 1 to 39; the last names object 192.
    let chain = |missing: usize| {
        let link = |k: usize| vec![[150 + k, if k == missing { 2 } else { 3 }, k + 2]];
        (1..40).map(link).chain([vec![[192, 1, 0]]]).collect::<Vec<_>>()
    };
    for objects_missing in [1, 20, 39] {
        assert_eq!(desk(192, 3, &chain(objects_missing)).numbers(&[1, 1, 1, 2, 0, 2]), 0, "{objects_missing}");
    }
    let mut desk = desk(192, 3, &chain(0));
    assert_eq!(desk.numbers(&[1, 1, 1, 2, 0, 2]), 19, "a chain of forty");
    assert_eq!(desk.numbers(&[1, 1, 1, 2, 0, 41]), 19);
    desk.accept(&[&[9, 1, 1, 192], &[1, 1, 1, 2, 0, 2]]);
    assert_eq!(desk.numbers(&[12, 1, 1, 192]), 20);
    desk.accept(&[&[1, 1, 1, 2, 0, 0], &[12, 1, 1, 192]]);
    assert_eq!(desk.numbers(&[1, 1, 1, 2, 0, 2]), 19);
}

#[test]
fn records_name_objects_by_two_bytes() {
    let mut desk = desk(192, 3, &[vec![[191, 3, 2], [192, 3, 0]], vec![[64, 1, 0]]]);
    assert_eq!(desk.record(&[9, 1, 1, 192, 1]), 0);
    assert_eq!((desk.state[at(192)], desk.state[at(64)]), (1, 1));
    assert_eq!(desk.record(&[&[1, 1, 1, 192, 1, 1][..], &[7; 16]].concat()), 0);
    assert_eq!((&desk.state[at(192) + 1..at(193)], desk.state[at(64) + 1]), (&[7; 16][..], 0));
    desk.accept(&[&[1, 1, 1, 2, 0, 2], &[2, 1, 1, 191, 0, 2], &[4, 1, 2, 191, 0, 192, 0]]);
    assert_eq!((desk.state[at(191) + 1], desk.state[at(63) + 1]), (2, 0));
    assert_eq!((desk.answer[0], &desk.answer[16..32]), (2, &[7; 16][..]));
    desk.accept(&[&[1, 1, 1, 190, 0, 3], &[3, 1, 1, 190, 189]]);
    assert_eq!((desk.state[at(189) + 1], desk.state[at(61) + 1]), (3, 0));
    let refused: [(&[usize], u32); 6] = [
        (&[1, 1, 1, 193, 0, 0], 11),
        (&[3, 1, 1, 191, 193], 11),
        (&[12, 1, 1, 320], 11),
        (&[1, 1, 2, 191, 0, 0, 191, 0, 0], 12),
        (&[3, 1, 1, 191, 192], 13),
        (&[9, 1, 1, 192], 16),
    ];
    for (record, number) in refused {
        assert_eq!(desk.numbers(record), number, "{record:?}");
    }
    assert_eq!(desk.record(&[12, 1, 1, 192, 129, 0]), 10, "192 in three bytes");
    assert_eq!(desk.record(&[12, 1, 1, 192]), 10, "192 without its last byte");
}

#[test]
fn the_longest_record() {
    // Sixteen drivers, and objects of kind 3 that the last of them owns.
    let line = row(&[&[1, 16, 0, 192, 0][..], &[3, 1, 16].repeat(192)].concat());
    let items: Vec<u8> = (185..=192).flat_map(|object| [&[object, 1, 1][..], &[object; 16]].concat()).collect();
    let record = [&[1, 16, 8][..], &items].concat();
    assert_eq!(record.len(), 155);
    let mut desk = Desk::new(&line);
    desk.accept(&[&[5, 1], &[7, 16, 1]]);
    assert_eq!(desk.record(&record), 0);
    assert_eq!((desk.state[at(185) + 1], desk.state[at(192) + 16]), (185, 192));
    let session = [&[2, 5, 1, 3, 7, 16, 1, 155, 1][..], &record].concat();
    assert_eq!(report(&line, &session), b"1 0\n2 0\n3 0\n");
}

#[test]
fn offsets_are_the_same_in_both_areas() {
    for objects in [96, 97, 192] {
        let mut desk = desk(objects, 3, &[]);
        assert_eq!((desk.state[1], desk.state[64], desk.state[80]), (1, 1, 1));
        assert_eq!((desk.state[at(1)], desk.state[at(1) + 1]), (1, 1));
        assert_eq!(desk.state[at(objects)], 0);
        desk.accept(&[&[9, 1, 1, objects]]);
        assert_eq!(desk.state[at(objects)], 1);
        assert_eq!(desk.state.iter().map(|byte| usize::from(*byte)).sum::<usize>(), 3 + 1 + objects);
    }
}

#[test]
fn absent_records_of_the_wide_area() {
    for objects in [97, 128, 191, 192] {
        let line = plain_line(objects);
        for place in at(objects + 1)..WIDE_AREA {
            let mut area = vec![0; WIDE_AREA];
            area[place] = 1;
            assert_eq!(operate(&line, &mut area, &[5, 1], &mut [0; 128]), 9, "{objects} objects, byte {place}");
        }
        // The last object's own record: its contents are free.
        let mut area = vec![0; WIDE_AREA];
        area[at(objects) + 16] = 255;
        assert_eq!(operate(&line, &mut area, &[5, 1], &mut [0; 128]), 0, "{objects} objects");
    }
}

#[test]
fn question_15_looks_at_every_object() {
    for objects in [97, 128, 191, 192] {
        for object in 1..=objects {
            let mut desk = Desk::new(&plain_line(objects));
            desk.accept(&[&[5, 7], &[9, 7, 1, object]]);
            assert_eq!(desk.numbers(&[6, 7]), 15, "{object} of {objects}");
            desk.accept(&[&[12, 7, 1, object], &[6, 7]]);
        }
    }
}

#[test]
fn the_last_object_is_the_only_hardcoded_descriptor() {
    // Objects 1 to 95 are external, 96 is the device's descriptor and 97 its hardcoded one.
    let mut numbers = vec![1, 1, 1, 97, 2];
    numbers.extend([3, 0, 0].repeat(95));
    numbers.extend([1, 2, 1, 4, 2, 1, 1, 1, 96, 1, 0, 1, 95, 3, 0]);
    let mut desk = Desk::new(&row(&numbers));
    assert_eq!(desk.state[at(97) + 1], 1);
    desk.accept(&[&[5, 1], &[7, 1, 1], &[8, 1, 1], &[9, 1, 1, 95]]);
    assert_eq!(desk.state[at(97)], 1);
    assert_eq!(desk.numbers(&[4, 1, 1, 95, 0]), 18);
    desk.accept(&[&[4, 1, 1, 96, 0], &[1, 1, 1, 96, 0, 2], &[4, 1, 1, 95, 0]]);
    assert_eq!(desk.numbers(&[1, 1, 1, 97, 0, 0]), 13);
    assert_eq!(desk.numbers(&[12, 1, 1, 95]), 20);
    desk.accept(&[&[11, 1]]);
    assert_eq!((desk.state[at(97)], desk.state[at(97) + 1]), (0, 1));
    desk.accept(&[&[8, 1, 1], &[12, 1, 1, 95], &[11, 1], &[10, 1], &[6, 1]]);
    // Another value in its record is no well formed state.
    desk.state[at(97) + 1] = 2;
    assert_eq!(desk.numbers(&[5, 2]), 9);
}

#[test]
fn the_office_program_makes_the_area_that_the_line_needs() {
    for objects in [0, 1, 96, 97, 128, 191, 192] {
        assert_eq!(report(&plain_line(objects), &[2, 5, 1, 2, 5, 1]), b"1 0\n2 14\n", "{objects}");
    }
    assert_eq!(report(&plain_line(193), &[2, 5, 1]), b"line 3\n");
    assert_eq!(report(&plain_line(192)[..500], &[2, 5, 1]), b"line 1\n");
    let session = [2, 5, 1, 5, 9, 1, 1, 192, 1];
    assert_eq!(report(&plain_line(192), &session), b"1 0\n2 0\n");
    assert_eq!(report(&plain_line(191), &session), b"1 0\n2 11\n");
}

/// An area that every file fits into.
const ROOM: usize = 1_773;

fn in_memory(line: &[u8]) -> Memory {
    Memory::of(&load(line).expect("the file is accepted"))
}

/// The file of a sound configuration.
fn file(memory: &Memory) -> Vec<u8> {
    let mut area = vec![0; ROOM];
    match write(memory, &mut area) {
        Written::Length(length) => area[..length].to_vec(),
        other => panic!("a sound configuration is answered {other:?}"),
    }
}

#[test]
fn a_row_of_small_columns_is_laid_into_the_larger_memory() {
    let mut rng = Rng::new(15);
    let row: Vec<u8> = (0..1_227).map(|_| rng.between(1, 255) as u8).collect();
    let memory = Memory::from_row(&row, 97).expect("the row has the length of small columns");
    assert_eq!(memory.to_row(97), row);
    for (from, column) in [(4, memory.kind), (101, memory.class), (198, memory.owner)] {
        assert_eq!((&column[..97], &column[97..]), (&row[from..from + 97], &[0; 96][..]));
    }
    assert_eq!((memory.hardcoded[0], memory.count[0], memory.entries[866]), (row[295], row[312], row[1_226]));
    assert_eq!(Memory::from_row(&[row, vec![0]].concat(), 97), None);
    // What is missing at the end is 0, wherever it would stand.
    let l = in_memory(&file_l());
    assert_eq!(
        Memory::from_row(&l.to_row(97)[..500], 97),
        Memory::from_row(&[&l.to_row(97)[..500], &[0]].concat(), 97)
    );
    assert_eq!(Memory::from_row(&l.to_row(97), 97), Some(l));
    // Behind the column of a 97th object stands 0, which is no kind.
    let most = in_memory(&plain_line(96));
    assert_eq!(file(&Memory::from_row(&most.to_row(97), 97).expect("a whole row")), plain_line(96));
    let mut beyond = most.to_row(97);
    beyond[2] = 97;
    let beyond = Memory::from_row(&beyond, 97).expect("a whole row");
    assert_eq!(write(&beyond, &mut [0; ROOM]), Written::Refused(3));
}

#[test]
fn wide_files_are_written_as_themselves() {
    for objects in [97, 127, 128, 191, 192] {
        let line = row(&[&[1, 0, 0, objects, 1][..], &[3, 0, 0].repeat(objects), &[1, objects, 3, 0]].concat());
        let memory = in_memory(&line);
        assert_eq!((usize::from(memory.objects), usize::from(memory.entry(1, 1)[0])), (objects, objects));
        assert_eq!(file(&memory), line);
        assert_eq!(rewriting(&line), (String::new(), Some(line)));
    }
    assert_eq!(rewriting(&plain_line(193)), ("line 3\n".to_string(), None));
    let mut beyond = in_memory(&plain_line(192));
    beyond.objects = 193;
    assert_eq!(write(&beyond, &mut [0; ROOM]), Written::Refused(3));
}
