//! The program `vectors` on cases of each kind that requests N2, N3 and N7 brought, and on those whose areas have
//! another length since N2, and another again since N6. A row's checksum is worked out here anew.

mod common;

use common::{SMALL_AREA, SMALL_LOCKS, WIDE_AREA, WIDE_LOCKS, file_l, l_with_serials};
use reference::generate::lengths::plain_line;
use reference::{load, memory};
use std::io::Write;
use std::process::{Command, Stdio};

const REFUSED: u64 = 4_294_967_296;
/// Lengths of areas: both that are needed, each with a byte less and more, and both of before there were locks.
const LENGTHS: [usize; 10] = [
    0,
    SMALL_LOCKS,
    SMALL_AREA - 1,
    SMALL_AREA,
    SMALL_AREA + 1,
    WIDE_LOCKS,
    WIDE_AREA - 1,
    WIDE_AREA,
    WIDE_AREA + 1,
    4_096,
];
/// What a case gets that is none.
const NONE: (u64, u64) = (255, 0);

/// Answers and checksums that the program prints for these cases, each a call and its bytes.
fn rows(cases: &[(u8, Vec<u8>)]) -> Vec<(u64, u64)> {
    let input: Vec<u8> =
        cases.iter().flat_map(|(call, bytes)| [&[*call][..], &two(bytes.len()), bytes].concat()).collect();
    let mut program = Command::new(env!("CARGO_BIN_EXE_vectors"))
        .stdin(Stdio::piped())
        .stdout(Stdio::piped())
        .spawn()
        .expect("the program starts");
    program.stdin.take().expect("its input").write_all(&input).expect("it reads all");
    let output = program.wait_with_output().expect("the program ends");
    assert!(output.status.success());
    let text = String::from_utf8(output.stdout).expect("plain text");
    let number = |word: Option<&str>| word.and_then(|word| word.parse().ok()).expect("three numbers");
    let rows = text.lines().zip(1..).map(|(line, place): (&str, u64)| {
        let mut words = line.split(' ');
        assert_eq!(number(words.next()), place);
        (number(words.next()), number(words.next()))
    });
    let rows: Vec<(u64, u64)> = rows.collect();
    assert_eq!(rows.len(), cases.len());
    rows
}

fn row(call: u8, bytes: Vec<u8>) -> (u64, u64) {
    rows(&[(call, bytes)])[0]
}

fn two(number: usize) -> [u8; 2] {
    [(number % 256) as u8, (number / 256) as u8]
}

fn checksum(area: &[u8]) -> u64 {
    area.iter().fold(0, |sum, byte| (sum * 31 + u64::from(*byte)) % 65_521)
}

/// A file behind its length in two bytes, an area's length, and bytes set in the area.
fn operated(line: &[u8], length: usize, patches: &[(usize, u8)]) -> Vec<u8> {
    let patches = patches.iter().flat_map(|(place, byte)| [&two(*place)[..], &[*byte]].concat());
    [&two(line.len())[..], line, &two(length)].concat().into_iter().chain(patches).collect()
}

#[test]
fn fresh_states_in_areas_of_the_length_that_the_line_needs() {
    for (objects, length) in [(0, SMALL_AREA), (96, SMALL_AREA), (97, WIDE_AREA), (192, WIDE_AREA)] {
        let line = plain_line(objects);
        let old = |length: usize| checksum(&vec![170; length]);
        let cases = [2, 5, 6].map(|call| (call, line.clone()));
        assert_eq!(rows(&cases), [(0, 0), (7, old(length - 1)), (7, old(length + 1))], "{objects}");
    }
    // A refused file has the shorter one.
    let refused = [2, 5, 6].map(|call| (call, plain_line(193)));
    let old = [SMALL_AREA, SMALL_AREA - 1, SMALL_AREA + 1].map(|length| (3, checksum(&vec![170; length])));
    assert_eq!(rows(&refused), old);
}

#[test]
fn fresh_states_in_areas_of_a_given_length() {
    let mut cases = Vec::new();
    let mut expected = Vec::new();
    for (objects, needed) in [(0, SMALL_AREA), (96, SMALL_AREA), (97, WIDE_AREA), (192, WIDE_AREA)] {
        for length in LENGTHS {
            cases.push((8, [&two(length)[..], &plain_line(objects)].concat()));
            expected.push(if length == needed { (0, 0) } else { (7, checksum(&vec![170; length])) });
        }
    }
    assert_eq!(rows(&cases), expected);
    // The values of L's two hardcoded descriptors stand in the records 1 and 3.
    let mut area = vec![0; SMALL_AREA];
    (area[97], area[131]) = (1, 2);
    assert_eq!(row(8, [&two(SMALL_AREA)[..], &file_l()].concat()), (0, checksum(&area)));
    assert_eq!(row(8, [&two(5)[..], &file_l()[..40]].concat()), (1, checksum(&[170; 5])));
    assert_eq!(rows(&[(8, vec![]), (8, vec![9]), (8, [&two(4_097)[..], &file_l()].concat())]), [NONE; 3]);
    assert_eq!(row(8, vec![0, 0]), (1, 0));
}

#[test]
fn an_operation_in_an_area_of_a_given_length() {
    let created = |length: usize, patches: &[(usize, u8)]| {
        let mut area = vec![0; length];
        patches.iter().chain(&[(1, 1)]).for_each(|(place, byte)| area[*place] = *byte);
        (0, checksum(&area))
    };
    for (objects, needed) in [(0, SMALL_AREA), (96, SMALL_AREA), (97, WIDE_AREA), (192, WIDE_AREA)] {
        for length in LENGTHS {
            let expected = if length == needed { created(length, &[]) } else { (7, 0) };
            assert_eq!(row(9, operated(&plain_line(objects), length, &[])), expected, "{objects} {length}");
        }
    }
    // One byte in record N + 1, in the last record, in a lock byte; and in the last object's contents.
    for objects in [97, 191] {
        for place in [96 + 17 * objects, 112 + 17 * objects, WIDE_LOCKS - 17, WIDE_LOCKS - 1, WIDE_LOCKS, WIDE_AREA - 1]
        {
            let expected = (9, checksum(&[vec![0; place], vec![5], vec![0; WIDE_AREA - 1 - place]].concat()));
            assert_eq!(row(9, operated(&plain_line(objects), WIDE_AREA, &[(place, 5)])), expected, "{objects} {place}");
        }
        let free = [(95 + 17 * objects, 255)];
        assert_eq!(row(9, operated(&plain_line(objects), WIDE_AREA, &free)), created(WIDE_AREA, &free));
    }
    assert_eq!(
        row(9, operated(&plain_line(0), SMALL_AREA, &[(1, 2)])),
        (14, checksum(&[vec![0, 2], vec![0; SMALL_AREA - 2]].concat()))
    );
    assert_eq!(row(9, operated(&plain_line(193), WIDE_AREA, &[])), (3, 0));
}

#[test]
fn cases_that_are_none() {
    let whole = operated(&plain_line(3), SMALL_AREA, &[(2, 1)]);
    let cut = |length: usize| (9, whole[..length].to_vec());
    let cases: Vec<(u8, Vec<u8>)> = (0..whole.len()).map(cut).collect();
    for (length, found) in rows(&cases).into_iter().enumerate() {
        // Whole up to the area's length, without a patch.
        let expected =
            if length == 2 + 14 + 2 { (0, checksum(&[vec![0, 1], vec![0; SMALL_AREA - 2]].concat())) } else { NONE };
        assert_eq!(found, expected, "{length} bytes");
    }
    let others = [
        (9, operated(&file_l(), 4_097, &[])),
        (9, operated(&file_l(), SMALL_AREA, &[(SMALL_AREA, 1)])),
        (9, operated(&file_l(), 0, &[(0, 0)])),
        (0, vec![]),
        (15, operated(&file_l(), SMALL_AREA, &[])),
    ];
    assert_eq!(rows(&others), [NONE; 5]);
}

/// A record after its length, then a file and an area.
fn with_record(record: &[u8], line: &[u8], patches: &[(usize, u8)]) -> Vec<u8> {
    [&two(record.len())[..], record, &operated(line, SMALL_AREA, patches)].concat()
}

fn area_with(patches: &[(usize, u8)]) -> Vec<u8> {
    let mut area = vec![0; SMALL_AREA];
    patches.iter().for_each(|(place, byte)| area[*place] = *byte);
    area
}

#[test]
fn an_operation_with_a_given_record() {
    // Device 2 is in partition 2, object 5 in partition 1; the values of the hardcoded descriptors stand as in a file.
    let standings = [(1, 1), (2, 1), (81, 2), (97, 1), (130, 2), (131, 2), (147, 2), (164, 1)];
    let of_l = |record: &[u8], more: &[(usize, u8)]| {
        let patches = [&standings[..], more].concat();
        (row(13, with_record(record, &file_l(), &patches)), checksum(&area_with(&patches)))
    };
    // No list of calls puts value 3, which names object 5, into device 2's descriptor. Device 1 is harmless.
    let (refused, before) = of_l(&[8, 1, 1], &[(148, 3)]);
    assert_eq!(refused, (21, before));
    for (record, number) in [(&[8, 1, 3][..], 14), (&[8, 2, 1], 16), (&[8, 1, 1, 1], 10), (&[], 10), (&[8, 3, 1], 11)] {
        let (refused, before) = of_l(record, &[(148, 3)]);
        assert_eq!(refused, (number, before), "{record:?}");
    }
    let accepted = [&standings[..], &[(80, 1), (96, 1), (113, 1)]].concat();
    assert_eq!(of_l(&[8, 1, 1], &[]).0, (0, checksum(&area_with(&accepted))));
    // A record that the case has no room for, and no length.
    assert_eq!(rows(&[(13, vec![9, 0, 8, 1, 1]), (13, vec![3])]), [NONE; 2]);
}

#[test]
fn the_first_bad_record_and_the_answer_to_an_empty_record() {
    let last = |objects: usize| 95 + 17 * objects;
    // L fresh: the values of its hardcoded descriptors stand in the records 1 and 3.
    let fresh = [(97, 1), (131, 2)];
    let with = |patch: (usize, u8)| operated(&file_l(), SMALL_AREA, &[&fresh[..], &[patch]].concat());
    let cases = [
        (operated(&file_l(), SMALL_AREA, &fresh), (0, 10)),
        (operated(&file_l(), SMALL_AREA, &fresh[..1]), (3, 9)),
        (operated(&file_l(), SMALL_AREA, &[]), (1, 9)),
        (with((0, 1)), (0, 9)),
        (with((66, 1)), (0, 9)),
        (with((198, 1)), (7, 9)),
        (with((SMALL_LOCKS - 1, 1)), (96, 9)),
        (with((SMALL_LOCKS, 1)), (0, 10)),
        (with((SMALL_LOCKS, 2)), (0, 9)),
        (with((SMALL_LOCKS + 2, 1)), (0, 9)),
        (with((SMALL_AREA - 1, 1)), (0, 9)),
        (with((97, 2)), (1, 9)),
        (operated(&plain_line(96), SMALL_AREA, &[(last(96), 7)]), (0, 10)),
        (operated(&plain_line(97), WIDE_AREA, &[(last(97), 7)]), (0, 10)),
        (operated(&plain_line(97), WIDE_AREA, &[(last(192), 7), (last(98), 7)]), (98, 9)),
        (operated(&plain_line(191), WIDE_AREA, &[(last(192), 7)]), (192, 9)),
        (operated(&plain_line(97), SMALL_AREA, &[(last(96), 7)]), (REFUSED + 7, 7)),
        (operated(&plain_line(96), WIDE_AREA, &[]), (REFUSED + 7, 7)),
        (operated(&plain_line(96), 4_096, &[]), (REFUSED + 7, 7)),
        (operated(&file_l(), 0, &[]), (REFUSED + 7, 7)),
        (operated(&plain_line(193), 0, &[]), (REFUSED + 3, 3)),
        (operated(&[], 0, &[]), (REFUSED + 1, 1)),
    ];
    let (cases, expected): (Vec<_>, Vec<_>) = cases.into_iter().map(|(bytes, row)| ((12, bytes), row)).unzip();
    assert_eq!(rows(&cases), expected);
    let none = [
        operated(&file_l(), 4_097, &[]),
        operated(&file_l(), SMALL_AREA, &[(SMALL_AREA, 1)]),
        operated(&file_l(), SMALL_AREA, &[(5, 1)])[..51].to_vec(),
        file_l(),
        vec![],
    ];
    assert_eq!(rows(&none.map(|bytes| (12, bytes))), [NONE; 5]);
}

#[test]
fn the_length_of_a_state_area() {
    let lines = [plain_line(0), plain_line(96), plain_line(97), plain_line(192), plain_line(193), vec![], file_l()];
    let cases = lines.map(|line| (10, line));
    let (small, wide) = (SMALL_AREA as u64, WIDE_AREA as u64);
    let answers = [small, small, wide, wide, REFUSED + 3, REFUSED + 1, small];
    assert_eq!(rows(&cases), answers.map(|answer| (answer, 0)));
}

#[test]
fn configurations_in_memory_of_both_layouts() {
    let case = |call: u8, places: usize, objects: usize| {
        let memory = memory::Memory::of(&load(&plain_line(objects)).expect("the file is accepted"));
        (call, [&two(600)[..], &memory.to_row(places)].concat())
    };
    let written = |objects: usize| {
        let file = plain_line(objects);
        (file.len() as u64, checksum(&[&file[..], &vec![170; 600 - file.len()]].concat()))
    };
    let refused = (REFUSED + 3, checksum(&[170; 600]));
    let cases =
        [case(7, 97, 0), case(7, 97, 96), case(7, 97, 97), case(11, 193, 96), case(11, 193, 97), case(11, 193, 192)];
    assert_eq!(rows(&cases), [written(0), written(96), refused, written(96), written(97), written(192)]);
    // A row that is longer than its memory.
    let longer = |call: u8, bytes: usize| (call, [&two(0)[..], &vec![0; bytes]].concat());
    let found = rows(&[longer(7, 1_227), longer(7, 1_228), longer(11, 1_515), longer(11, 1_516)]);
    let short = (2 * REFUSED + 5, 0);
    assert_eq!(found, [short, NONE, short, NONE]);
}

/// A case of the writer with edition and serials: an area of 600 bytes, the edition, seventeen serials, the row of the
/// other layout.
fn with_serials(edition: u8, serials: [u32; 17], row: &[u8]) -> (u8, Vec<u8>) {
    let serials: Vec<u8> = serials.iter().flat_map(|serial| serial.to_le_bytes()).collect();
    (14, [&two(600)[..], &[edition], &serials, row].concat())
}

#[test]
fn configurations_in_memory_with_edition_and_serials() {
    let l = memory::Memory::of(&load(&file_l()).expect("the file is accepted")).to_row(193);
    let serials = |first: u32, second: u32| {
        let mut serials = [u32::MAX; 17];
        (serials[1], serials[2]) = (first, second);
        serials
    };
    let written = |file: Vec<u8>| (file.len() as u64, checksum(&[&file[..], &vec![170; 600 - file.len()]].concat()));
    let refused = (REFUSED + 3, checksum(&[170; 600]));
    assert_eq!(rows(&[with_serials(1, serials(0, 0), &l)]), [written(file_l())]);
    for (first, second) in [(70_000, 0), (0, 70_000), (127, 128), (16_383, 16_384), (65_535, 65_536), (1, 2_097_151)] {
        let file = l_with_serials([first as usize, second as usize]);
        assert_eq!(rows(&[with_serials(2, serials(first, second), &l)]), [written(file)], "{first} {second}");
        assert_eq!(rows(&[with_serials(1, serials(first, second), &l)]), [refused], "{first} {second}");
    }
    for serial in [2_097_152, 2_097_153, 1 << 24, (1 << 24) + 1, 1 << 31, u32::MAX] {
        for edition in [1, 2] {
            let cases = [serials(serial, 0), serials(0, serial)].map(|serials| with_serials(edition, serials, &l));
            assert_eq!(rows(&cases), [refused; 2], "{edition} {serial}");
        }
    }
    for edition in [0, 3, 127, 128, 129, 255] {
        assert_eq!(rows(&[with_serials(edition, [0; 17], &l)]), [refused], "{edition}");
    }
}

#[test]
fn rows_with_edition_and_serials_that_are_cut_or_longer() {
    // Bytes that are missing are 0: no edition, or an edition and nothing else.
    let old = |length: usize| checksum(&vec![170; length]);
    let cut = [vec![], vec![9], vec![9, 0], vec![9, 0, 1], vec![9, 0, 2], vec![4, 0, 2], vec![9, 0, 3]];
    let written = |edition: u8| (5, checksum(&[edition, 0, 0, 0, 0, 170, 170, 170, 170]));
    let refused = |length: usize| (REFUSED + 3, old(length));
    let short = (2 * REFUSED + 5, old(4));
    let expected = [refused(0), refused(9), refused(9), written(1), written(2), short, refused(9)];
    assert_eq!(rows(&cut.map(|bytes| (14, bytes))), expected);
    let longer = |bytes: usize| (14, [&two(9)[..], &[2], &vec![0; bytes - 1]].concat());
    assert_eq!(rows(&[longer(1_584), longer(1_585)]), [written(2), NONE]);
}
