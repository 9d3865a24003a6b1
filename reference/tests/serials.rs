//! Serials (request N7): files of both editions, the larger limit of numbers in files, records and lengths, and that a
//! serial decides nothing.

mod common;

use common::{Desk, file_l, l_with_serials, sequence_p};
use reference::config::{RULES_BEFORE, load_by};
use reference::generate::records::record;
use reference::generate::serial_corners::BAD_FORMS;
use reference::generate::serials::{SERIALS, label};
use reference::generate::{Calls, Function, Rng, Size, Want, labelled};
use reference::limits::MAX_NUMBER_BEFORE;
use reference::operation::{read, read_up_to};
use reference::state::State;
use reference::tokens::{encode, of_config, row};
use reference::{Memory, Written, load, load_check, report, rewriting, write};

/// Numbers from 65,536 on.
const LARGE: [usize; 4] = [65_536, 65_537, 70_000, 2_097_151];
/// An area that every file fits into.
const ROOM: usize = 1_900;

#[test]
fn l_in_edition_2() {
    let line = l_with_serials([70_000, 0]);
    assert_eq!(line.len(), 49);
    assert_eq!(line[..23], [&[2], &file_l()[1..23]].concat());
    assert_eq!(line[23..29], [1, 240, 162, 4, 2, 0]);
    assert_eq!(line[29..], file_l()[25..]);
    let config = load(&line).expect("the file is accepted");
    assert_eq!((config.edition, &config.serials[..]), (2, &[70_000, 0][..]));
    let mut as_before = config;
    (as_before.edition, as_before.serials) = (1, vec![0, 0]);
    assert_eq!(load(&file_l()), Ok(as_before));
    assert_eq!(rewriting(&line), (String::new(), Some(line)));
}

#[test]
fn l_in_edition_2_answers_as_l() {
    let (mut before, mut now) = (Desk::new(&file_l()), Desk::new(&l_with_serials([70_000, 0])));
    for (record, answer) in sequence_p() {
        assert_eq!((before.numbers(&record), now.numbers(&record)), (answer, answer), "{record:?}");
        assert_eq!((&before.state, &before.answer), (&now.state, &now.answer));
    }
}

#[test]
fn large_numbers_over_l() {
    let rows: [(&[usize], u32); 6] = [
        (&[5, 70_000], 11),
        (&[70_000, 1], 10),
        (&[1, 1, 70_000, 2, 0, 3], 10),
        (&[1, 1, 1, 2, 70_000, 3], 10),
        (&[1, 1, 1, 2, 0, 70_000], 11),
        (&[8, 70_000, 1], 11),
    ];
    for (record, answer) in rows {
        for line in [file_l(), l_with_serials([70_000, 0])] {
            assert_eq!(Desk::new(&line).numbers(record), answer, "{record:?}");
        }
        assert_eq!(read_up_to(MAX_NUMBER_BEFORE, &row(record)), None, "{record:?}");
    }
}

/// A sound record of each code over L, and what each of its numbers is refused by if it is large: 10 for a code, count
/// or form, else 11. A number behind a form that nobody knows, or beyond the count, is read by nobody.
const FIELDS: [(&[usize], &[u32]); 15] = [
    (&[1, 1, 2, 2, 0, 3, 4, 0, 0], &[10, 11, 10, 11, 10, 11, 11, 10, 11]),
    (&[2, 1, 1, 2, 0, 3], &[10, 11, 10, 11, 10, 11]),
    (&[3, 1, 2, 2, 0, 5, 6], &[10, 11, 10, 11, 11, 11, 11]),
    (&[4, 1, 1, 2, 4], &[10, 11, 10, 11, 11]),
    (&[5, 1], &[10, 11]),
    (&[6, 1], &[10, 11]),
    (&[7, 1, 1], &[10, 11, 11]),
    (&[8, 1, 1], &[10, 11, 11]),
    (&[9, 1, 2, 5, 6], &[10, 11, 10, 11, 11]),
    (&[10, 1], &[10, 11]),
    (&[11, 1], &[10, 11]),
    (&[12, 1, 1, 5], &[10, 11, 10, 11]),
    (&[13, 1], &[10, 11]),
    (&[14, 1], &[10, 11]),
    (&[15, 1], &[10, 11]),
];

/// A row of numbers with one of them in another form.
fn with_bytes(numbers: &[usize], place: usize, bytes: &[u8]) -> Vec<u8> {
    [&row(&numbers[..place])[..], bytes, &row(&numbers[place + 1..])].concat()
}

#[test]
fn large_numbers_in_every_field_of_every_code() {
    for line in [file_l(), l_with_serials([2_097_151, 65_536])] {
        let mut desk = Desk::new(&line);
        for (record, answers) in FIELDS {
            for (place, answer) in answers.iter().enumerate() {
                for number in LARGE {
                    let large = with_bytes(record, place, &row(&[number]));
                    assert_eq!(desk.record(&large), *answer, "{record:?} {place} {number}");
                }
                for form in BAD_FORMS {
                    assert_eq!(desk.record(&with_bytes(record, place, form)), 10, "{record:?} {place} {form:?}");
                }
            }
        }
    }
}

/// The bytes of an item are no numbers.
#[test]
fn large_numbers_in_an_item_of_bytes() {
    let mut desk = Desk::new(&file_l());
    let item = |object: usize, form: usize| [row(&[1, 1, 1, object, form]), vec![240; 16]].concat();
    for number in LARGE {
        assert_eq!(desk.record(&item(number, 1)), 11);
        assert_eq!(desk.record(&item(6, number)), 10);
    }
    assert_eq!(desk.record(&item(6, 1)), 16);
}

#[test]
fn large_numbers_in_a_file() {
    assert_eq!(load_check(&row(&[1, 70_000])), 3);
    assert_eq!(load_by(&RULES_BEFORE, &row(&[1, 70_000])), Err(2));
    let serials = [70_000, 128];
    let numbers = numbers_of(&l_with_serials(serials));
    for place in 0..numbers.len() {
        for number in LARGE {
            let expected = if is_serial(place) { 0 } else { 3 };
            assert_eq!(load_check(&with_bytes(&numbers, place, &row(&[number]))), expected, "{place} {number}");
        }
        for form in BAD_FORMS {
            assert_eq!(load_check(&with_bytes(&numbers, place, form)), 2, "{place} {form:?}");
        }
    }
}

/// The numbers of a file.
fn numbers_of(line: &[u8]) -> Vec<usize> {
    let mut reader = reference::varint::Reader::new(line);
    std::iter::from_fn(|| reader.number().ok()).collect()
}

/// The places of L's serials among its numbers in edition 2.
fn is_serial(place: usize) -> bool {
    matches!(place, 24 | 26)
}

#[test]
fn editions_that_there_are() {
    let l = numbers_of(&file_l());
    for edition in [0, 3, 4, 127, 128, 255, 256, 65_535, 65_536, 70_000, 2_097_151] {
        assert_eq!(load_check(&with_bytes(&l, 0, &row(&[edition]))), 3, "{edition}");
        assert_eq!(load_check(&row(&[edition])), 3, "{edition}");
    }
    assert_eq!(load_check(&row(&[1])), 1);
    assert_eq!(load_check(&row(&[2])), 1);
    // Without serials in edition 2, and with serials in edition 1.
    assert_ne!(load_check(&with_bytes(&l, 0, &[2])), 0);
    assert_ne!(load_check(&with_bytes(&numbers_of(&l_with_serials([3, 3])), 0, &[1])), 0);
    // Without devices the two editions differ in the first byte only.
    for line in [row(&[1, 0, 0, 0, 0]), row(&[1, 1, 0, 2, 1, 1, 1, 1, 3, 0, 0, 1, 2, 2, 0])] {
        let second = [&[2], &line[1..]].concat();
        assert_eq!((load_check(&line), load_check(&second)), (0, 0));
        assert_eq!(rewriting(&second), (String::new(), Some(second)));
    }
}

#[test]
fn serials_of_every_length() {
    for (first, second) in SERIALS.into_iter().flat_map(|first| SERIALS.map(|second| (first, second))) {
        let line = l_with_serials([first, second]);
        let config = load(&line).expect("the file is accepted");
        assert_eq!(config.serials, [first, second]);
        let bytes = |serial: usize| row(&[serial]).len();
        assert_eq!(line.len(), 45 + bytes(first) + bytes(second));
        let memory = Memory::of(&config);
        for length in [line.len() - 1, line.len(), line.len() + 1] {
            let mut area = vec![0xAA; length];
            let expected = if length < line.len() { Written::Short(line.len()) } else { Written::Length(line.len()) };
            assert_eq!(write(&memory, &mut area), expected);
            let untouched = if length < line.len() { 0 } else { line.len() };
            assert_eq!(
                (&area[..untouched], &area[untouched..]),
                (&line[..untouched], &vec![0xAA; length][untouched..])
            );
        }
    }
    assert_eq!(SERIALS.map(|serial| row(&[serial]).len()), [1, 1, 1, 2, 2, 3, 3, 3, 3]);
}

#[test]
fn files_of_both_editions_cut_at_every_byte() {
    let files =
        [file_l(), l_with_serials([70_000, 0]), l_with_serials([2_097_151, 16_384]), l_with_serials([127, 128])];
    for line in files {
        (0..line.len()).for_each(|length| assert_eq!(load_check(&line[..length]), 1, "{length}"));
        assert_eq!(load_check(&[&line[..], &[0]].concat()), 4);
    }
    let mut rng = Rng::new(21);
    for size in [Size::Small, Size::Medium, Size::Full, Size::Wide] {
        let world = labelled(&mut rng, size);
        (0..world.line.len()).for_each(|length| assert_eq!(load_check(&world.line[..length]), 1, "{length}"));
    }
}

#[test]
fn malformed_serials() {
    let l = numbers_of(&l_with_serials([5, 0]));
    for place in [24, 26] {
        let with = |bytes: &[u8]| load_check(&with_bytes(&l, place, bytes));
        assert_eq!(with(&[255, 255, 127]), 0);
        assert_eq!(with(&[128, 128, 4]), 0);
        assert_eq!(with(&[128, 128, 128, 1]), 2, "four bytes are no number that is out of range");
        BAD_FORMS.into_iter().for_each(|form| assert_eq!(with(form), 2, "{form:?}"));
        // Without a last byte, however long.
        let before = row(&l[..place]);
        for unfinished in [&[][..], &[128], &[255, 255], &[255, 255, 255], &[128; 9]] {
            assert_eq!(load_check(&[&before, unfinished].concat()), 1, "{unfinished:?}");
        }
    }
}

#[test]
fn lengths_of_records() {
    let text = |session: &[u8]| String::from_utf8(report(&file_l(), session)).expect("plain text");
    for length in LARGE {
        assert_eq!(text(&[&[2, 5, 1][..], &row(&[length]), &[5, 2]].concat()), "1 0\ncut\n", "{length}");
        assert_eq!(text(&[&row(&[length])[..], &vec![0; 32_760]].concat()), "cut\n", "{length}");
    }
}

#[test]
fn the_writer_puts_3_to_edition_and_serials() {
    let sound = Memory::of(&load(&l_with_serials([70_000, 0])).expect("the file is accepted"));
    let answer = |memory: &Memory| {
        let mut area = [7; ROOM];
        let written = write(memory, &mut area);
        assert!(matches!(written, Written::Length(_)) || area == [7; ROOM]);
        written
    };
    assert_eq!(answer(&sound), Written::Length(49));
    for edition in [0, 3, 4, 127, 128, 255] {
        assert_eq!(answer(&Memory { edition, ..sound.clone() }), Written::Refused(3), "{edition}");
    }
    for device in [1, 2] {
        for serial in [2_097_152, 2_097_153, 1 << 24, (1 << 24) + 5, 1 << 31, u32::MAX] {
            let mut memory = sound.clone();
            memory.serials[device] = serial;
            assert_eq!(answer(&memory), Written::Refused(3), "{device} {serial}");
        }
        for serial in SERIALS.into_iter().chain([256, 1 << 16]).filter(|serial| *serial != 0) {
            let mut memory = Memory::of(&load(&file_l()).expect("the file is accepted"));
            assert_eq!(answer(&memory), Written::Length(45));
            memory.serials[device] = serial as u32;
            assert_eq!(answer(&memory), Written::Refused(3), "{device} {serial}");
            memory.edition = 2;
            assert_eq!(answer(&memory), Written::Length(46 + row(&[serial]).len()), "{device} {serial}");
        }
    }
    // Place 0 and devices that are not there have no serial.
    let mut noisy = sound.clone();
    noisy.serials[3..].fill(u32::MAX);
    noisy.serials[0] = 1 << 24;
    assert_eq!(answer(&noisy), Written::Length(49));
    let mut noisy = Memory { devices: 0, objects: 0, values: 0, ..noisy };
    noisy.edition = 1;
    assert_eq!(answer(&noisy), Written::Length(5));
}

/// A serial that is too large comes behind the counts and before the values, and 3 before 5 and 6.
#[test]
fn the_writer_asks_3_of_serials_before_5_and_6() {
    let mut memory = Memory::of(&load(&l_with_serials([1, 2])).expect("the file is accepted"));
    memory.kind[1] = 3;
    assert_eq!(write(&memory, &mut [0; ROOM]), Written::Refused(5));
    memory.serials[2] = 2_097_152;
    assert_eq!(write(&memory, &mut [0; ROOM]), Written::Refused(3));
}

/// What was accepted before is accepted as the same, in edition 1 and without serials; what was refused by 2 and is not
/// any more has a number from 65,536 on, and what was refused by 3 and is not any more is of edition 2.
#[test]
fn files_of_before_are_loaded_as_before() {
    let mut calls = Calls::new(23);
    let mut seen = [0; 3];
    for _ in 0..12_000 {
        let call = calls.next_call();
        let (before, now) = (load_by(&RULES_BEFORE, &call.line), load(&call.line));
        match before {
            Ok(config) => {
                assert_eq!((config.edition, config.serials.iter().max()), (1, config.serials.first()));
                assert_eq!(now, Ok(config));
                seen[0] += 1;
            }
            Err(2) if now != Err(2) => {
                assert!(numbers_of(&call.line).iter().any(|number| *number > MAX_NUMBER_BEFORE));
                seen[1] += 1;
            }
            Err(3) if now != Err(3) => {
                assert_eq!(call.line[0], 2);
                seen[2] += 1;
            }
            Err(number) => assert_eq!(now, Err(number)),
        }
        let (before, now) = (read_up_to(MAX_NUMBER_BEFORE, &call.record), read(&call.record));
        assert!(before.is_none() || before == now);
        if call.function == Function::Operate && call.carried {
            calls.carry(&call, &after(&call.line, &call.state, &call.record));
        } else if call.carried {
            calls.carry(&call, &State::fresh(&load(&call.line).expect("the file is accepted")).to_bytes());
        }
    }
    assert!(seen[0] > 5_000 && seen[1] > 5 && seen[2] > 1_000, "{seen:?}");
}

/// The state area that an operation leaves.
fn after(line: &[u8], state: &[u8], record: &[u8]) -> Vec<u8> {
    let mut state = state.to_vec();
    reference::operate(line, &mut state, record, &mut [0; 128]);
    state
}

/// The same records over a line with serials and without: the same answers, state areas and answer areas.
#[test]
fn serials_decide_nothing() {
    let mut records = 0;
    for seed in 0..150 {
        let mut rng = Rng::part(22, seed);
        let size = Size::any(&mut rng);
        let world = labelled(&mut rng, size);
        let mut other = world.clone();
        label(&mut rng, &mut other);
        let mut first = world.clone();
        first.config.edition = 1;
        first.config.serials.fill(0);
        let lines = [&first.config, &world.config, &other.config].map(|config| encode(&of_config(config)));
        let mut desks = lines.map(|line| Desk::new(&line));
        for _ in 0..40 {
            let state = State::from_bytes(&world.config, &desks[0].state).expect("the length is right");
            let want = Want::any(&mut rng, &world);
            let record = record(&mut rng, &world, &state, want);
            let [one, two, three] = &mut desks;
            let answer = one.record(&record);
            for desk in [two, three] {
                assert_eq!(desk.record(&record), answer);
                assert_eq!((&desk.state, &desk.answer), (&one.state, &one.answer));
            }
            records += 1;
        }
    }
    assert_eq!(records, 6_000);
}
