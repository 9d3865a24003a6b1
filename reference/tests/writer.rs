//! The writer of configuration files: what it refuses, the lengths of areas, and that it is the inverse of loading.

mod common;

use common::file_l;
use reference::generate::memories::{FAULTS, FIELDS, Field, broken, faulty, noisy, refused, shaken};
use reference::generate::serials::label;
use reference::generate::{Rng, Size, World, drills, ringed};
use reference::limits::{MAX_DEVICES, MAX_DRIVERS, MAX_ENTRIES, MAX_OBJECTS, MAX_SERIAL, MAX_VALUES};
use reference::tokens::row;
use reference::{Memory, Written, coded, load, load_check, rewrite, rewriting, write};
use std::collections::BTreeMap;

/// The length of the longest file that can be accepted, and of the longest of edition 1.
const LONGEST: usize = 1_821;
const LONGEST_WITHOUT_SERIALS: usize = 1_773;
/// An area that every file fits into.
const ROOM: usize = LONGEST + 100;

/// Generated worlds of every size and of both editions, drills among them.
fn worlds(seed: u64, count: u64) -> impl Iterator<Item = World> {
    (0..count).map(move |part| {
        let mut rng = Rng::part(seed, part);
        let size = Size::any(&mut rng);
        let mut world = if part % 10 == 9 { drills::any(&mut rng).world } else { ringed(&mut rng, size) };
        if part % 2 == 0 {
            label(&mut rng, &mut world);
        }
        world
    })
}

fn in_memory(line: &[u8]) -> Memory {
    Memory::of(&load(line).expect("the file is accepted"))
}

/// The answer for an area of this length; whatever it is, only the first bytes of a written file may have changed.
fn answer(rng: &mut Rng, memory: &Memory, length: usize) -> Written {
    let before = rng.bytes(length);
    let mut area = before.clone();
    let written = write(memory, &mut area);
    let from = if let Written::Length(end) = written { end } else { 0 };
    assert_eq!(area[from..], before[from..], "{written:?}");
    written
}

/// The file of a sound configuration.
fn file(memory: &Memory) -> Vec<u8> {
    let mut area = vec![0; ROOM];
    match write(memory, &mut area) {
        Written::Length(length) => area[..length].to_vec(),
        other => panic!("a sound configuration is answered {other:?}"),
    }
}

#[test]
fn an_accepted_file_is_written_as_itself() {
    for world in worlds(1, 600) {
        assert_eq!(file(&Memory::of(&world.config)), world.line);
        assert_eq!(file(&in_memory(&world.line)), world.line);
    }
    for line in [file_l(), row(&[1, 0, 0, 0, 0])] {
        assert_eq!(file(&in_memory(&line)), line);
    }
}

#[test]
fn a_written_file_loads_as_the_same_configuration() {
    let mut rng = Rng::new(2);
    let mut written = 0;
    for world in worlds(2, 300) {
        let sound = Memory::of(&world.config);
        assert_eq!(in_memory(&file(&sound)), sound);
        // Also what was never loaded: a sound configuration whose bytes were changed, if it is still sound.
        for _ in 0..30 {
            let memory = shaken(&mut rng, &sound);
            if let Written::Length(_) = answer(&mut rng, &memory, ROOM) {
                // The same noise where nothing is named: equal if all that is named is.
                let loaded = in_memory(&file(&memory));
                assert_eq!(noisy(&mut Rng::new(7), &loaded), noisy(&mut Rng::new(7), &memory));
                written += 1;
            }
        }
    }
    assert!(written > 1_000, "{written}");
}

#[test]
fn places_that_name_nothing_are_no_part_of_the_line() {
    let mut rng = Rng::new(3);
    for world in worlds(3, 300) {
        let sound = Memory::of(&world.config);
        let noisy = noisy(&mut rng, &sound);
        assert_ne!(noisy, sound);
        assert_eq!(file(&noisy), world.line);
        assert_eq!(answer(&mut rng, &noisy, world.line.len() - 1), Written::Short(world.line.len()));
    }
}

#[test]
fn a_hardcoded_number_of_0_names_no_entries_whatever_stands_at_place_0() {
    let line = row(&[1, 0, 1, 2, 1, 4, 2, 1, 3, 0, 0, 0, 0]);
    let mut memory = in_memory(&line);
    memory.count[0] = 6;
    (1..=6).for_each(|entry| memory.set_entry(0, entry, [2, 2, 1]));
    assert_eq!(file(&memory), line);
}

#[test]
fn every_broken_field_is_refused_by_3() {
    let mut rng = Rng::new(4);
    let mut tried: BTreeMap<String, usize> = BTreeMap::new();
    for world in worlds(4, 300) {
        let sound = Memory::of(&world.config);
        for field in FIELDS {
            let Some(memory) = broken(&mut rng, &sound, field) else { continue };
            for length in [0, world.line.len(), ROOM] {
                assert_eq!(answer(&mut rng, &memory, length), Written::Refused(3), "{field:?}");
                let noise = noisy_behind_counts(&mut rng, &memory);
                assert_eq!(answer(&mut rng, &noise, length), Written::Refused(3), "{field:?} and noise");
            }
            *tried.entry(format!("{field:?}")).or_default() += 1;
        }
    }
    assert!(FIELDS.iter().all(|field| tried.get(&format!("{field:?}")) > Some(&150)), "{tried:?}");
}

/// Noise where nothing is named, for a configuration whose counts are in range; else as it is.
fn noisy_behind_counts(rng: &mut Rng, memory: &Memory) -> Memory {
    let counts = [memory.drivers, memory.devices, memory.objects, memory.values].map(usize::from);
    let most = [MAX_DRIVERS, MAX_DEVICES, MAX_OBJECTS, MAX_VALUES];
    let fits = counts.iter().zip(most).all(|(count, most)| *count <= most);
    let values = memory.count.get(1..=counts[3]).unwrap_or_default();
    let whole = fits && values.iter().all(|count| usize::from(*count) <= MAX_ENTRIES);
    if whole { noisy(rng, memory) } else { memory.clone() }
}

#[test]
fn each_value_that_a_field_of_l_cannot_have() {
    // A field of L, how it is set, and the bytes that it cannot have.
    type Change = (&'static str, fn(&mut Memory, u8), &'static [u8]);
    let changes: [Change; 16] = [
        ("edition", |memory, byte| memory.edition = byte, &[0, 3, 127, 128, 255]),
        ("serial", |memory, byte| memory.serials[2] = u32::from(byte), &[1, 2, 127, 128, 255]),
        ("drivers", |memory, byte| memory.drivers = byte, &[0, 17, 128, 255]),
        ("devices", |memory, byte| memory.devices = byte, &[0, 1, 17, 128, 255]),
        ("objects", |memory, byte| memory.objects = byte, &[0, 1, 3, 97, 192, 193, 255]),
        ("values", |memory, byte| memory.values = byte, &[0, 1, 48, 128, 255]),
        ("kind", |memory, byte| memory.kind[6] = byte, &[0, 5, 255]),
        ("class", |memory, byte| memory.class[1] = byte, &[0, 3, 7, 255]),
        ("owner of an external object", |memory, byte| memory.owner[5] = byte, &[1, 2, 255]),
        ("owner of a driver's object", |memory, byte| memory.owner[6] = byte, &[0, 3, 16, 255]),
        ("owner of a device's object", |memory, byte| memory.owner[2] = byte, &[0, 3, 16, 255]),
        ("hardcoded", |memory, byte| memory.hardcoded[2] = byte, &[6, 47, 255]),
        ("count", |memory, byte| memory.count[5] = byte, &[2, 7, 200, 255]),
        ("object of an entry", |memory, byte| memory.entries[93] = byte, &[0, 7, 97, 192, 193, 255]),
        ("mode", |memory, byte| memory.entries[94] = byte, &[0, 4, 255]),
        ("stored value", |memory, byte| memory.entries[95] = byte, &[6, 47, 255]),
    ];
    for (name, change, bytes) in changes {
        for byte in bytes {
            let mut memory = in_memory(&file_l());
            change(&mut memory, *byte);
            assert_eq!(answer(&mut Rng::new(5), &memory, ROOM), Written::Refused(3), "{name} {byte}");
        }
    }
}

#[test]
fn a_stored_value_where_it_must_be_0() {
    // Objects of the kinds 1, 2, 3 and 4, and one entry.
    let answered = |object: usize, mode: usize, stored: u8| {
        let line = [1, 0, 1, 4, 2, 1, 0, 0, 2, 0, 0, 3, 0, 0, 4, 2, 1, 0, 1, object, mode, 0, 0];
        let mut memory = in_memory(&row(&line));
        memory.set_entry(1, 1, [object as u8, mode as u8, stored]);
        answer(&mut Rng::new(6), &memory, ROOM)
    };
    for object in 1..=4 {
        for mode in 1..=3 {
            let takes_one = object == 1 && mode > 1;
            for stored in [0, 1, 2, 3, 255] {
                let fits = stored == 0 || (takes_one && stored <= 2);
                let expected = if fits { Written::Length(23) } else { Written::Refused(3) };
                assert_eq!(answered(object, mode, stored), expected, "{object} {mode} {stored}");
            }
        }
    }
}

#[test]
fn the_first_of_3_5_6_and_the_length_decides() {
    let mut rng = Rng::new(8);
    let mut seen: BTreeMap<(u8, Vec<u8>), usize> = BTreeMap::new();
    for world in worlds(8, 300) {
        let sound = Memory::of(&world.config);
        for faults in FAULTS {
            let Some(memory) = faulty(&mut rng, &sound, faults) else { continue };
            let first = faults.iter().min().copied().unwrap_or_default();
            for length in [0, world.line.len() - 1, world.line.len(), ROOM] {
                assert_eq!(answer(&mut rng, &memory, length), Written::Refused(first), "{faults:?}");
            }
            *seen.entry((first, faults.to_vec())).or_default() += 1;
        }
        assert_eq!(answer(&mut rng, &sound, 0), Written::Short(world.line.len()));
    }
    assert!(seen.len() == FAULTS.len() && seen.values().all(|count| *count > 150), "{seen:?}");
}

/// The numbers of a configuration in the order of its file, whatever they are, up to the first count out of range.
fn numbers(memory: &Memory) -> Vec<usize> {
    let mut out = wide(&[memory.edition, memory.drivers, memory.devices, memory.objects, memory.values]);
    if load_check(&row(&out)) == 3 {
        return out;
    }
    for object in 1..=usize::from(memory.objects) {
        out.extend(wide(&[memory.kind[object], memory.class[object], memory.owner[object]]));
    }
    for device in 1..=usize::from(memory.devices) {
        out.push(usize::from(memory.hardcoded[device]));
        out.extend((memory.edition == 2).then_some(memory.serials[device] as usize));
    }
    for value in 1..=usize::from(memory.values) {
        out.push(usize::from(memory.count[value]));
        if usize::from(memory.count[value]) > MAX_ENTRIES {
            break;
        }
        (1..=usize::from(memory.count[value])).for_each(|entry| out.extend(wide(&memory.entry(value, entry))));
    }
    out
}

/// Whether a serial is beyond its range, which no file shows: there it is in no form that can be read, or left out.
fn has_lost_serial(memory: &Memory) -> bool {
    let devices = usize::from(memory.devices).min(MAX_DEVICES);
    let most = if memory.edition == 2 { MAX_SERIAL } else { 0 };
    memory.serials[1..=devices].iter().any(|serial| *serial as usize > most)
}

fn wide(bytes: &[u8]) -> Vec<usize> {
    bytes.iter().map(|byte| usize::from(*byte)).collect()
}

#[test]
fn the_writer_refuses_what_the_loader_would() {
    let mut rng = Rng::new(9);
    let mut seen: BTreeMap<u32, usize> = BTreeMap::new();
    for world in worlds(9, 400) {
        let sound = Memory::of(&world.config);
        for turn in 0..40 {
            let memory = if turn == 0 { Memory::filled(|| rng.word() as u8) } else { shaken(&mut rng, &sound) };
            let loaded = if has_lost_serial(&memory) { 3 } else { load_check(&row(&numbers(&memory))) };
            match answer(&mut rng, &memory, ROOM) {
                Written::Length(_) => assert_eq!(loaded, 0),
                Written::Refused(number) => assert_eq!(loaded, u32::from(number)),
                Written::Short(length) => panic!("{length} bytes are above {ROOM}"),
            }
            *seen.entry(loaded).or_default() += 1;
        }
    }
    assert!([0, 3, 5, 6].iter().all(|number| seen.get(number) > Some(&20)) && seen.len() == 4, "{seen:?}");
}

#[test]
fn areas_of_every_length() {
    let mut rng = Rng::new(10);
    for world in worlds(10, 200) {
        let (memory, length) = (Memory::of(&world.config), world.line.len());
        for room in [0, 1, length - 1, length, length + 1, length + 40, rng.below(length)] {
            let expected = if room < length { Written::Short(length) } else { Written::Length(length) };
            assert_eq!(answer(&mut rng, &memory, room), expected);
        }
    }
    let memory = in_memory(&file_l());
    let answers: Vec<Written> = [44, 45, 46].map(|length| answer(&mut rng, &memory, length)).into();
    assert_eq!(answers, [Written::Short(45), Written::Length(45), Written::Length(45)]);
}

#[test]
fn the_smallest_and_the_largest() {
    assert_eq!(file(&Memory::empty()), row(&[1, 0, 0, 0, 0]));
    assert_eq!(file(&Memory { edition: 2, ..Memory::empty() }), row(&[2, 0, 0, 0, 0]));
    for byte in [0, 255] {
        assert_eq!(write(&Memory::filled(|| byte), &mut [0; ROOM]), Written::Refused(3));
    }
    let mut largest = largest();
    assert_eq!(file(&largest).len(), LONGEST_WITHOUT_SERIALS);
    largest.edition = 2;
    assert_eq!(file(&largest).len(), LONGEST_WITHOUT_SERIALS + MAX_DEVICES);
    largest.serials[1..].fill(MAX_SERIAL as u32);
    assert_eq!(file(&largest).len(), LONGEST);
    assert_eq!(load_check(&file(&largest)), 0);
    assert_eq!(answer(&mut Rng::new(11), &largest, LONGEST - 1), Written::Short(LONGEST));
    // Behind a value's six entries stand those of the next values: nothing but the count is wrong.
    for count in [7, 12, 200] {
        largest.count[1] = count;
        assert_eq!(answer(&mut Rng::new(11), &largest, ROOM), Written::Refused(3));
    }
}

/// Every count at its limit, six entries in each value, and each of them for an object whose number has two bytes. No
/// device has a hardcoded value: any entries will do.
fn largest() -> Memory {
    let mut largest = Memory::empty();
    (largest.drivers, largest.devices) = (MAX_DRIVERS as u8, MAX_DEVICES as u8);
    (largest.objects, largest.values) = (MAX_OBJECTS as u8, MAX_VALUES as u8);
    largest.kind[1..].fill(3);
    for device in 1..=MAX_DEVICES {
        (largest.kind[device], largest.class[device], largest.owner[device]) = (4, 2, device as u8);
    }
    for value in 1..=MAX_VALUES {
        largest.count[value] = MAX_ENTRIES as u8;
        for entry in 1..=MAX_ENTRIES {
            largest.set_entry(value, entry, [(MAX_OBJECTS - value - entry) as u8, 1, 0]);
        }
    }
    largest
}

#[test]
fn bytes_make_a_configuration_in_memory_and_back() {
    let mut rng = Rng::new(12);
    let memory = Memory::filled(|| rng.word() as u8);
    let bytes = memory.to_bytes();
    assert_eq!(bytes.len(), 1_584);
    assert_eq!((bytes[0], &bytes[5..9]), (memory.edition, &memory.serials[1].to_le_bytes()[..]));
    assert_eq!(bytes[69..], memory.to_row(193));
    assert_eq!(Memory::from_bytes(&bytes), Some(memory));
    assert_eq!(Memory::from_bytes(&[bytes, vec![0]].concat()), None);
    let l = in_memory(&file_l());
    let mut short = l.to_bytes();
    while short.last() == Some(&0) {
        short.pop();
    }
    assert_eq!(Memory::from_bytes(&short), Some(l));
    assert_eq!(Memory::from_bytes(&[]), Some(Memory::filled(|| 0)));
}

#[test]
fn answers_as_one_number() {
    let billions = 4_294_967_296;
    assert_eq!(coded(Written::Length(45)), 45);
    assert_eq!(coded(Written::Refused(3)), billions + 3);
    assert_eq!(coded(Written::Short(45)), 2 * billions + 45);
    let mut area = [7; 46];
    assert_eq!(rewrite(&file_l(), &mut area[..44]), 2 * billions + 45);
    assert_eq!(area, [7; 46]);
    assert_eq!(rewrite(&file_l(), &mut area), 45);
    assert_eq!((&area[..45], area[45]), (&file_l()[..], 7));
}

/// A file that each of the questions 1 to 6 refuses.
fn refused_files() -> [Vec<u8>; 6] {
    let hardcoded = row(&[1, 0, 1, 2, 1, 4, 2, 1, 3, 0, 0, 1, 1, 2, 1, 0]);
    [vec![], vec![129, 0], vec![3], [file_l(), vec![0]].concat(), row(&[1, 0, 1, 0, 0, 0]), hardcoded]
}

#[test]
fn a_refused_load_is_a_refusal_by_its_question() {
    for (number, line) in (1..).zip(refused_files()) {
        for length in [0, ROOM] {
            let mut area = vec![9; length];
            assert_eq!(rewrite(&line, &mut area), 4_294_967_296 + number);
            assert_eq!(area, vec![9; length]);
        }
    }
}

#[test]
fn what_the_rewriting_program_prints_and_writes() {
    for line in worlds(13, 50).map(|world| world.line).chain([file_l()]) {
        assert_eq!(rewriting(&line), (String::new(), Some(line)));
    }
    for (number, line) in (1..).zip(refused_files()) {
        assert_eq!(rewriting(&line), (format!("line {number}\n"), None));
    }
    let padded = |length: usize| [file_l(), vec![0; length - file_l().len()]].concat();
    assert_eq!(rewriting(&padded(4_096)), ("line 4\n".to_string(), None));
    assert_eq!(rewriting(&padded(4_097)), ("long\n".to_string(), None));
    assert_eq!(rewriting(&[0; 100_000]), ("long\n".to_string(), None));
}

#[test]
fn the_generator_breaks_what_it_says() {
    let smallest = in_memory(&row(&[1, 0, 0, 0, 0]));
    let mut rng = Rng::new(14);
    for field in FIELDS {
        let is_there =
            matches!(field, Field::Edition | Field::Drivers | Field::Devices | Field::Objects | Field::Values);
        assert_eq!(broken(&mut rng, &smallest, field).is_some(), is_there, "{field:?}");
    }
    assert!(refused(&mut rng, &smallest, 5).is_none() && refused(&mut rng, &smallest, 6).is_none());
}
