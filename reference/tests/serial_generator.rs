//! What the generator gives of serials (request N7), and which faults of editions, serials and large numbers it tells:
//! loaders by files, writers by configurations in memory and by files that are rewritten.

use reference::config::load_by;
use reference::faults::{READERS, WRITERS};
use reference::generate::memories::cases;
use reference::generate::rewrites::rewrites;
use reference::generate::serials::{SERIALS, changed, label};
use reference::generate::sessions::folder;
use reference::generate::{Calls, Function, Rng, Size, drills, labelled, ringed};
use reference::limits::MAX_NUMBER_BEFORE;
use reference::operation::{read, read_up_to};
use reference::{Memory, Written, coded, fresh, load, load_check, operate, rewrite, write};
use std::collections::BTreeMap;

/// How often each thing occurs.
type Counts<T> = BTreeMap<T, usize>;

/// An area that every file fits into.
const ROOM: usize = 1_900;

#[test]
fn worlds_of_both_editions_load_as_they_were_made() {
    let (mut editions, mut serials): (Counts<usize>, Counts<usize>) = Default::default();
    for seed in 0..400 {
        let mut rng = Rng::part(1, seed);
        let size = Size::any(&mut rng);
        let world = labelled(&mut rng, size);
        assert_eq!(load(&world.line).as_ref(), Ok(&world.config), "seed {seed}");
        *editions.entry(world.config.edition).or_default() += 1;
        world.config.serials.iter().for_each(|serial| *serials.entry(*serial).or_default() += 1);
    }
    assert!(editions.keys().eq(&[1, 2]) && editions.values().all(|count| *count > 80), "{editions:?}");
    assert!(SERIALS.iter().all(|serial| serials.get(serial) > Some(&50)), "{serials:?}");
}

#[test]
fn files_with_a_serial_changed_get_each_answer() {
    let mut rng = Rng::new(2);
    let mut seen: Counts<u32> = BTreeMap::new();
    for _ in 0..600 {
        let world = labelled(&mut rng, Size::Small);
        match changed(&mut rng, &world) {
            Some(line) => *seen.entry(load_check(&line)).or_default() += 1,
            None => assert!(world.config.edition == 1 || world.config.devices() == 0),
        }
    }
    assert!([0, 1, 2, 3].iter().all(|number| seen.get(number) > Some(&40)), "{seen:?}");
}

/// Sessions have records with large numbers in names, which 11 stops, and files that 2 and 3 refuse at large numbers.
#[test]
fn folders_have_large_numbers() {
    let (mut named, mut files) = (0, [0; 4]);
    for seed in 0..300 {
        let mut rng = Rng::part(3, seed);
        let focus = [Some(11), Some(2), Some(3), None][seed as usize % 4];
        let made = folder(&mut rng, Size::Small, 20, focus);
        if let Err(number @ 1..=3) = load(&made.line) {
            files[usize::from(number)] += 1;
        }
        let mut reader = reference::varint::Reader::new(&made.session);
        while let Some(record) = reference::office::next_record(&mut reader) {
            named += usize::from(read(record).is_some() && read_up_to(MAX_NUMBER_BEFORE, record).is_none());
        }
    }
    assert!(named > 60 && files[2] > 40 && files[3] > 40, "{named} {files:?}");
}

/// The calls of the matching: sessions over lines of both editions, and large numbers in records, refused by 11.
#[test]
fn calls_have_serials_and_large_numbers() {
    let mut calls = Calls::new(4);
    let (mut carried, mut large): (Counts<usize>, Counts<u32>) = Default::default();
    for _ in 0..20_000 {
        let call = calls.next_call();
        let (mut state, mut answer) = (call.state.clone(), call.answer.clone());
        let number = match call.function {
            Function::LoadCheck => load_check(&call.line),
            Function::Fresh => fresh(&call.line, &mut state),
            Function::Operate => operate(&call.line, &mut state, &call.record, &mut answer),
        };
        if call.function == Function::Operate && call.carried {
            *carried.entry(load(&call.line).expect("the file is accepted").edition).or_default() += 1;
            let readable = read(&call.record).is_some();
            if readable && read_up_to(MAX_NUMBER_BEFORE, &call.record).is_none() {
                *large.entry(number).or_default() += 1;
            }
        }
        calls.carry(&call, &state);
    }
    assert!(carried.keys().eq(&[1, 2]) && carried.values().all(|count| *count > 3_000), "{carried:?}");
    assert!(large.keys().eq(&[11]) && large[&11] > 20, "{large:?}");
}

/// Drills with serials answer as those without.
#[test]
fn serials_change_no_answer_of_a_drill() {
    let mut rng = Rng::new(5);
    for _ in 0..60 {
        let drill = drills::any(&mut rng);
        let mut other = drill.clone();
        label(&mut rng, &mut other.world);
        let text = |drill: &drills::Drill| {
            let folder = drill.folder();
            reference::report(&folder.line, &folder.session)
        };
        assert_eq!(text(&drill), text(&other));
    }
}

/// Every loader that goes wrong is told by the files of the matching.
#[test]
fn files_tell_every_faulty_loader() {
    let mut told = [0; READERS.len()];
    let mut rng = Rng::new(6);
    for _ in 0..400 {
        let world = labelled(&mut rng, Size::Small);
        for call in rewrites(&mut rng, &world) {
            let right = load(&call.line);
            for (count, (_, rules)) in told.iter_mut().zip(&READERS) {
                *count += usize::from(load_by(rules, &call.line) != right);
            }
        }
    }
    for (count, (name, _)) in told.into_iter().zip(READERS) {
        assert!(count >= 5, "{name}: {count}");
    }
}

/// What a writer leaves of an area, and its answer.
fn left(memory: &Memory, length: usize) -> (Written, Vec<u8>) {
    let mut area = vec![0xAA; length];
    (write(memory, &mut area), area)
}

/// Every writer that goes wrong is told by the configurations in memory that the program `memories` makes.
#[test]
fn configurations_in_memory_tell_every_faulty_writer() {
    let mut told = [0; WRITERS.len()];
    for seed in 0..200 {
        let mut rng = Rng::part(7, seed);
        let mut world = ringed(&mut rng, Size::Small);
        if rng.percent(50) {
            label(&mut rng, &mut world);
        }
        for memory in cases(&mut rng, &Memory::of(&world.config)) {
            let right = left(&memory, ROOM);
            for (count, (_, taken)) in told.iter_mut().zip(WRITERS) {
                *count += usize::from(left(&taken(&memory), ROOM) != right);
            }
        }
    }
    for (count, (name, _)) in told.into_iter().zip(WRITERS) {
        assert!(count >= 10, "{name}: {count}");
    }
}

/// What a file can show of a faulty writer, rewriting shows: a serial that is cut, another edition, other serials.
#[test]
fn rewritten_files_tell_faulty_writers() {
    let mut told: Counts<&str> = BTreeMap::new();
    let mut rng = Rng::new(8);
    for _ in 0..300 {
        let world = labelled(&mut rng, Size::Small);
        let memory = Memory::of(&world.config);
        for length in [world.line.len() - 1, world.line.len(), world.line.len() + 1] {
            let mut area = vec![0xAA; length];
            assert_eq!(rewrite(&world.line, &mut area), coded(left(&memory, length).0));
            for (name, taken) in WRITERS {
                *told.entry(name).or_default() += usize::from(left(&taken(&memory), length).1 != area);
            }
        }
    }
    let shown = [
        "serials cut to 16 bits",
        "the first edition written as the last",
        "edition 2 written as edition 1",
        "serials of the devices before",
    ];
    assert!(shown.iter().all(|name| told[name] >= 50), "{told:?}");
}
