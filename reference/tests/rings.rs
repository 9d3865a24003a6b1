//! Devices that advance rings of their own (request N4): what the generator makes of them, and faults of question 21
//! that no session notices, told by single calls on areas that no list of calls reaches.

mod common;

use common::file_l;
use reference::closure::closure;
use reference::config::{Config, Kind, Owner};
use reference::coverage::Coverage;
use reference::faults::{self, LOADERS, UNREACHED};
use reference::gate::judge;
use reference::generate::stored::{cases, with_drills};
use reference::generate::{Calls, Function, Rng, Size, broken, drills, ringed};
use reference::state::{State, well_formed};
use reference::{load, office, operate, varint};

/// What a generated call shows on its area, if it is well formed, by the judge that has this fault; else nothing.
fn judged(fault: Option<&faults::Fault>, config: &Config, area: &[u8], record: &[u8]) -> Option<u8> {
    let state = State::from_bytes(config, area).filter(|state| well_formed(config, state))?;
    let judgement = match fault {
        Some(fault) => faults::judge(fault, config, &state, record),
        None => judge(closure, config, &state, record),
    };
    Some(judgement.err().unwrap_or(0))
}

/// The calls that the matching makes meet 21 often, in states that calls reach and in others, and tell faults that only
/// the others show.
#[test]
fn generated_calls_tell_faults_that_no_session_notices() {
    let mut calls = Calls::new(1);
    let (mut reached, mut unreached) = (0, 0);
    let mut noticed = [0; UNREACHED.len()];
    for _ in 0..30_000 {
        let call = calls.next_call();
        let mut state = call.state.clone();
        if call.function == Function::Fresh {
            reference::fresh(&call.line, &mut state);
        } else if let (Function::Operate, Ok(config)) = (call.function, load(&call.line)) {
            let number = operate(&call.line, &mut state, &call.record, &mut call.answer.clone());
            if number == 21 {
                *(if call.carried { &mut reached } else { &mut unreached }) += 1;
                for (count, fault) in noticed.iter_mut().zip(&UNREACHED) {
                    *count += usize::from(judged(Some(fault), &config, &call.state, &call.record) != Some(21));
                }
            }
        }
        calls.carry(&call, &state);
    }
    println!("21 in reached states {reached}, in others {unreached}; faults told {noticed:?}");
    assert!(reached > 100 && unreached > 100 && noticed.iter().all(|count| *count > 20));
}

/// Sessions cannot tell them: every stored call has the right answer by each.
#[test]
fn no_stored_session_tells_them() {
    for case in cases(&with_drills(1, 300, 120_000).input).expect("whole cases") {
        let Ok(config) = load(&case.line) else { continue };
        let mut state = State::fresh(&config);
        let mut reader = varint::Reader::new(&case.session);
        while let Some(record) = office::next_record(&mut reader) {
            let right = judge(closure, &config, &state, record);
            for fault in &UNREACHED {
                assert!(faults::judge(fault, &config, &state, record) == right, "{}: {record:?}", fault.name);
            }
            state = right.map_or(state, |(next, _)| next);
        }
    }
}

/// L after its device 2 came into partition 2 and, past all questions, got value 3 into its descriptor, which names
/// object 5 of partition 1. Device 1 has no ring and comes in harmlessly.
#[test]
fn an_unreached_area_tells_each_of_them() {
    let config = load(&file_l()).expect("L is sound");
    let mut state = State::fresh(&config);
    (state.status[1], state.status[2], state.devices[1]) = (1, 1, 2);
    for (object, partition) in [(3, 2), (4, 2), (5, 1)] {
        state.objects[object - 1].partition = partition;
    }
    let answers = |state: &State| {
        let by = |fault: Option<&faults::Fault>| judged(fault, &config, &state.to_bytes(), &[8, 1, 1]);
        [by(None), by(Some(&UNREACHED[0])), by(Some(&UNREACHED[1]))]
    };
    assert_eq!(answers(&state), [Some(0), Some(0), Some(0)]);
    state.objects[3].contents[0] = 3;
    assert_eq!(answers(&state), [Some(21), Some(0), Some(0)]);
}

/// How many of the worlds have rings, and of which kinds.
#[test]
fn worlds_have_rings_of_every_kind() {
    let (mut ringed_worlds, mut both, mut apart, mut unread, mut zero) = (0, 0, 0, 0, 0);
    for seed in 0..400 {
        let mut rng = Rng::part(9, seed);
        let size = Size::any(&mut rng);
        let config = ringed(&mut rng, size).config;
        ringed_worlds += usize::from(config.has_rings());
        for device in 1..=config.devices() {
            let entries = config.hardcoded_entries(device);
            for entry in entries.iter().filter(|entry| config.stores(entry)) {
                let read = entries.iter().any(|other| other.object == entry.object && other.reads());
                assert_eq!(config.object(entry.object).owner, Owner::Device(device));
                both += usize::from(entry.mode == 3);
                apart += usize::from(entry.mode == 2 && read);
                unread += usize::from(!read);
                zero += usize::from(entry.stored == 0);
            }
        }
    }
    println!("{ringed_worlds} of 400; mode 3 {both}, mode 2 and read {apart}, unread {unread}, value 0 {zero}");
    assert!(ringed_worlds > 180 && both > 150 && apart > 80 && unread > 40 && zero > 40);
}

/// Files that question 6 refuses are broken in every way: another's object by each mode, kind 1 written with a value.
#[test]
fn files_for_question_6_are_broken_in_every_way() {
    let mut rng = Rng::new(10);
    let (mut modes, mut stored, mut told) = ([0; 4], 0, [0; LOADERS.len()]);
    for _ in 0..400 {
        let world = ringed(&mut rng, Size::Small);
        let line = broken::line(&mut rng, &world, 6);
        if load(&line).err() != Some(6) {
            continue;
        }
        for (count, (_, question)) in told.iter_mut().zip(LOADERS) {
            *count += usize::from(reference::config::load_with(question, &line).is_ok());
        }
        let config = reference::config::load_with(|_| true, &line).expect("only 6 refuses it");
        for device in 1..=config.devices() {
            let stray = |object: usize| config.object(object).owner != Owner::Device(device);
            for entry in config.hardcoded_entries(device).iter().filter(|entry| stray(entry.object)) {
                modes[entry.mode] += 1;
                stored += usize::from(config.kind(entry.object) == Kind::Transfer && entry.stored != 0);
            }
        }
    }
    println!("entries by mode {modes:?}, values stored {stored}, let by {told:?}");
    assert!(modes[1..].iter().all(|count| *count > 40) && stored > 30);
    assert!(told[0] > 150 && told[1] > 20);
}

/// Each ring drill meets 21, but those in which nothing ever leaves.
#[test]
fn ring_drills_meet_21() {
    use drills::Point;
    let all = [Point::RingLeaving, Point::RingPair, Point::RingChoice, Point::RingOfSix];
    for point in all {
        for drill in drills::stored(1, point) {
            let coverage = Coverage::of(&[drill.folder()]);
            assert!(coverage.refused.get(&(21, 8)) >= Some(&3), "{point:?}");
        }
    }
    for point in [Point::RingInside, Point::RingUnread, Point::RingReturns, Point::NoRing] {
        for drill in drills::stored(1, point) {
            assert_eq!(Coverage::of(&[drill.folder()]).refused.get(&(21, 8)), None, "{point:?}");
        }
    }
}
