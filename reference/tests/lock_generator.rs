//! Locks (request N6) in the generator: sessions in which 23 comes often by each code, calls of the matching with areas
//! of before, and areas with each rule of the locks broken.

mod common;

use common::{SMALL_AREA, SMALL_LOCKS, WIDE_AREA, WIDE_LOCKS};
use reference::closure::closure;
use reference::faults::lock_areas::{FRESH, LENGTHS, SHORTER};
use reference::faults::{self, LOCKS};
use reference::gate::judge;
use reference::generate::lengths::{LOCKABLE, lock_bytes, lock_lengths};
use reference::generate::records::record;
use reference::generate::{Call, Calls, Function, Rng, Size, Want, areas, locking};
use reference::state::{State, well_formed};
use reference::tokens::row;
use reference::{Config, fresh, load, operate, operation};
use std::collections::BTreeMap;

/// How often each thing occurs.
type Counts<T> = BTreeMap<T, usize>;

fn often<T: Ord>(counts: &Counts<T>, key: &T, least: usize) -> bool {
    counts.get(key).is_some_and(|count| *count >= least)
}

#[test]
fn sessions_meet_23_by_each_code() {
    for size in [Size::Small, Size::Medium, Size::Deep, Size::Full, Size::Wide] {
        let mut seen: Counts<(usize, u8)> = BTreeMap::new();
        let mut calls = 0;
        for seed in 0..60 {
            let mut rng = Rng::part(41, seed);
            let world = locking(&mut rng, size);
            let mut state = State::fresh(&world.config);
            for _ in 0..60 + world.config.objects.len() {
                let want = Want::any(&mut rng, &world);
                let record = record(&mut rng, &world, &state, want);
                let result = judge(closure, &world.config, &state, &record);
                let number = result.as_ref().err().copied().unwrap_or(0);
                let code = operation::read(&record).map_or(0, |operation| operation.code());
                *seen.entry((code, number)).or_default() += 1;
                calls += 1;
                state = result.map_or(state, |(next, _)| next);
            }
        }
        println!("{size:?} {calls}: {seen:?}");
        let accepted: usize = seen.iter().filter(|((_, number), _)| *number == 0).map(|(_, count)| count).sum();
        assert!(accepted * 2 > calls, "{size:?} {seen:?}");
        let met =
            |number: u8| seen.iter().filter(|((_, met), _)| *met == number).map(|(_, count)| count).sum::<usize>();
        // Few small configurations have a ring, which 21 is for.
        assert!((10..=23).all(|number| met(number) >= if number == 21 { 1 } else { 5 }), "{size:?} {seen:?}");
        for key in [8, 14, 15].map(|code| (code, 23)).into_iter().chain([14, 15].map(|code| (code, 16))) {
            assert!(often(&seen, &key, 20), "{size:?} {key:?} {seen:?}");
        }
        assert!([14, 15].iter().all(|code| often(&seen, &(*code, 0), 40)), "{size:?} {seen:?}");
    }
}

/// What an area of a call is, by its length and lock bytes.
fn kind(config: &Config, call: &Call) -> &'static str {
    let (now, before) = if config.is_wide() { (WIDE_AREA, WIDE_LOCKS) } else { (SMALL_AREA, SMALL_LOCKS) };
    match &call.state {
        area if area.len() == before => "of before",
        area if area.len() != now => "of another length",
        area if area[before..].iter().all(|lock| *lock == 0) => "without a lock",
        _ => "with locks",
    }
}

/// Which rule of the locks an area breaks, if it breaks no other.
fn broken_rules(config: &Config, area: &[u8]) -> Vec<&'static str> {
    let Some(state) = State::from_bytes(config, area) else { return Vec::new() };
    let sound = State { locks: vec![0; 16], ..state.clone() };
    if !well_formed(config, &sound) {
        return Vec::new();
    }
    let mut rules = Vec::new();
    for (place, lock) in state.locks.iter().enumerate() {
        let (first, last) = (place == 0, place == 15);
        match *lock {
            0 => (),
            1 if place >= config.devices() => rules.push(if last { "absent 16" } else { "absent" }),
            1 if state.devices[place] != 0 && first => rules.push("active 1"),
            1 if state.devices[place] != 0 && last => rules.push("active 16"),
            1 if state.devices[place] != 0 => rules.push("active"),
            1 => (),
            _ if first => rules.push("no lock 1"),
            _ if last => rules.push("no lock 16"),
            _ => rules.push("no lock"),
        }
    }
    if rules.len() == 1 { rules } else { Vec::new() }
}

#[test]
fn calls_have_locks_and_areas_of_before() {
    let mut calls = Calls::new(8);
    let mut seen: Counts<(bool, &str, u32)> = BTreeMap::new();
    let mut by_code: Counts<(usize, u32)> = BTreeMap::new();
    let mut rules: Counts<(bool, &str)> = BTreeMap::new();
    for _ in 0..30_000 {
        let call = calls.next_call();
        let mut state = call.state.clone();
        match (call.function, load(&call.line)) {
            (Function::Operate, Ok(config)) => {
                let number = operate(&call.line, &mut state, &call.record, &mut call.answer.clone());
                *seen.entry((config.is_wide(), kind(&config, &call), number)).or_default() += 1;
                let code = operation::read(&call.record).map_or(0, |operation| operation.code());
                *by_code.entry((code, number)).or_default() += 1;
                for rule in broken_rules(&config, &call.state).into_iter().filter(|_| number == 9) {
                    *rules.entry((config.is_wide(), rule)).or_default() += 1;
                }
            }
            (Function::Fresh, _) => assert!(fresh(&call.line, &mut state) <= 7),
            _ => (),
        }
        calls.carry(&call, &state);
    }
    println!("{seen:?}\n{by_code:?}\n{rules:?}");
    for wide in [false, true] {
        assert!(often(&seen, &(wide, "of before", 7), 10), "{seen:?}");
        assert!(often(&seen, &(wide, "with locks", 0), 300) && often(&seen, &(wide, "with locks", 23), 50), "{seen:?}");
        for rule in ["no lock 1", "no lock", "no lock 16", "absent", "absent 16", "active 1", "active"] {
            assert!(often(&rules, &(wide, rule), 3), "{rule} {rules:?}");
        }
    }
    assert!([8, 14, 15].iter().all(|code| often(&by_code, &(*code, 23), 100)), "{by_code:?}");
    assert!([(14, 0), (15, 0)].iter().all(|key| often(&by_code, key, 100)), "{by_code:?}");
    assert!([(14, 11), (14, 16), (15, 11), (15, 16)].iter().all(|key| often(&by_code, key, 10)), "{by_code:?}");
}

/// The stream carries areas of before on: where the last area had a lock, the next has none and is accepted.
#[test]
fn areas_of_before_are_carried_on() {
    let mut calls = Calls::new(9);
    let (mut last, mut over) = (Vec::new(), 0);
    for _ in 0..30_000 {
        let call = calls.next_call();
        let mut state = call.state.clone();
        let number = match call.function {
            Function::Operate => operate(&call.line, &mut state, &call.record, &mut call.answer.clone()),
            Function::Fresh => fresh(&call.line, &mut state),
            Function::LoadCheck => 0,
        };
        if call.function == Function::Operate && call.carried {
            assert!(number == 0 || number == 8 || number >= 10, "{number}");
            let config = load(&call.line).expect("a session's file");
            let older = areas::older(&config, &last);
            over += usize::from(last != call.state && areas::carried_over(&older) == call.state);
        }
        if call.carried {
            last = state.clone();
        }
        calls.carry(&call, &state);
    }
    println!("{over} areas with locks were carried over");
    assert!(over > 50);
}

#[test]
fn areas_around_both_lengths() {
    for (devices, objects) in LOCKABLE {
        let (before, now) = if objects <= 96 { (SMALL_LOCKS, SMALL_AREA) } else { (WIDE_LOCKS, WIDE_AREA) };
        let mut seen: Counts<(usize, u32)> = BTreeMap::new();
        for call in lock_lengths(&mut Rng::new(1), devices, objects) {
            let mut state = call.state.clone();
            let number = match call.function {
                Function::Fresh => fresh(&call.line, &mut state),
                _ => operate(&call.line, &mut state, &call.record, &mut call.answer.clone()),
            };
            *seen.entry((call.state.len(), number)).or_default() += 1;
        }
        for length in before - 1..=now + 1 {
            let answers: Vec<u32> = seen.keys().filter(|(met, _)| *met == length).map(|(_, number)| *number).collect();
            assert_eq!(answers, if length == now { vec![0, 11, 23] } else { vec![7] }, "{length}");
        }
        assert_eq!(seen.keys().next().map(|key| key.0), Some(before - 1));
        assert_eq!(seen.keys().last().map(|key| key.0), Some(now + 1));
    }
}

#[test]
fn lock_bytes_of_every_value() {
    for (devices, objects) in LOCKABLE {
        let calls = lock_bytes(&mut Rng::new(2), devices, objects);
        assert_eq!(calls.len(), 2 * 3 * 256);
        for call in calls {
            let config = load(&call.line).expect("the file is accepted");
            let state = State::from_bytes(&config, &call.state).expect("the length is right");
            let set = state.locks.iter().position(|lock| *lock != 0);
            let fits = set.is_none_or(|place| place < devices && state.locks[place] == 1 && state.devices[place] == 0);
            let number = operate(&call.line, &mut call.state.clone(), &call.record, &mut call.answer.clone());
            assert_eq!(number != 9, fits, "{set:?} {:?}", state.locks);
        }
    }
}

/// The calls of the matching tell what goes wrong with lengths and with fresh states, which no session shows, for small
/// configurations and for wide ones.
#[test]
fn calls_tell_faulty_lengths_and_fresh_states() {
    let mut told: Counts<(&str, bool)> = BTreeMap::new();
    let mut count = |call: &Call| {
        let Ok(config) = load(&call.line) else { return };
        let right = call.state.len() == config.state_bytes();
        for (name, fits) in LENGTHS.iter().filter(|_| call.function != Function::LoadCheck) {
            *told.entry((name, config.is_wide())).or_default() += usize::from(fits(&config, call.state.len()) != right);
        }
        if call.function == Function::Fresh && right {
            for (name, freshened) in FRESH {
                let other = freshened(&config, &call.state) != State::fresh(&config).to_bytes();
                *told.entry((name, config.is_wide())).or_default() += usize::from(other);
            }
        }
    };
    let mut calls = Calls::new(10);
    for _ in 0..10_000 {
        let call = calls.next_call();
        count(&call);
        let mut state = call.state.clone();
        match call.function {
            Function::Operate => drop(operate(&call.line, &mut state, &call.record, &mut call.answer.clone())),
            Function::Fresh => drop(fresh(&call.line, &mut state)),
            Function::LoadCheck => (),
        }
        calls.carry(&call, &state);
    }
    LOCKABLE.iter().for_each(|(devices, objects)| {
        lock_lengths(&mut Rng::new(3), *devices, *objects).iter().for_each(&mut count);
    });
    println!("{told:?}");
    let names = LENGTHS.iter().map(|(name, _)| *name).chain(FRESH.iter().map(|(name, _)| *name));
    for name in names {
        // The shorter length is right for small configurations.
        let small = if name == SHORTER { 0 } else { 5 };
        assert!(told[&(name, false)] >= small && told[&(name, true)] >= 5, "{name} {told:?}");
    }
}

/// The calls of the matching tell every faulty judge of locks too.
#[test]
fn calls_tell_every_faulty_judge_of_locks() {
    let faulty = LOCKS;
    let mut told: Counts<&str> = BTreeMap::new();
    let mut calls = Calls::new(11);
    for _ in 0..30_000 {
        let call = calls.next_call();
        let mut state = call.state.clone();
        match (call.function, load(&call.line)) {
            (Function::Operate, Ok(config)) => {
                let number = operate(&call.line, &mut state, &call.record, &mut call.answer.clone());
                let before = State::from_bytes(&config, &call.state).filter(|state| well_formed(&config, state));
                if let Some(before) = before.filter(|_| number == 0 || number >= 10) {
                    let right = judge(closure, &config, &before, &call.record);
                    for fault in faulty.iter().filter(|fault| fault.can_touch(&config, &call.record, number as u8)) {
                        let other = faults::judge(fault, &config, &before, &call.record) != right;
                        *told.entry(fault.name).or_default() += usize::from(other);
                    }
                }
            }
            (Function::Fresh, _) => drop(fresh(&call.line, &mut state)),
            _ => (),
        }
        calls.carry(&call, &state);
    }
    println!("{told:?}");
    for fault in &faulty {
        assert!(often(&told, &fault.name, 5), "{} {told:?}", fault.name);
    }
}

/// Whether codes 8 and 11 clear the lock of the device that they move cannot be told: in a well formed state a device
/// that either of them is accepted for has none.
#[test]
fn a_device_that_comes_or_leaves_has_no_lock() {
    let mut moved = [0; 2];
    for seed in 0..300 {
        let mut rng = Rng::part(42, seed);
        let world = locking(&mut rng, Size::Small);
        let state = areas::scrambled(&mut rng, &world.config);
        for device in 1..=world.config.devices() {
            for (count, record) in moved.iter_mut().zip([vec![11, device], vec![8, device, rng.between(1, 63)]]) {
                if judge(closure, &world.config, &state, &row(&record)).is_ok() {
                    *count += 1;
                    assert!(!state.is_locked(device));
                }
            }
        }
    }
    assert!(moved.iter().all(|count| *count > 0), "{moved:?}");
}
