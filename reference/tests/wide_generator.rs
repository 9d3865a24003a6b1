//! What the generator gives of wide configurations (request N2): their share, chains and records with numbers of two
//! bytes, areas of both lengths for lines of both kinds, broken in the records that small configurations have not.

mod common;

use common::{SMALL_AREA, WIDE_AREA, WIDE_LOCKS};
use reference::closure::{closure, crosses};
use reference::coverage::chains::shortest;
use reference::effect;
use reference::gate::judge;
use reference::generate::records::record;
use reference::generate::sessions::folder;
use reference::generate::worlds::world;
use reference::generate::{Call, Calls, Function, Rng, Size, Want, areas, broken, drills};
use reference::operation::{self, Operation};
use reference::state::State;
use reference::{Config, fresh, load, load_check, operate};
use std::collections::BTreeMap;

/// How often each thing occurs.
type Counts<T> = BTreeMap<T, usize>;

fn is_wide(line: &[u8]) -> bool {
    load(line).is_ok_and(|config| config.is_wide())
}

#[test]
fn one_line_out_of_eight_is_wide() {
    let mut counts: Counts<usize> = BTreeMap::new();
    for seed in 0..1_000 {
        let mut rng = Rng::part(1, seed);
        let size = Size::any(&mut rng);
        let config = world(&mut rng, size).config;
        if config.is_wide() {
            *counts.entry(config.objects.len()).or_default() += 1;
        }
    }
    assert!(counts.keys().eq(&[97, 128, 191, 192]) && counts.values().sum::<usize>() >= 125, "{counts:?}");
    assert!(counts.values().all(|count| *count >= 20), "{counts:?}");
}

#[test]
fn one_folder_out_of_eight_is_wide() {
    let wide = |seed: u64| {
        let mut rng = Rng::part(2, seed);
        let size = Size::any(&mut rng);
        is_wide(&folder(&mut rng, size, 0, None).line)
    };
    assert!((0..1_000).filter(|seed| wide(*seed)).count() >= 125);
}

/// Whether a refusal by 19 has a chain through an object above 127 behind it.
fn crosses_above_127(config: &Config, state: &State, operation: &Operation) -> bool {
    let next = effect::apply(config, state, operation);
    let chain = shortest(config, &next, |device, entry| crosses(config, &next, device, entry));
    chain.is_some_and(|chain| chain.descriptors.iter().any(|object| *object > 127))
}

/// Whether some device reads an object above 127 in what it may come to.
fn reads_above_127(config: &Config, state: &State) -> bool {
    closure(config, state).reads.iter().any(|(_, (descriptor, _))| *descriptor > 127)
}

fn names_above_127(operation: &Operation) -> bool {
    [operation.sources(), operation.targets()].concat().iter().any(|object| *object > 127)
}

/// Chains that cross, accepted writes after which a chain is there, accepted records, each with objects above 127.
fn survey(seed: u64) -> [usize; 3] {
    let mut rng = Rng::part(3, seed);
    let world = world(&mut rng, Size::Wide);
    let mut state = State::fresh(&world.config);
    let mut seen = [0; 3];
    for _ in 0..200 {
        let want = Want::any(&mut rng, &world);
        let record = record(&mut rng, &world, &state, want);
        let Some(operation) = operation::read(&record) else { continue };
        match judge(closure, &world.config, &state, &record) {
            Err(19) => seen[0] += usize::from(crosses_above_127(&world.config, &state, &operation)),
            Err(_) => (),
            Ok((next, _)) => {
                seen[1] += usize::from(operation.code() == 1 && reads_above_127(&world.config, &next));
                seen[2] += usize::from(names_above_127(&operation));
                state = next;
            }
        }
    }
    seen
}

#[test]
fn wide_sessions_go_through_objects_above_127() {
    let mut sum = [0; 3];
    for seed in 0..60 {
        survey(seed).iter().zip(&mut sum).for_each(|(count, sum)| *sum += count);
    }
    println!("chains, writes, records: {sum:?}");
    assert!(sum[0] >= 50 && sum[1] >= 200 && sum[2] >= 500, "{sum:?}");
}

/// Whether a value puts another into an object above 127.
fn leads_above_127(config: &Config, value: usize) -> bool {
    config.value(value).iter().any(|entry| entry.stored != 0 && entry.object > 127)
}

#[test]
fn most_chains_of_the_widest_begin_above_127() {
    let (mut chains, mut above) = (0, 0);
    for seed in 0..100 {
        let world = world(&mut Rng::part(8, seed), Size::Wide);
        if world.config.objects.len() > 128 {
            chains += world.heads.len();
            above += world.heads.iter().filter(|(_, first)| leads_above_127(&world.config, *first)).count();
        }
    }
    println!("{above} of {chains}");
    assert!(chains > 100 && above * 2 > chains, "{above} of {chains}");
}

fn run(call: &Call) -> (u32, Vec<u8>) {
    let (mut state, mut answer) = (call.state.clone(), call.answer.clone());
    let number = match call.function {
        Function::LoadCheck => load_check(&call.line),
        Function::Fresh => fresh(&call.line, &mut state),
        Function::Operate => operate(&call.line, &mut state, &call.record, &mut answer),
    };
    (number, state)
}

/// The calls that are compared with the proved library: lines of both kinds, by one session out of eight at least, with
/// areas of both lengths and of others; every number for both kinds.
#[test]
fn calls_give_areas_of_both_lengths_to_lines_of_both_kinds() {
    let mut calls = Calls::new(5);
    let mut answers: Counts<(bool, u32)> = BTreeMap::new();
    let mut lengths: Counts<(bool, usize)> = BTreeMap::new();
    let (mut sessions, mut wide) = (0, 0);
    for _ in 0..30_000 {
        let call = calls.next_call();
        if calls.sessions != sessions {
            sessions = calls.sessions;
            wide += u64::from(calls.world().config.is_wide());
        }
        let (number, state) = run(&call);
        calls.carry(&call, &state);
        *answers.entry((is_wide(&call.line), number)).or_default() += 1;
        if number == 7 {
            *lengths.entry((is_wide(&call.line), call.state.len())).or_default() += 1;
        }
    }
    assert!(wide * 8 >= sessions, "{wide} of {sessions}");
    let often = |counts: Option<&usize>| counts.is_some_and(|count| *count >= 10);
    assert!([0, 7, 8, 9].into_iter().chain(10..=21).all(|number| often(answers.get(&(true, number)))), "{answers:?}");
    for key in [(false, WIDE_AREA), (false, SMALL_AREA - 1), (false, SMALL_AREA + 1)].into_iter().chain([
        (true, SMALL_AREA),
        (true, WIDE_AREA - 1),
        (true, WIDE_AREA + 1),
    ]) {
        assert!(lengths.contains_key(&key), "{key:?} {lengths:?}");
    }
}

#[test]
fn widened_files_are_accepted_cut_and_refused() {
    let mut rng = Rng::new(5);
    let mut answers: Counts<u32> = BTreeMap::new();
    for _ in 0..400 {
        let size = Size::any(&mut rng);
        let world = world(&mut rng, size);
        let line = broken::widened(&mut rng, &world);
        let number = load_check(&line);
        assert!(number != 0 || is_wide(&line));
        *answers.entry(number).or_default() += 1;
    }
    assert!(answers.keys().eq(&[0, 1, 3]) && answers.values().all(|count| *count >= 40), "{answers:?}");
}

/// Which of the records behind the last object's have a byte: the first, the last, the last byte of all.
fn set_behind(config: &Config, area: &[u8]) -> [bool; 3] {
    let first = 96 + 17 * config.objects.len();
    let is_set = |bytes: Option<&[u8]>| bytes.is_some_and(|bytes| bytes.iter().any(|byte| *byte != 0));
    [
        is_set(area.get(first..first + 17)),
        is_set(area.get(WIDE_LOCKS - 17..WIDE_LOCKS)),
        is_set(area.get(WIDE_AREA - 1..)),
    ]
}

#[test]
fn wide_areas_are_broken_behind_the_last_object() {
    let mut rng = Rng::new(6);
    let mut seen = [0; 3];
    for _ in 0..600 {
        let world = world(&mut rng, Size::Wide);
        let area = areas::broken(&mut rng, &world.config, &State::fresh(&world.config));
        assert_eq!(area.len(), WIDE_AREA);
        // With many absent objects, so that neither record is likely to be the one by chance.
        if world.config.objects.len() <= 128 {
            set_behind(&world.config, &area).iter().zip(&mut seen).for_each(|(set, sum)| *sum += usize::from(*set));
        }
    }
    assert!(seen.iter().all(|count| *count >= 8), "{seen:?}");
}

#[test]
fn every_turn_of_the_wide_drills_is_sound() {
    let mut counts: Counts<usize> = BTreeMap::new();
    for seed in 0..800 {
        let drill = drills::any(&mut Rng::part(7, seed));
        assert_eq!(load(&drill.world.line).as_ref(), Ok(&drill.world.config), "seed {seed}");
        *counts.entry(drill.world.config.objects.len()).or_default() += 1;
    }
    assert!([97, 128, 191, 192].iter().all(|objects| counts.get(objects) >= Some(&8)), "{counts:?}");
}
