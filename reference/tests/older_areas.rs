//! `older-area` (request N6): a state area of before there were locks becomes one of now by sixteen zeros at its end.
//! The old layout, its rules and its judge stand here, with offsets written out; over generated areas of the old
//! lengths, sound and broken, everything is as it was, call by call.

mod common;

use common::{SMALL_LOCKS, WIDE_LOCKS};
use reference::closure::closure;
use reference::config::{Config, Kind, Owner};
use reference::effect;
use reference::generate::damaged::{lines, sound};
use reference::generate::records::record;
use reference::generate::{Rng, Size, Want, areas, greened};
use reference::operation;
use reference::questions::{Case, QUESTIONS};
use reference::state::{State, well_formed};
use reference::{first_bad, load, operate};

/// The last code that there was.
const LAST_CODE: usize = 13;

/// The records of an old area, by its length.
fn room(area: &[u8]) -> usize {
    if area.len() == SMALL_LOCKS { 96 } else { 192 }
}

/// An object's record: its partition and contents.
fn old_record(area: &[u8], object: usize) -> (u8, &[u8]) {
    let place = 96 + 17 * (object - 1);
    (area[place], &area[place + 1..place + 17])
}

/// Question 9 as it was: standings, drivers' and cards' bytes, records.
fn old_formed(config: &Config, area: &[u8]) -> bool {
    let exists = |partition: u8| partition < 64 && matches!(area[usize::from(partition)], 1 | 3);
    let fits = |partition: u8| partition == 0 || exists(partition);
    let actors = |bytes: &[u8], count: usize| {
        bytes[..count].iter().all(|partition| fits(*partition)) && bytes[count..].iter().all(|byte| *byte == 0)
    };
    let record_fits = |object: usize| {
        let (partition, contents) = old_record(area, object);
        let Some(told) = config.objects.get(object - 1) else {
            return partition == 0 && contents == [0; 16];
        };
        let home = match told.owner {
            Owner::External => partition,
            Owner::Driver(driver) => area[63 + driver],
            Owner::Device(card) => area[79 + card],
        };
        let value = usize::from(contents[0]);
        let plain = contents[1..] == [0; 15];
        let holds = match (told.kind, told.owner) {
            (Kind::Function | Kind::Data, _) => true,
            (Kind::Transfer, _) => plain && value <= config.values.len(),
            (Kind::Hardcoded, Owner::Device(card)) => plain && value == config.hardcoded[card - 1],
            (Kind::Hardcoded, _) => false,
        };
        fits(partition) && partition == home && holds
    };
    area[0] == 0
        && area[..64].iter().all(|standing| *standing <= 3)
        && actors(&area[64..80], config.drivers)
        && actors(&area[80..96], config.devices())
        && (1..=room(area)).all(record_fits)
}

/// The judge as it was, for an area of the old length: the answer, the area after the call and the answer area.
fn old_operate(config: &Config, area: &[u8], record: &[u8], answer: &[u8]) -> (u32, Vec<u8>, Vec<u8>) {
    let unchanged = |number: u8| (u32::from(number), area.to_vec(), answer.to_vec());
    if answer.len() < 128 {
        return unchanged(8);
    }
    if !old_formed(config, area) {
        return unchanged(9);
    }
    let state = State::from_bytes(config, &areas::carried_over(area)).expect("the length is right");
    let Some(operation) = operation::read(record).filter(|operation| operation.code() <= LAST_CODE) else {
        return unchanged(10);
    };
    let case = Case { config, state: &state, operation: &operation, search: closure };
    let asked = QUESTIONS.iter().filter(|(number, _)| *number != 23);
    if let Some((number, _)) = asked.into_iter().find(|(_, question)| !question(&case)) {
        return unchanged(*number);
    }
    let mut after = effect::apply(config, &state, &operation).to_bytes();
    after.truncate(area.len());
    let mut answers = answer.to_vec();
    for (place, contents) in effect::answers(&state, &operation).iter().enumerate() {
        answers[16 * place..16 * place + 16].copy_from_slice(contents);
    }
    (0, after, answers)
}

/// Whether a record could be read before there were codes 14 and 15, or cannot be read now either.
fn is_old(record: &[u8]) -> bool {
    operation::read(record).is_none_or(|operation| operation.code() <= LAST_CODE)
}

/// An old area and the new one made of it show the same, keep the rules or do not, and answer a record alike.
fn compare(config: &Config, line: &[u8], area: &[u8], record: &[u8], answer: &[u8]) -> u32 {
    let over = areas::carried_over(area);
    assert_eq!(over.len(), area.len() + 16);
    let state = State::from_bytes(config, &over).expect("the length is right");
    assert_eq!(
        (&state.status[..], &state.drivers[..], &state.devices[..]),
        (&area[..64], &area[64..80], &area[80..96])
    );
    assert_eq!(state.objects.len(), room(area));
    for (place, shown) in state.objects.iter().enumerate() {
        assert_eq!((shown.partition, &shown.contents[..]), old_record(area, place + 1));
    }
    assert_eq!(state.locks, [0; 16]);
    assert_eq!(state.to_bytes(), over);
    assert_eq!(well_formed(config, &state), old_formed(config, area));
    let (mut now, mut answers) = (over, answer.to_vec());
    let number = operate(line, &mut now, record, &mut answers);
    let (old, old_area, old_answers) = old_operate(config, area, record, answer);
    assert_eq!((number, answers), (old, old_answers), "{record:?}");
    assert_eq!(now, areas::carried_over(&old_area));
    number
}

fn old_length(config: &Config) -> usize {
    if config.is_wide() { WIDE_LOCKS } else { SMALL_LOCKS }
}

/// Lists of calls from a fresh old area, carried on in the old layout and in the new one.
#[test]
fn old_areas_go_on_as_they_would_have() {
    let mut seen = [0; 24];
    for seed in 0..120 {
        let mut rng = Rng::part(51, seed);
        let size = Size::any(&mut rng);
        let world = greened(&mut rng, size);
        let mut area = State::fresh(&world.config).to_bytes();
        area.truncate(old_length(&world.config));
        for _ in 0..40 + world.config.objects.len() {
            let state = State::from_bytes(&world.config, &areas::carried_over(&area)).expect("the length is right");
            let want = Want::any(&mut rng, &world);
            let record = record(&mut rng, &world, &state, want);
            let length = if rng.percent(4) { rng.below(128) } else { 128 };
            let answer = rng.bytes(length);
            if is_old(&record) {
                let number = compare(&world.config, &world.line, &area, &record, &answer);
                seen[number as usize] += 1;
                area = old_operate(&world.config, &area, &record, &answer).1;
            }
        }
    }
    println!("{seen:?}");
    assert!([0, 8].into_iter().chain(10..=22).all(|number| seen[number] >= 20), "{seen:?}");
    assert_eq!((seen[9], seen[23]), (0, 0));
}

/// Areas that no list of calls makes, broken in every rule, and any bytes at all.
#[test]
fn broken_old_areas_are_broken_as_they_were() {
    let mut seen = [[0; 2]; 2];
    for seed in 0..80 {
        let mut rng = Rng::part(52, seed);
        let size = if seed % 2 == 0 { Size::Wide } else { Size::any(&mut rng) };
        let world = greened(&mut rng, size);
        for made in lines(&mut rng, &world.config) {
            let config = &made.config;
            let length = old_length(config);
            let scrambled = sound(&mut rng, config).to_bytes();
            let noise = rng.bytes(length);
            let damaged = made.areas.iter().map(|area| area.state.to_bytes());
            for mut area in damaged.chain([scrambled, noise]) {
                area.truncate(length);
                let (partition, answer) = (rng.between(1, 63) as u8, [7; 128]);
                let number = compare(config, &made.line, &area, &[5, partition], &answer);
                let over = areas::carried_over(&area);
                assert_eq!(load(&made.line).as_ref(), Ok(config));
                assert!(first_bad(&made.line, &over) == 0 || number == 9);
                seen[usize::from(config.is_wide())][usize::from(number == 9)] += 1;
            }
        }
    }
    println!("small and wide, sound and broken: {seen:?}");
    assert!(seen.iter().flatten().all(|count| *count > 100), "{seen:?}");
}
