//! Request N3: the first object record of a state area that breaks a rule, and question 9 with green zones (request
//! N5). Numbers are written out here.

mod common;

use common::{SMALL_AREA, SMALL_LOCKS, WIDE_AREA, desk_after_seven};
use reference::faults::lock_areas::{FORMED_LOCKS, SMALL_PLACE};
use reference::faults::walks::{FORMED, NO_GREEN, WALKS};
use reference::generate::damaged::{Damaged, Line, lines, sound};
use reference::generate::lengths::plain_line;
use reference::generate::worlds::world;
use reference::generate::{Rng, Size, broken};
use reference::state::{self, State, well_formed};
use reference::tokens::row;
use reference::{Config, first_bad, fresh, load, operate};
use std::collections::BTreeMap;

const REFUSED: u64 = 4_294_967_296;

/// Where an object's record begins.
fn at(object: usize) -> usize {
    96 + 17 * (object - 1)
}

/// The length of an area with room for 96 or for 192 objects.
fn length(room: usize) -> usize {
    if room == 96 { SMALL_AREA } else { WIDE_AREA }
}

/// The record that is found, and the answer to an operation with an empty record: 10 if the state is well formed. An
/// answer changes nothing.
fn found(line: &[u8], area: &[u8]) -> (u64, u32) {
    let mut after = area.to_vec();
    let answer = operate(line, &mut after, &[], &mut [0; 128]);
    assert_eq!(after, area);
    (first_bad(line, area), answer)
}

/// The same for the first seven rows of P over L, with bytes of the state changed. Partitions 1 and 2 exist; driver 1,
/// device 1 and object 5 are in 1, device 2 is in 2; objects 1 and 2 are device 1's, 3 and 4 device 2's, 6 driver 1's.
fn with_bytes(changes: &[(usize, u8)]) -> (u64, u32) {
    let mut desk = desk_after_seven();
    for (place, byte) in changes {
        assert_ne!(desk.state[*place], *byte, "{changes:?}");
        desk.state[*place] = *byte;
    }
    found(&desk.line, &desk.state)
}

#[test]
fn a_record_that_breaks_a_rule_is_named() {
    assert_eq!(with_bytes(&[]), (0, 10));
    let partitions =
        [(1, 2), (1, 0), (2, 0), (2, 2), (2, 3), (3, 1), (4, 0), (5, 3), (5, 64), (5, 255), (6, 0), (6, 2)];
    for (object, byte) in partitions {
        assert_eq!(with_bytes(&[(at(object), byte)]), (object as u64, 9), "object {object} in {byte}");
    }
    let values = [(1, 0), (1, 2), (1, 6), (2, 6), (2, 255), (3, 1), (4, 6)];
    for (object, value) in values {
        assert_eq!(with_bytes(&[(at(object) + 1, value)]), (object as u64, 9), "object {object} holds {value}");
    }
    for object in 1..=4 {
        for byte in 2..=16 {
            assert_eq!(with_bytes(&[(at(object) + byte, 1)]), (object as u64, 9), "object {object}, byte {byte}");
        }
    }
}

#[test]
fn contents_of_kinds_2_and_3_and_places_of_external_objects_are_free() {
    let free = [(at(5) + 1, 255), (at(5) + 16, 1), (at(6) + 2, 200), (at(6) + 16, 255), (at(5), 2), (at(5), 0)];
    for change in free {
        assert_eq!(with_bytes(&[change]), (0, 10), "{change:?}");
    }
    assert_eq!(with_bytes(&free[..4]), (0, 10));
    assert_eq!(with_bytes(&[(3, 2)]), (0, 10), "a destroyed partition with nothing in it");
    assert_eq!(with_bytes(&[(at(2) + 1, 5), (at(4) + 1, 5)]), (0, 10), "values up to K");
}

#[test]
fn every_byte_of_an_absent_record_counts() {
    for (objects, room) in [(0, 96), (1, 96), (95, 96), (97, 192), (128, 192), (191, 192)] {
        let line = plain_line(objects);
        for number in [objects + 1, objects + 2, room - 1, room] {
            for byte in (0..17).filter(|_| (objects + 1..=room).contains(&number)) {
                let mut area = vec![0; length(room)];
                area[1] = 1;
                area[at(number) + byte] = 1;
                assert_eq!(found(&line, &area), (number as u64, 9), "{objects} objects, record {number}, byte {byte}");
            }
        }
    }
    // No record is absent, and contents are free.
    for objects in [96, 192] {
        let area = [vec![0; 96], [vec![0], vec![255; 16]].concat().repeat(objects), vec![0; 16]].concat();
        assert_eq!(found(&plain_line(objects), &area), (0, 10));
    }
}

#[test]
fn every_record_of_both_rooms_can_be_the_first() {
    for objects in [96, 192] {
        // Kind 1 everywhere, and no value but 0.
        let line = row(&[&[1, 0, 0, objects, 0][..], &[1, 0, 0].repeat(objects)].concat());
        for number in 1..=objects {
            let mut area = vec![0; length(objects)];
            (number..=objects).for_each(|bad| area[at(bad) + 1] = 1);
            assert_eq!(found(&line, &area), (number as u64, 9), "{number} and all behind it");
            (number + 1..=objects).for_each(|good| area[at(good) + 1] = 0);
            assert_eq!(found(&line, &area), (number as u64, 9), "{number} alone");
        }
    }
}

#[test]
fn the_smaller_of_two_counts() {
    let bad =
        [(at(1) + 1, 2), (at(2) + 1, 6), (at(3), 1), (at(4), 0), (at(5), 3), (at(6), 0), (at(7), 1), (at(96) + 16, 1)];
    for (first, change) in bad.iter().enumerate() {
        for later in &bad[first + 1..] {
            let number = (change.0 - 96) / 17 + 1;
            assert_eq!(with_bytes(&[*later, *change]), (number as u64, 9), "{change:?} {later:?}");
        }
    }
}

#[test]
fn a_head_or_lock_that_breaks_no_record_gives_0_and_question_9_says_no() {
    let heads =
        [(0, 1), (0, 2), (0, 3), (0, 255), (3, 4), (63, 255), (65, 3), (65, 64), (66, 1), (79, 2), (82, 1), (95, 1)];
    // Both devices are active, and there is no third.
    let of = |device: usize| SMALL_LOCKS + device - 1;
    let locks = [(of(1), 1), (of(1), 2), (of(2), 1), (of(2), 255), (of(3), 1), (of(16), 1), (of(16), 2)];
    let heads = [&heads[..], &locks].concat();
    for change in heads.iter().copied() {
        assert_eq!(with_bytes(&[change]), (0, 9), "{change:?}");
    }
    // The walk is right beside it.
    for change in heads {
        assert_eq!(with_bytes(&[change, (at(4), 0)]), (4, 9), "{change:?}");
        assert_eq!(with_bytes(&[change, (at(96), 7)]), (96, 9), "{change:?}");
    }
}

#[test]
fn a_head_that_breaks_records_gives_the_first_of_them() {
    // The status of partition 1, where objects 1, 2, 5 and 6 are, and of 2, where 3 and 4 are.
    for status in [0, 2, 4, 255] {
        assert_eq!(with_bytes(&[(1, status)]), (1, 9), "{status}");
        assert_eq!(with_bytes(&[(2, status)]), (3, 9), "{status}");
    }
    // Driver 1 owns object 6, device 1 objects 1 and 2, device 2 objects 3 and 4.
    for partition in [0, 2, 3, 64] {
        assert_eq!(with_bytes(&[(64, partition)]), (6, 9), "{partition}");
        assert_eq!(with_bytes(&[(80, partition)]), (1, 9), "{partition}");
    }
    assert_eq!(with_bytes(&[(81, 1)]), (3, 9));
    // Together with its objects: right where the partition exists.
    assert_eq!(with_bytes(&[(81, 1), (at(3), 1), (at(4), 1)]), (0, 10));
    assert_eq!(with_bytes(&[(81, 0), (at(3), 0), (at(4), 0)]), (0, 10));
    for partition in [3, 63, 64, 255] {
        assert_eq!(with_bytes(&[(81, partition), (at(3), partition), (at(4), partition)]), (3, 9), "{partition}");
    }
    assert_eq!(with_bytes(&[(81, 1), (at(3), 1)]), (4, 9));
    // Only an external object is in partition 3: the head keeps its rules.
    assert_eq!(with_bytes(&[(3, 1), (at(5), 3)]), (0, 10));
    assert_eq!(with_bytes(&[(3, 3), (at(5), 3)]), (0, 10));
    assert_eq!(with_bytes(&[(3, 2), (at(5), 3)]), (5, 9));
}

/// A green zone's standing is 3: whoever was in a partition may be in a green one, and nothing else is a standing.
#[test]
fn green_zones_exist() {
    assert_eq!(with_bytes(&[(1, 3)]), (0, 10));
    assert_eq!(with_bytes(&[(2, 3)]), (0, 10));
    assert_eq!(with_bytes(&[(1, 3), (2, 3), (63, 3)]), (0, 10));
    // Nobody is in partition 3: the record that is put there is right if it exists.
    assert_eq!(with_bytes(&[(3, 3), (81, 3), (at(3), 3), (at(4), 3), (65, 3)]), (0, 10));
    assert_eq!(with_bytes(&[(3, 3), (81, 3), (at(3), 3)]), (4, 9));
    assert_eq!(with_bytes(&[(0, 3)]), (0, 9));
    for status in 4..=255 {
        assert_eq!(with_bytes(&[(3, status)]), (0, 9), "{status}");
        assert_eq!(with_bytes(&[(2, status)]), (3, 9), "{status}");
        assert_eq!(with_bytes(&[(3, status), (at(5), 3)]), (5, 9), "{status}");
    }
}

#[test]
fn damaged_areas_tell_every_faulty_question_9() {
    let faulty = [&FORMED[..], &FORMED_LOCKS].concat();
    let mut told: Vec<(&str, [usize; 2])> = faulty.iter().map(|(name, _)| (*name, [0; 2])).collect();
    for Line { config, areas, .. } in damaged_lines(28, 50) {
        for one in &areas {
            let right = one.place == 0 && one.head_fits && one.locks_fit;
            for ((_, formed), (_, counts)) in faulty.iter().zip(&mut told) {
                counts[usize::from(config.is_wide())] += usize::from(formed(&config, &one.state) != right);
            }
        }
    }
    println!("{told:?}");
    for (name, counts) in told {
        let small = if name == SMALL_PLACE { 0 } else { 3 };
        assert!(counts[0] >= small && counts[1] >= 3, "{name}: {counts:?}");
    }
}

#[test]
fn files_come_first_then_the_length() {
    for (objects, needed) in [(0, SMALL_AREA), (96, SMALL_AREA), (97, WIDE_AREA), (192, WIDE_AREA)] {
        let line = plain_line(objects);
        for length in 0..=4_096 {
            let expected = if length == needed { 0 } else { REFUSED + 7 };
            assert_eq!(first_bad(&line, &vec![0; length]), expected, "{objects} objects, {length} bytes");
        }
        assert_eq!(first_bad(&[&line[..], &[0]].concat(), &[]), REFUSED + 4);
        assert_eq!(first_bad(&line[..4], &vec![1; needed]), REFUSED + 1);
    }
    let mut rng = Rng::new(21);
    for number in (1..=6).cycle().take(120) {
        let size = Size::any(&mut rng);
        let world = world(&mut rng, size);
        let line = broken::line(&mut rng, &world, number);
        let length = [0, SMALL_AREA, WIDE_AREA][rng.below(3)];
        if let Err(question) = load(&line) {
            assert_eq!(first_bad(&line, &rng.bytes(length)), REFUSED + u64::from(question));
        }
    }
}

#[test]
fn any_area_gives_a_place_within_the_room() {
    let mut rng = Rng::new(22);
    for _ in 0..300 {
        let size = Size::any(&mut rng);
        let world = world(&mut rng, size);
        let (room, length) = if world.config.objects.len() <= 96 { (96, SMALL_AREA) } else { (192, WIDE_AREA) };
        let place = first_bad(&world.line, &rng.bytes(length));
        assert!(place <= room);
        let mut area = vec![0; length];
        assert_eq!(fresh(&world.line, &mut area), 0);
        assert_eq!(found(&world.line, &area), (0, 10));
    }
}

#[test]
fn records_that_are_put_right_one_by_one_lead_to_a_well_formed_state() {
    let mut rng = Rng::new(23);
    for size in [Size::Tiny, Size::Medium, Size::Full, Size::Wide].into_iter().cycle().take(60) {
        let world = world(&mut rng, size);
        let right = sound(&mut rng, &world.config).to_bytes();
        let mut area = right.clone();
        for _ in 0..rng.between(1, 40) {
            let place = rng.between(96, area.len() - 17);
            area[place] = rng.between(0, 255) as u8;
        }
        let mut last = 0;
        loop {
            let (place, answer) = found(&world.line, &area);
            assert_eq!(answer, if place == 0 { 10 } else { 9 });
            if place == 0 {
                break;
            }
            assert!(place > last, "{place} behind {last}");
            last = place;
            let from = at(place as usize);
            area[from..from + 17].copy_from_slice(&right[from..from + 17]);
        }
    }
}

/// Small and wide configurations, each with areas.
fn damaged_lines(seed: u64, count: u64) -> impl Iterator<Item = Line> {
    (0..count).flat_map(move |part| {
        let mut rng = Rng::part(seed, part);
        let size = if part % 2 == 0 { Size::Wide } else { Size::any(&mut rng) };
        let world = world(&mut rng, size);
        let made = lines(&mut rng, &world.config);
        assert_eq!(made[0].line, world.line);
        made
    })
}

#[test]
fn damaged_areas_have_their_first_bad_record_where_they_say() {
    for Line { config, line, areas } in damaged_lines(24, 100) {
        assert_eq!(load(&line).as_ref(), Ok(&config));
        for Damaged { name, state, place, head_fits, locks_fit } in areas {
            let answer = if place == 0 && head_fits && locks_fit { 10 } else { 9 };
            assert_eq!(found(&line, &state.to_bytes()), (place as u64, answer), "{name}");
            assert_eq!(well_formed(&config, &state), answer == 10, "{name}");
            assert_eq!(state::head_fits(&config, &state), head_fits, "{name}");
            assert_eq!(state::locks_fit(&config, &state), locks_fit, "{name}");
        }
    }
}

/// What a place is: the first, the last object's, the one behind it, the room's last.
fn places(config: &Config, place: usize) -> Vec<&'static str> {
    let (objects, room) = (config.objects.len(), config.room());
    let all = [("first", 1), ("object N", objects), ("N + 1", objects + 1), ("last", room)];
    all.into_iter().filter(|(_, number)| *number == place).map(|(name, _)| name).chain(["any"]).collect()
}

/// How often each thing was broken at each place, of small configurations and of wide ones.
fn survey() -> BTreeMap<(String, &'static str), [usize; 2]> {
    let mut seen: BTreeMap<(String, &'static str), [usize; 2]> = BTreeMap::new();
    for Line { config, areas, .. } in damaged_lines(25, 500) {
        for one in areas {
            for place in places(&config, one.place) {
                seen.entry((one.name.clone(), place)).or_default()[usize::from(config.is_wide())] += 1;
            }
        }
    }
    seen
}

#[test]
fn every_rule_is_broken_at_every_place_of_both_rooms() {
    let seen = survey();
    let often = |name: &str, place: &'static str| {
        let counts = seen.get(&(name.to_string(), place)).copied().unwrap_or_default();
        assert!(counts.iter().all(|count| *count >= 10), "{name}, {place}: {counts:?}");
    };
    let partitions = ["a partition above 63", "a partition never used", "a destroyed partition"];
    let owned = ["another partition than the owner's", "no partition, and the owner is active"];
    let contents = ["a value above K", "a byte behind a value", "another hardcoded value"];
    for name in [&partitions[..], &owned, &contents, &["a byte behind a hardcoded value"]].concat() {
        ["first", "object N", "last", "any"].into_iter().for_each(|place| often(name, place));
    }
    ["first", "object N", "N + 1", "any"].into_iter().for_each(|place| often("two records", place));
    for name in ["an absent object's partition", "an absent object's contents", "the head and a record"] {
        ["N + 1", "last", "any"].into_iter().for_each(|place| often(name, place));
    }
    let alone = ["status 0", "a status above 3", "a driver without objects", "an absent driver", "an absent device"];
    let status = ["destroyed", "never used", "with no status"].map(|name| format!("objects in a partition {name}"));
    let ways = ["inactive", "elsewhere", "nowhere", "nowhere with its objects"];
    let owners = ways.into_iter().flat_map(|way| ["driver", "device"].map(|owner| format!("a {owner} {way}")));
    ["nothing"].into_iter().chain(alone).for_each(|name| often(name, "any"));
    status.into_iter().chain(owners).for_each(|name| often(&name, "any"));
    for place in ["the first", "the last", "any"] {
        ["an active", "an absent"].iter().for_each(|who| often(&format!("a lock of {who} device, {place}"), "any"));
        for who in ["an active", "an inactive", "an absent"] {
            often(&format!("a byte that is no lock, of {who} device, {place}"), "any");
        }
    }
}

#[test]
fn damaged_areas_tell_every_faulty_walk() {
    let mut told = WALKS.map(|(name, _)| (name, [0; 2]));
    for Line { config, areas, .. } in damaged_lines(26, 50) {
        for one in &areas {
            for ((_, walk), (_, counts)) in WALKS.iter().zip(&mut told) {
                counts[usize::from(config.is_wide())] += usize::from(walk(&config, &one.state) != one.place);
            }
        }
    }
    println!("{told:?}");
    for (name, counts) in told {
        let small = if name == "asks the first 96 records" { 0 } else { 3 };
        assert!(counts[0] >= small && counts[1] >= 3, "{name}: {counts:?}");
    }
}

#[test]
fn faulty_walks_find_nothing_new_in_sound_states() {
    // Where nothing is broken, no walk names a record: each differs in what it is about alone.
    let mut rng = Rng::new(27);
    for size in [Size::Small, Size::Full, Size::Wide].into_iter().cycle().take(30) {
        let config = world(&mut rng, size).config;
        let state: State = sound(&mut rng, &config);
        let others = WALKS.iter().filter(|(name, _)| *name != NO_GREEN);
        others.for_each(|(name, walk)| assert_eq!(walk(&config, &state), 0, "{name}"));
    }
}
