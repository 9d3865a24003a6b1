//! The generator gives what it promises: sizes, acceptance, every number, and chains that go deep.

use reference::Config;
use reference::closure::{closure, rounds};
use reference::gate::judge;
use reference::generate::records::record;
use reference::generate::rewrites::rewrites;
use reference::generate::worlds::world;
use reference::generate::{Rng, Size, Want, World, areas, broken, greened, ringed};
use reference::state::{State, well_formed};
use reference::{effect, load, operation, rewrite};
use std::collections::BTreeSet;

#[test]
fn worlds_load_as_they_were_made() {
    for seed in 0..400 {
        let mut rng = Rng::part(1, seed);
        let size = Size::any(&mut rng);
        let world = ringed(&mut rng, size);
        assert_eq!(load(&world.line).as_ref(), Ok(&world.config), "seed {seed}");
        if size == Size::Full {
            let config = &world.config;
            let counts = [config.drivers, config.devices(), config.objects.len(), config.values.len()];
            assert_eq!(counts, [16, 16, 96, 47]);
        }
    }
}

#[test]
fn records_read_as_they_were_made() {
    let mut rng = Rng::new(2);
    let world = world(&mut rng, Size::Medium);
    let state = State::fresh(&world.config);
    for _ in 0..2_000 {
        let bytes = record(&mut rng, &world, &state, Want::Random);
        if let Some(operation) = operation::read(&bytes) {
            assert_eq!(operation.to_bytes(), bytes);
        }
    }
}

#[test]
fn broken_lines_get_every_number() {
    let mut rng = Rng::new(3);
    for number in 1..=6 {
        let hits = (0..200).filter(|_| {
            let world = ringed(&mut rng, Size::Small);
            load(&broken::line(&mut rng, &world, number)).err() == Some(number)
        });
        assert!(hits.count() > 120, "{number}");
    }
}

#[test]
fn rewritten_files_show_every_kind_of_answer() {
    let mut rng = Rng::new(7);
    let mut seen = [[0; 7]; 3];
    for _ in 0..100 {
        let world = ringed(&mut rng, Size::Small);
        for call in rewrites(&mut rng, &world) {
            let answer = rewrite(&call.line, &mut call.out.clone());
            let (kind, number) = ((answer >> 32) as usize, answer as u32 as usize);
            seen[kind][if kind == 1 { number } else { 0 }] += 1;
        }
    }
    assert!(seen[0][0] >= 300 && seen[2][0] >= 200, "{seen:?}");
    assert!((1..=6).all(|number| seen[1][number] >= 60), "{seen:?}");
}

#[test]
fn areas_are_broken_or_well_formed_as_asked() {
    let mut rng = Rng::new(4);
    let mut bad = 0;
    for _ in 0..500 {
        let world = world(&mut rng, Size::Medium);
        let state = areas::scrambled(&mut rng, &world.config);
        assert!(well_formed(&world.config, &state));
        let area = areas::broken(&mut rng, &world.config, &state);
        let shown = State::from_bytes(&world.config, &area).expect("the length is right");
        bad += usize::from(!well_formed(&world.config, &shown));
    }
    assert!(bad > 350, "{bad}");
}

/// How many answers of each number worlds of a size give, and the depths of searches that end accepted and refused.
fn survey(make: fn(&mut Rng, Size) -> World, size: Size) -> ([usize; 24], [BTreeSet<usize>; 2]) {
    let mut seen = [0; 24];
    let mut depths = [BTreeSet::new(), BTreeSet::new()];
    for seed in 0..60 {
        let mut rng = Rng::part(5, seed);
        let world = make(&mut rng, size);
        let mut state = State::fresh(&world.config);
        for _ in 0..60 + world.config.objects.len() {
            let want = Want::any(&mut rng, &world);
            let record = record(&mut rng, &world, &state, want);
            let result = judge(closure, &world.config, &state, &record);
            let number = usize::from(result.as_ref().err().copied().unwrap_or(0));
            seen[number] += 1;
            if record.first() == Some(&1) && (number == 0 || number == 19) {
                let operation = operation::read(&record).expect("it was read before");
                let next = effect::apply(&world.config, &state, &operation);
                depths[usize::from(number == 19)].insert(rounds(&world.config, &next));
            }
            if let Ok((next, _)) = result {
                state = next;
            }
        }
    }
    (seen, depths)
}

#[test]
fn sessions_go_deep_and_show_every_number() {
    let sizes = [(Size::Small, 8), (Size::Medium, 20), (Size::Deep, 60), (Size::Full, 30), (Size::Wide, 60)];
    for (size, depth) in sizes {
        let (seen, depths) = survey(ringed, size);
        println!("{size:?} {seen:?}\n  accepted at {:?}\n  refused at {:?}", depths[0], depths[1]);
        assert!(seen[0] * 2 > seen.iter().sum(), "{size:?} {seen:?}");
        assert!((10..=21).all(|number| seen[number] >= 20), "{size:?} {seen:?}");
        assert!(depths.iter().all(|depths| depths.last() >= Some(&depth)), "{size:?} {depths:?}");
    }
}

#[test]
fn sessions_with_green_zones_show_every_number() {
    for size in [Size::Small, Size::Medium, Size::Deep, Size::Full, Size::Wide] {
        let (seen, depths) = survey(greened, size);
        println!("{size:?} {seen:?}\n  accepted at {:?}\n  refused at {:?}", depths[0], depths[1]);
        assert!(seen[0] * 2 > seen.iter().sum(), "{size:?} {seen:?}");
        assert!((10..=22).all(|number| seen[number] >= 20), "{size:?} {seen:?}");
    }
}

/// How many values a chain runs through from its first: each link stores the next.
fn links(config: &Config, first: usize) -> usize {
    let mut seen = BTreeSet::from([first]);
    let mut ends = vec![first];
    while let Some(value) = ends.pop() {
        for entry in config.value(value).iter().filter(|entry| entry.stored != 0) {
            if seen.insert(entry.stored) {
                ends.push(entry.stored);
            }
        }
    }
    seen.len()
}

#[test]
fn chains_have_up_to_forty_links() {
    let mut longest = 0;
    let mut short = 0;
    for seed in 0..100 {
        let world = world(&mut Rng::part(6, seed), Size::Deep);
        for (_, first) in &world.heads {
            let count = links(&world.config, *first);
            longest = longest.max(count);
            short += usize::from(count == 1);
        }
    }
    assert!(longest >= 40 && short > 0, "{longest} {short}");
}
