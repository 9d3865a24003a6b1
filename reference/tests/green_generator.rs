//! Green zones (request N5) in the generator: worlds, drills, and calls of the matching, which tell faults that no
//! session notices.

use reference::closure::closure;
use reference::config::{Config, Kind};
use reference::coverage::Coverage;
use reference::faults::{self, GREEN_UNREACHED};
use reference::gate::judge;
use reference::generate::stored::{cases, with_drills};
use reference::generate::{Calls, Function, Rng, Size, areas, drills, greened};
use reference::operation::{self, Actor, Operation};
use reference::state::{GREEN, State, well_formed};
use reference::{effect, green, load, office, operate, varint};

/// Which clauses of the green rule an entry breaks in a zone: another place, kind 4, a write to kind 1.
fn broken(config: &Config, homes: &[usize], zone: usize, object: usize, writes: bool) -> [bool; 3] {
    let kind = config.kind(object);
    [homes[object - 1] != zone, kind == Kind::Hardcoded, kind == Kind::Transfer && writes]
}

/// Green zones and others stand side by side, and values keep the rule or break one clause of it.
#[test]
fn worlds_have_green_zones_beside_others() {
    let (mut beside, mut kept, mut alone) = (0, 0, [0; 3]);
    for seed in 0..300 {
        let mut rng = Rng::part(31, seed);
        let size = Size::any(&mut rng);
        let world = greened(&mut rng, size);
        assert_eq!(load(&world.line).as_ref(), Ok(&world.config), "seed {seed}");
        assert!(!world.greens.is_empty());
        beside += usize::from(world.zones.iter().any(|zone| !world.greens.contains(zone)) && world.zones.len() > 1);
        for zone in world.zones.iter().filter(|zone| world.greens.contains(zone)) {
            for entries in world.config.values.iter().filter(|entries| !entries.is_empty()) {
                let clauses =
                    entries.iter().map(|e| broken(&world.config, &world.objects, *zone, e.object, e.writes()));
                let clauses: Vec<[bool; 3]> = clauses.filter(|clauses| clauses.contains(&true)).collect();
                match &clauses[..] {
                    [] => kept += 1,
                    [one] if one.iter().filter(|broken| **broken).count() == 1 => {
                        alone.iter_mut().zip(one).for_each(|(count, broken)| *count += usize::from(*broken));
                    }
                    _ => (),
                }
            }
        }
    }
    println!("beside others {beside} of 300; values kept {kept}, one entry that breaks one clause {alone:?}");
    assert!(beside > 60 && kept > 500 && alone.iter().all(|count| *count > 100));
}

/// What calls of the matching show of green zones.
#[derive(Debug, Default)]
struct Seen {
    /// Answers 22 by code, in states that calls reach and in others.
    reached: [usize; 16],
    unreached: [usize; 16],
    /// Accepted calls by code.
    accepted: [usize; 16],
    /// Refusals by 20's stricter part alone.
    strict: usize,
    /// Calls that tell each fault that no session notices.
    told: [usize; GREEN_UNREACHED.len()],
}

impl Seen {
    fn count(&mut self, config: &Config, area: &[u8], record: &[u8], number: u32, carried: bool) {
        let state = State::from_bytes(config, area).filter(|state| well_formed(config, state));
        let (Some(state), Some(operation)) = (state, operation::read(record)) else { return };
        let code = operation.code();
        match number {
            0 => self.accepted[code] += 1,
            22 if carried => self.reached[code] += 1,
            22 => self.unreached[code] += 1,
            _ => (),
        }
        if !matches!(number, 0 | 19..=22) {
            return;
        }
        let faulty = faults::all().into_iter().find(|fault| fault.name == "20 not stricter").expect("there is one");
        let number_by = |fault: &faults::Fault| faults::judge(fault, config, &state, record).err().unwrap_or(0);
        self.strict += usize::from(number == 20 && number_by(&faulty) == 0);
        for (count, fault) in self.told.iter_mut().zip(&GREEN_UNREACHED) {
            *count += usize::from(u32::from(number_by(fault)) != number);
        }
    }
}

#[test]
fn generated_calls_tell_faults_that_no_session_notices() {
    let mut calls = Calls::new(1);
    let mut seen = Seen::default();
    for _ in 0..30_000 {
        let call = calls.next_call();
        let mut state = call.state.clone();
        if call.function == Function::Fresh {
            reference::fresh(&call.line, &mut state);
        } else if let (Function::Operate, Ok(config)) = (call.function, load(&call.line)) {
            let number = operate(&call.line, &mut state, &call.record, &mut call.answer.clone());
            seen.count(&config, &call.state, &call.record, number, call.carried);
        }
        calls.carry(&call, &state);
    }
    println!("{seen:?}");
    assert!(seen.accepted[1..].iter().all(|count| *count > 100), "{seen:?}");
    assert!(seen.reached[1] > 100 && seen.reached[8] > 100 && seen.reached[3] == 0, "{seen:?}");
    assert!(seen.unreached[1] > 20 && seen.unreached[3] > 20 && seen.unreached[8] > 20, "{seen:?}");
    assert!(seen.strict > 30 && seen.told.iter().all(|count| *count > 5), "{seen:?}");
}

/// Sessions cannot tell them: every stored call has the right answer by each.
#[test]
fn no_stored_session_tells_them() {
    for case in cases(&with_drills(1, 300, 120_000).input).expect("whole cases") {
        let Ok(config) = load(&case.line) else { continue };
        let mut state = State::fresh(&config);
        let mut reader = varint::Reader::new(&case.session);
        while let Some(record) = office::next_record(&mut reader) {
            let right = judge(closure, &config, &state, record);
            if state.status.contains(&GREEN) {
                for fault in &GREEN_UNREACHED {
                    assert!(faults::judge(fault, &config, &state, record) == right, "{}: {record:?}", fault.name);
                }
            }
            state = right.map_or(state, |(next, _)| next);
        }
    }
}

/// A hardcoded descriptor names its device's objects only, which leave together with it: in no well formed state does
/// one that stays name what leaves. A stricter 20 that looked at kind 1 alone would be as good.
#[test]
fn no_hardcoded_descriptor_stays_and_names() {
    let (mut named, mut asked) = (0, 0);
    for seed in 0..400 {
        let mut rng = Rng::part(32, seed);
        let world = greened(&mut rng, Size::Medium);
        let state = areas::scrambled(&mut rng, &world.config);
        let drivers = (1..=world.config.drivers).map(Actor::Driver);
        for actor in drivers.chain((1..=world.config.devices()).map(Actor::Device)) {
            let leaving = effect::concerned(&world.config, &Operation::Deactivate { actor });
            let found = green::names_of_what_stays(&world.config, &state, &leaving);
            asked += 1;
            named += usize::from(!found.is_empty());
            assert!(found.iter().all(|(descriptor, _)| world.config.kind(*descriptor) == Kind::Transfer));
        }
        for object in 1..=world.config.objects.len() {
            let found = green::names_of_what_stays(&world.config, &state, &[object]);
            let external = world.config.object(object).owner == reference::config::Owner::External;
            assert!(!external || found.iter().all(|(by, _)| world.config.kind(*by) == Kind::Transfer));
        }
    }
    println!("{named} of {asked} named");
    assert!(named > 50);
}

/// Each drill of green zones meets what it is for.
#[test]
fn green_drills_meet_their_points() {
    use drills::Point;
    let of = |point: Point| {
        let made = drills::stored(1, point);
        Coverage::of(&made.iter().map(|drill| drill.folder()).collect::<Vec<_>>())
    };
    for point in [Point::GreenClauses, Point::GreenWide] {
        for drill in drills::stored(1, point) {
            let coverage = Coverage::of(&[drill.folder()]);
            assert!(coverage.refused.get(&(22, 1)) >= Some(&8), "{point:?}");
            assert!(coverage.greens.stored.get(&3) >= Some(&1), "{point:?}");
        }
    }
    let leaving = of(Point::GreenLeaving);
    assert!([10, 11, 12].iter().all(|code| leaving.greens.strict.get(code) >= Some(&10)), "{leaving}");
    let escaping = of(Point::GreenEscape);
    assert!([10, 11, 12].iter().all(|code| escaping.greens.strict.get(code) >= Some(&1)), "{escaping}");
    assert!(of(Point::GreenReading).refused.get(&(20, 12)) >= Some(&6));
    for point in [Point::GreenRings, Point::GreenUnread] {
        assert!(of(point).refused.get(&(22, 8)) >= Some(&2), "{point:?}");
    }
    let standings = of(Point::GreenStandings);
    assert!(standings.greens.created.get(&14) >= Some(&15) && standings.greens.entered >= 5, "{standings}");
}
