//! Drills: sessions written for one point each, with numbers, owners and details at random. The random sessions come to
//! these points too rarely; `coverage` counts how often the stored cases do.

mod choices;
mod colours;
mod copies;
mod greens;
mod ladders;
mod leaving;
mod locks;
pub mod numbers;
mod rings;
mod script;
mod transfers;
mod wide;

use super::rng::Rng;
use super::serials::label;
use super::worlds::WIDE_COUNTS;
use crate::limits::{MAX_OBJECTS, MAX_ONE_BYTE, MAX_VALUES};
use ladders::{WAYS, Way};
pub use locks::Locking;
use numbers::Numbering;
use rings::Leaving;
pub use script::Drill;

/// What a drill is for.
#[derive(Clone, Copy, Debug, PartialEq, Eq)]
pub enum Point {
    CrossingByWrite,
    CrossingByCopy,
    LeavingByChain,
    Relay,
    DriverCopies,
    DeviceCopies,
    PairsNotStates,
    LeavingWriter,
    EachLeavingCode,
    Stairs,
    Walk,
    StoredValues,
    WideChain,
    WideEdge,
    LastHardcoded,
    RingLeaving,
    RingInside,
    RingUnread,
    RingPair,
    RingChoice,
    RingOfSix,
    RingReturns,
    NoRing,
    GreenClauses,
    GreenLeaving,
    GreenEscape,
    GreenReading,
    GreenRings,
    GreenUnread,
    GreenStandings,
    GreenWide,
    Locks(Locking),
    Serials,
}

/// All points, and how many drills of each are stored. Those stored first keep their places when others are added.
pub const POINTS: [(Point, usize); 36] = [
    (Point::CrossingByWrite, 8),
    (Point::CrossingByCopy, 4),
    (Point::LeavingByChain, 8),
    (Point::Relay, 12),
    (Point::DriverCopies, 10),
    (Point::DeviceCopies, 8),
    (Point::PairsNotStates, 12),
    (Point::LeavingWriter, 8),
    (Point::EachLeavingCode, 6),
    (Point::Stairs, 8),
    (Point::Walk, 6),
    (Point::StoredValues, 6),
    (Point::WideChain, 1),
    (Point::WideEdge, 2),
    (Point::LastHardcoded, 1),
    (Point::RingLeaving, 12),
    (Point::RingInside, 3),
    (Point::RingUnread, 3),
    (Point::RingPair, 4),
    (Point::RingChoice, 3),
    (Point::RingOfSix, 3),
    (Point::RingReturns, 3),
    (Point::NoRing, 1),
    (Point::GreenClauses, 7),
    (Point::GreenLeaving, 8),
    (Point::GreenEscape, 3),
    (Point::GreenReading, 3),
    (Point::GreenRings, 5),
    (Point::GreenUnread, 2),
    (Point::GreenStandings, 5),
    (Point::GreenWide, 1),
    (Point::Locks(Locking::Standings), 8),
    (Point::Locks(Locking::Drivers), 3),
    (Point::Locks(Locking::Rings), 5),
    (Point::Locks(Locking::Wide), 2),
    (Point::Serials, 11),
];

/// Where the points of devices with rings begin, behind them those of green zones, of locks, and of serials.
const BEFORE_RINGS: usize = 15;
pub const BEFORE_GREENS: usize = 23;
pub const BEFORE_LOCKS: usize = 31;
pub const BEFORE_SERIALS: usize = 35;

/// A drill for a point; `turn` goes through the point's ways.
fn drill(rng: &mut Rng, point: Point, turn: usize) -> Drill {
    let (way, inside) = (WAYS[turn % WAYS.len()], turn % 2 == 1);
    let [fewest, first_of_two_bytes, one_absent, most] = WIDE_COUNTS;
    match point {
        Point::CrossingByWrite => ladders::crossing(rng, way, false),
        Point::CrossingByCopy => ladders::crossing(rng, way, true),
        Point::LeavingByChain => ladders::leaving(rng, way),
        Point::Relay => ladders::relay(rng, 2 + turn % 3, inside),
        Point::DriverCopies => copies::by_driver(rng),
        Point::DeviceCopies => copies::by_device(rng),
        Point::PairsNotStates => choices::either(rng, inside),
        Point::LeavingWriter => leaving::writer(rng),
        Point::EachLeavingCode => leaving::each_code(rng),
        Point::Stairs => transfers::stairs(rng, [2, 3, 5, 9, 14, 20, 28, 36][turn % 8]),
        Point::Walk => transfers::walk(rng),
        Point::StoredValues => transfers::stored_values(rng),
        Point::WideChain => wide_chain(rng, turn),
        Point::WideEdge => wide::edge(rng, [first_of_two_bytes, one_absent, most, fewest][turn % 4]),
        Point::LastHardcoded => wide::last_hardcoded(rng, [fewest, most, first_of_two_bytes, one_absent][turn % 4]),
        Point::RingLeaving => rings::leaving(rng, LEAVING[turn % LEAVING.len()]),
        Point::RingInside => rings::inside(rng, 1 + turn % 4),
        Point::RingUnread => rings::unread(rng),
        Point::RingPair => rings::pair(rng, 1 + turn % 4),
        Point::RingChoice => rings::choice(rng),
        Point::RingOfSix => rings::of_six(rng),
        Point::RingReturns => rings::returning(rng),
        Point::NoRing => rings::none(rng),
        Point::GreenClauses => greens::clauses(rng, 0),
        Point::GreenLeaving => greens::leaving(rng, turn, turn % 4 != 3),
        Point::GreenEscape => greens::escaping(rng, turn),
        Point::GreenReading => greens::reading(rng, 2 + turn % 4),
        Point::GreenRings => colours::rings(rng, turn),
        Point::GreenUnread => colours::unread_ring(rng, !inside),
        Point::GreenStandings => colours::standings(rng),
        Point::GreenWide => greens::clauses(rng, MAX_ONE_BYTE),
        Point::Locks(way) => locks::drill(rng, way, turn),
        Point::Serials => with_serials(rng, LABELLED[turn % LABELLED.len()], turn / LABELLED.len()),
    }
}

/// The points whose drills are made with serials too, which must not change an answer.
const LABELLED: [Point; 11] = [
    Point::PairsNotStates,
    Point::StoredValues,
    Point::LeavingWriter,
    Point::EachLeavingCode,
    Point::RingLeaving,
    Point::RingPair,
    Point::RingChoice,
    Point::GreenLeaving,
    Point::Locks(Locking::Standings),
    Point::DeviceCopies,
    Point::Locks(Locking::Wide),
];

/// A drill for another point over a line of edition 2.
fn with_serials(rng: &mut Rng, point: Point, turn: usize) -> Drill {
    let mut drill = drill(rng, point, turn);
    drill.world.serials = true;
    label(rng, &mut drill.world);
    drill
}

const fn leaving(steps: usize, way: Way, behind: usize) -> Leaving {
    Leaving { steps, way, behind }
}

/// Rings whose chains leave: after 1, 2 and 10 steps, after so many that no short search finds it, and through objects
/// whose numbers have two bytes.
const LEAVING: [Leaving; 12] = [
    leaving(1, Way::Level, 0),
    leaving(2, Way::Over(Numbering::Kept), 0),
    leaving(10, Way::Over(Numbering::Reversed), 0),
    leaving(1, Way::Level, 0),
    leaving(2, Way::Level, 0),
    leaving(10, Way::Over(Numbering::Shuffled), 0),
    leaving(3, Way::Over(Numbering::Kept), MAX_ONE_BYTE),
    leaving(22, Way::Over(Numbering::Shuffled), 0),
    leaving(MAX_VALUES - 1, Way::Over(Numbering::Reversed), 0),
    leaving(MAX_VALUES - 1, Way::Over(Numbering::Kept), 0),
    leaving(30, Way::Over(Numbering::Reversed), 0),
    leaving(30, Way::Over(Numbering::Kept), 0),
];

/// The longest chain that is asked for through the most objects, its last descriptor before the last object; then
/// others.
fn wide_chain(rng: &mut Rng, turn: usize) -> Drill {
    match turn {
        0 => wide::chain(rng, MAX_OBJECTS, wide::LINKS, Numbering::Kept),
        _ => {
            let (objects, links) = (WIDE_COUNTS[turn % 4], rng.between(2, wide::LINKS));
            let numbering = Numbering::any(rng);
            wide::chain(rng, objects, links, numbering)
        }
    }
}

/// The drills for a point that are stored.
pub fn stored(seed: u64, point: Point) -> Vec<Drill> {
    let place = POINTS.iter().position(|(known, _)| *known == point).unwrap_or_default();
    let part = |turn: usize| (1_000 * (place + 1) + turn) as u64;
    (0..POINTS[place].1).map(|turn| drill(&mut Rng::part(seed, part(turn)), point, turn)).collect()
}

/// Any drill.
pub fn any(rng: &mut Rng) -> Drill {
    any_of(rng, &POINTS)
}

/// Any drill with a ring, or with a device that could have one.
pub fn any_ring(rng: &mut Rng) -> Drill {
    any_of(rng, &POINTS[BEFORE_RINGS..BEFORE_GREENS])
}

/// Any drill with a green zone.
pub fn any_green(rng: &mut Rng) -> Drill {
    any_of(rng, &POINTS[BEFORE_GREENS..BEFORE_LOCKS])
}

/// Any drill with locks.
pub fn any_lock(rng: &mut Rng) -> Drill {
    any_of(rng, &POINTS[BEFORE_LOCKS..BEFORE_SERIALS])
}

fn any_of(rng: &mut Rng, points: &[(Point, usize)]) -> Drill {
    let (point, _) = points[rng.below(points.len())];
    let turn = rng.below(24);
    drill(rng, point, turn)
}
