//! The next record of a session, chosen by the state that the reference keeps beside it: likely accepted, likely
//! refused by a chosen number, or random.

use super::broken;
use super::likely::Scene;
use super::rng::Rng;
use super::serials::with_large_number;
use super::worlds::World;
use crate::closure::closure;
use crate::gate::{Judgement, judge};
use crate::operation;
use crate::state::State;

/// How often a proposal is made anew when it does not get the number that is wanted.
const TRIES: usize = 12;

/// The refusals that a record can get; those that need a search stand here more than once. The last ones need a ring.
const REFUSALS: [u8; 17] = [10, 11, 12, 13, 14, 15, 16, 17, 18, 18, 19, 19, 19, 20, 20, 21, 21];
const WITHOUT_RING: usize = 15;
/// Those over a world with green zones.
const GREEN_REFUSALS: [u8; 22] =
    [10, 11, 12, 13, 14, 14, 15, 16, 17, 18, 18, 19, 19, 19, 20, 20, 20, 21, 21, 22, 22, 22];
/// How often 23 is wanted over a world whose sessions lock devices.
const BY_LOCK: usize = 20;

/// What a record is to be.
#[derive(Clone, Copy, Debug, PartialEq, Eq)]
pub enum Want {
    Accepted,
    Refused(u8),
    Random,
}

impl Want {
    /// 60 in 100 accepted, 28 refused by a number, 12 random.
    pub fn any(rng: &mut Rng, world: &World) -> Want {
        let refusals = match world.config.has_rings() {
            _ if !world.greens.is_empty() => &GREEN_REFUSALS[..],
            true => &REFUSALS[..],
            false => &REFUSALS[..WITHOUT_RING],
        };
        match rng.weighted(&[60, 28, 12]) {
            0 => Want::Accepted,
            1 if world.locks && rng.percent(BY_LOCK) => Want::Refused(23),
            1 => Want::Refused(refusals[rng.below(refusals.len())]),
            _ => Want::Random,
        }
    }
}

/// The judgement by which a world's records are chosen. Over a world without green zones code 13 is no code, and over
/// one without locks codes 14 and 15 are none; over one from before there were serials numbers from 65,536 on cannot be
/// read. So it was when the first sessions were stored, and these are to stay as they are.
pub fn judgement(world: &World, state: &State, record: &[u8]) -> Judgement {
    match operation::read_up_to(world.rules().most_number, record).map(|operation| operation.code()) {
        None => Err(10),
        Some(13) if world.greens.is_empty() => Err(10),
        Some(14 | 15) if !world.locks => Err(10),
        Some(_) => judge(closure, &world.config, state, record),
    }
}

/// A record for this state.
pub fn record(rng: &mut Rng, world: &World, state: &State, want: Want) -> Vec<u8> {
    let wanted = match want {
        Want::Accepted => 0,
        Want::Refused(number) => number,
        Want::Random => return random(rng, world, state),
    };
    let mut proposal = Vec::new();
    for _ in 0..TRIES {
        proposal = proposed(rng, world, state, wanted);
        let number = judgement(world, state, &proposal).err().unwrap_or(0);
        if number == wanted {
            break;
        }
    }
    proposal
}

fn proposed(rng: &mut Rng, world: &World, state: &State, wanted: u8) -> Vec<u8> {
    let mut scene = Scene { rng, world, state };
    match wanted {
        0 => scene.likely().to_bytes(),
        10 => {
            let operation = if scene.rng.percent(60) { scene.likely() } else { scene.anything() };
            broken::record(scene.rng, &operation, world)
        }
        _ => scene.likely_refused(wanted).to_bytes(),
    }
}

fn random(rng: &mut Rng, world: &World, state: &State) -> Vec<u8> {
    if world.serials && rng.percent(30) {
        let operation = Scene { rng, world, state }.anything();
        return with_large_number(rng, &operation);
    }
    if rng.percent(15) {
        let count = rng.below(20);
        let mut bytes = rng.bytes(count);
        bytes.iter_mut().for_each(|byte| *byte &= 15);
        return bytes;
    }
    Scene { rng, world, state }.anything().to_bytes()
}
