//! What goes wrong with locks (request N6): question 23 and its place, what codes 14 and 15 leave, and what locks have
//! nothing to do with. Sessions notice all of these; what only areas show stands in `lock_areas`.

use super::answers::plain;
use super::lock_areas::in_record;
use super::{Apply, Fault, NONE};
use crate::config::Config;
use crate::effect;
use crate::limits::{LOCK_BYTES, MAX_DEVICES, SMALL_ROOM};
use crate::operation::{Actor, Operation};
use crate::questions::{Case, Question};
use crate::state::{LOCKED, NONE as INACTIVE, State, UNLOCKED};

/// Question 23 put wrongly to operations of these codes.
const fn asking(name: &'static str, codes: &'static [usize], touches: &'static [u8], question: Question) -> Fault {
    Fault { name, codes, touches, instead: Some((23, question)), ..NONE }
}

/// The same about another lock than the device's: it turns all answers of 23 and of later questions.
const fn about(name: &'static str, question: Question) -> Fault {
    Fault { asked: &[0, 23], ..asking(name, &[8, 14, 15], &[0, 21, 22, 23], question) }
}

/// An accepted operation of a code that a lock has nothing to do with, refused by 23 while there is one.
const fn stopped<const CODE: usize>(name: &'static str) -> Fault {
    asking(name, &[CODE], &[0], stopped_by_any::<CODE>)
}

/// Question 16 put wrongly to codes 14 and 15.
const fn sixteen(name: &'static str, codes: &'static [usize], touches: &'static [u8], question: Question) -> Fault {
    Fault { name, codes, touches, instead: Some((16, question)), ..NONE }
}

/// An effect of operations of one code that is wrong.
const fn leaving(name: &'static str, codes: &'static [usize], apply: Apply) -> Fault {
    Fault { name, codes, touches: &[0], apply, ..NONE }
}

/// Faults that sessions notice. 23 before 16 shows in code 15 alone: an active device has no lock, which is what codes
/// 8 and 14 ask for.
pub const LOCKS: [Fault; 30] = [
    asking("23 not put to code 8", &[8], &[23], not_put::<23, 8>),
    asking("23 not put to code 14", &[14], &[23], not_put::<23, 14>),
    asking("23 not put to code 15", &[15], &[23], not_put::<23, 15>),
    about("23 takes a lock for none", |case| seen_as(case, |state| state.locks.iter_mut().for_each(turn))),
    about("23 looks at the next device's lock", |case| seen_as(case, |state| state.locks.rotate_left(1))),
    about("23 looks at the lock before the device's", |case| seen_as(case, |state| state.locks.rotate_right(1))),
    about("23 looks at the first device's lock", |case| {
        seen_as(case, |state| state.locks = vec![state.locks[0]; LOCK_BYTES])
    }),
    asking("23 put behind 22", &[8], &[23], |case| plain(23, case) || !plain(22, case)),
    asking("23 put behind 21", &[8], &[23], |case| plain(23, case) || !(plain(22, case) && plain(21, case))),
    Fault { name: "23 before 16", codes: &[15], touches: &[16], early: Some((23, 16)), ..NONE },
    Fault { name: "23 before 14", codes: &[8, 15], touches: &[14, 16], early: Some((23, 14)), ..NONE },
    sixteen("14 needs no inactive device", &[14], &[16], not_put::<16, 14>),
    sixteen("15 needs no inactive device", &[15], &[16], not_put::<16, 15>),
    Fault { asked: &[0, 16], ..sixteen("14 and 15 need an active device", &[14, 15], &[0, 16, 23], is_active) },
    stopped::<5>("a lock stops code 5"),
    stopped::<13>("a lock stops code 13"),
    stopped::<6>("a lock stops code 6"),
    stopped::<9>("a lock stops code 9"),
    Fault { touches: &[0, 20], asked: &[0], ..stopped::<11>("a lock stops code 11") },
    Fault { touches: &[0, 17, 20], asked: &[0], ..stopped::<12>("a lock stops code 12") },
    Fault { asked: &[0], ..asking("a lock stops the driver of that number", DRIVERS, &[0, 17, 19, 20, 22], by_number) },
    leaving("14 sets 0", &[14], turned::<14>),
    leaving("15 sets 1", &[15], turned::<15>),
    leaving("15 clears all locks", &[15], cleared::<15>),
    leaving("11 clears all locks", &[11], cleared::<11>),
    leaving("8 clears all locks", &[8], cleared::<8>),
    leaving("14 locks the next device", &[14], beside::<14>),
    leaving("15 unlocks the next device", &[15], beside::<15>),
    leaving("14 brings a lock off another device", &[14], alone),
    Fault {
        objects: SMALL_ROOM + 1,
        cases: 1,
        apply: set_in_record,
        ..about("locks at the place of small configurations", |case| seen_as(case, in_record))
    },
];

/// The codes that name a driver.
const DRIVERS: &[usize] = &[1, 3, 7, 10];

/// Whether the device is not locked that has the driver's number.
fn by_number(case: &Case) -> bool {
    match case.operation.actor() {
        Some(Actor::Driver(driver)) => !case.state.is_locked(driver),
        _ => plain(23, case),
    }
}

/// A question that is not put to operations of one code.
fn not_put<const QUESTION: u8, const CODE: usize>(case: &Case) -> bool {
    case.operation.code() == CODE || plain(QUESTION, case)
}

/// Question 23 that operations of one code meet while any device is locked.
fn stopped_by_any<const CODE: usize>(case: &Case) -> bool {
    let stopped = case.operation.code() == CODE && case.state.locks.contains(&LOCKED);
    !stopped && plain(23, case)
}

/// Question 23 about the state that this one is taken for.
fn seen_as(case: &Case, change: fn(&mut State)) -> bool {
    let mut state = case.state.clone();
    change(&mut state);
    plain(23, &Case { state: &state, ..*case })
}

fn turn(lock: &mut u8) {
    *lock = if *lock == LOCKED { UNLOCKED } else { LOCKED };
}

/// Whether the device is active that is locked or unlocked; the question as it is for other codes.
fn is_active(case: &Case) -> bool {
    match case.operation {
        Operation::Lock { actor, .. } => case.state.device(actor.number()) != INACTIVE,
        _ => plain(16, case),
    }
}

/// The device that an operation of one code locks or unlocks gets the other lock byte.
fn turned<const CODE: usize>(config: &Config, state: &State, operation: &Operation) -> State {
    let mut next = effect::apply(config, state, operation);
    if let Some(Actor::Device(device)) = operation.actor().filter(|_| operation.code() == CODE) {
        turn(&mut next.locks[device - 1]);
    }
    next
}

/// An operation of one code takes all locks off.
fn cleared<const CODE: usize>(config: &Config, state: &State, operation: &Operation) -> State {
    let mut next = effect::apply(config, state, operation);
    if operation.code() == CODE {
        next.locks.fill(UNLOCKED);
    }
    next
}

/// The lock byte of the device behind it is set, and its own stays; behind the last one comes the first.
fn beside<const CODE: usize>(config: &Config, state: &State, operation: &Operation) -> State {
    let mut next = effect::apply(config, state, operation);
    if let Some(Actor::Device(device)) = operation.actor().filter(|_| operation.code() == CODE) {
        next.locks[device % MAX_DEVICES] = next.locks[device - 1];
        next.locks[device - 1] = state.locks[device - 1];
    }
    next
}

/// There is one padlock: it leaves the device that had it.
fn alone(config: &Config, state: &State, operation: &Operation) -> State {
    let mut next = cleared::<14>(config, state, operation);
    if let Operation::Lock { actor: Actor::Device(device), locked: true } = operation {
        next.locks[device - 1] = LOCKED;
    }
    next
}

/// Sets the byte that is taken for the lock there.
fn set_in_record(config: &Config, state: &State, operation: &Operation) -> State {
    let mut next = effect::apply(config, state, operation);
    if let (Operation::Lock { actor: Actor::Device(device), locked }, true) = (operation, config.is_wide()) {
        next.locks = state.locks.clone();
        let record = &mut next.objects[SMALL_ROOM];
        match device - 1 {
            0 => record.partition = u8::from(*locked),
            place => record.contents[place - 1] = u8::from(*locked),
        }
    }
    next
}
