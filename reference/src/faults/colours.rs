//! What goes wrong with the standing of green zones (request N5): what codes 5, 6 and 13 leave, and question 14.

use super::answers::plain;
use super::{Apply, Fault, NONE};
use crate::config::Config;
use crate::effect;
use crate::operation::Operation;
use crate::questions::{Case, Question};
use crate::state::{DESTROYED, EXISTING, GREEN, NEVER_USED, State};

/// Question 14 put wrongly to operations of one code.
const fn fourteen(name: &'static str, codes: &'static [usize], touches: &'static [u8], question: Question) -> Fault {
    Fault { name, codes, touches, instead: Some((14, question)), ..NONE }
}

/// An effect of operations of one code that is wrong.
const fn leaving(name: &'static str, codes: &'static [usize], apply: Apply) -> Fault {
    Fault { name, codes, touches: &[0], apply, ..NONE }
}

/// Faults that sessions notice. A green zone that does not exist for a code turns all answers of later questions; the
/// accepted calls are those that must show it.
pub const COLOURS: [Fault; 13] = [
    leaving("13 makes a partition that is not green", &[13], |config, state, operation| {
        created(config, state, operation, true, EXISTING)
    }),
    leaving("5 makes a green zone", &[5], |config, state, operation| created(config, state, operation, false, GREEN)),
    leaving("a destroyed green zone was never used", &[6], |config, state, operation| {
        destroyed(config, state, operation, NEVER_USED)
    }),
    leaving("a destroyed green zone stays", &[6], |config, state, operation| {
        destroyed(config, state, operation, GREEN)
    }),
    fourteen("13 passes on existing partitions", &[13], &[14], |case| passes_on(case, 13, EXISTING)),
    fourteen("13 passes on destroyed partitions", &[13], &[14], |case| passes_on(case, 13, DESTROYED)),
    fourteen("13 passes on green zones", &[13], &[14], |case| passes_on(case, 13, GREEN)),
    fourteen("5 passes on green zones", &[5], &[14], |case| passes_on(case, 5, GREEN)),
    fourteen("green zones do not exist for code 6", &[6], &[0, 15], |case| fails_on_green(case, 6)),
    fourteen("green zones do not exist for code 7", &[7], &[0, 16], |case| fails_on_green(case, 7)),
    Fault { asked: &[0, 16, 22], ..fourteen(NO_DEVICE, &[8], &[0, 16, 21, 22, 23], |case| fails_on_green(case, 8)) },
    fourteen("green zones do not exist for code 9", &[9], &[0, 16], |case| fails_on_green(case, 9)),
    Fault { asked: &[0, 20], ..fourteen(NO_LEAVING, &[12], &[0, 16, 17, 20], |case| fails_on_green(case, 12)) },
];

const NO_DEVICE: &str = "green zones do not exist for code 8";
const NO_LEAVING: &str = "green zones do not exist for code 12";

/// The status of the partition that a call of this code names.
fn status(case: &Case, code: usize) -> Option<u8> {
    let partition = case.operation.partition().filter(|_| case.operation.code() == code);
    partition.map(|partition| case.state.status[partition])
}

fn passes_on(case: &Case, code: usize, passed: u8) -> bool {
    status(case, code) == Some(passed) || plain(14, case)
}

fn fails_on_green(case: &Case, code: usize) -> bool {
    status(case, code) != Some(GREEN) && plain(14, case)
}

/// A partition created by code 13, or by code 5, gets this status.
fn created(config: &Config, state: &State, operation: &Operation, by_13: bool, status: u8) -> State {
    let mut next = effect::apply(config, state, operation);
    if let Operation::Create { partition, green } = operation
        && *green == by_13
    {
        next.status[*partition] = status;
    }
    next
}

/// A green zone that is destroyed gets this status.
fn destroyed(config: &Config, state: &State, operation: &Operation, status: u8) -> State {
    let mut next = effect::apply(config, state, operation);
    if let Operation::Destroy { partition } = operation
        && state.status[*partition] == GREEN
    {
        next.status[*partition] = status;
    }
    next
}
