//! What the calls show of each code: which are accepted, which are refused by the green rule (request N5) and by locks
//! (request N6), and what the stricter part of 20 holds back alone.

use reference::closure::closure;
use reference::generate::{Call, Function};
use reference::load;
use reference::operation;
use reference::questions::{Case, leaves_in_reach};
use reference::state::State;

/// The codes that there are: 1 to 15.
const CODES: usize = 16;

/// The codes that 22 can refuse: a driver's write and read, and a device that comes in.
const BY_22: [usize; 3] = [1, 3, 8];

/// The codes that 23 can refuse: a device that comes in, is locked, or is unlocked.
const BY_23: [usize; 3] = [8, 14, 15];

#[derive(Default)]
pub struct Codes {
    accepted: [u64; CODES],
    by_22: [u64; CODES],
    by_23: [u64; CODES],
    strict: u64,
}

impl Codes {
    /// Takes in a call and its answer.
    pub fn count(&mut self, call: &Call, number: u32) {
        let operation = operation::read(&call.record).filter(|_| call.function == Function::Operate);
        let Some(operation) = operation else { return };
        match number {
            0 => self.accepted[operation.code()] += 1,
            22 => self.by_22[operation.code()] += 1,
            23 => self.by_23[operation.code()] += 1,
            20 => self.strict += u64::from(!is_in_reach(call, &operation)),
            _ => (),
        }
    }

    pub fn print(&self) {
        let codes = self.accepted.iter().enumerate().skip(1);
        let accepted: Vec<String> = codes.map(|(code, count)| format!("{code}: {count}")).collect();
        println!("accepted by code {}", accepted.join(", "));
        let refused = BY_22.map(|code| format!("{code}: {}", self.by_22[code]));
        println!("refused by 22 by code {}; by the stricter 20 alone {}", refused.join(", "), self.strict);
        println!("refused by 23 by code {}", BY_23.map(|code| format!("{code}: {}", self.by_23[code])).join(", "));
    }

    /// What never occurred.
    pub fn absent(&self) -> impl Iterator<Item = String> {
        let accepted = (1..CODES).filter(|code| self.accepted[*code] == 0).map(|code| format!("code {code} accepted"));
        let refused = BY_22.into_iter().filter(|code| self.by_22[*code] == 0);
        let refused = refused.map(|code| format!("code {code} refused by 22"));
        let locked = BY_23.into_iter().filter(|code| self.by_23[*code] == 0);
        let locked = locked.map(|code| format!("code {code} refused by 23"));
        let strict = (self.strict == 0).then(|| "a refusal by the stricter 20 alone".to_string());
        accepted.chain(refused).chain(locked).chain(strict)
    }
}

/// Whether a device's entry in reach names what leaves.
fn is_in_reach(call: &Call, operation: &operation::Operation) -> bool {
    let config = load(&call.line).ok();
    let state = config.as_ref().and_then(|config| State::from_bytes(config, &call.state));
    let (Some(config), Some(state)) = (&config, &state) else { return false };
    leaves_in_reach(&Case { config, state, operation, search: closure })
}
