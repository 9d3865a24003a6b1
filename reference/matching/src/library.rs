//! The proved library, called through its C interface (sorter_gate.h), with guards behind the areas that it may change.

use reference::generate::{Call, Function, Rewrite};

unsafe extern "C" {
    fn gate_load_check(line: *const u8, line_len: usize) -> u32;
    fn gate_fresh(line: *const u8, line_len: usize, state: *mut u8, state_len: usize) -> u32;
    fn gate_operate(
        line: *const u8,
        line_len: usize,
        state: *mut u8,
        state_len: usize,
        record: *const u8,
        record_len: usize,
        answer: *mut u8,
        answer_len: usize,
    ) -> u32;
    fn gate_rewrite(line: *const u8, line_len: usize, out: *mut u8, out_len: usize) -> u64;
    fn gate_state_bytes(line: *const u8, line_len: usize) -> u64;
    fn gate_first_bad(line: *const u8, line_len: usize, state: *const u8, state_len: usize) -> u64;
}

/// What a call answered and left.
#[derive(Clone, Debug, PartialEq, Eq)]
pub struct Result {
    pub number: u32,
    pub state: Vec<u8>,
    pub answer: Vec<u8>,
    /// Whether the bytes before and behind the two areas are as they were.
    pub guards_kept: bool,
}

const GUARD: [u8; 32] = [0xA7; 32];

/// An area between guards.
struct Guarded(Vec<u8>);

impl Guarded {
    fn new(area: &[u8]) -> Guarded {
        Guarded([&GUARD, area, &GUARD].concat())
    }

    fn area(&mut self) -> &mut [u8] {
        let end = self.0.len() - GUARD.len();
        &mut self.0[GUARD.len()..end]
    }

    fn kept(&self) -> bool {
        self.0.starts_with(&GUARD) && self.0.ends_with(&GUARD)
    }
}

/// Calls the library on copies of the call's areas.
pub fn run(call: &Call) -> Result {
    let mut state = Guarded::new(&call.state);
    let mut answer = Guarded::new(&call.answer);
    let number = invoke(call, state.area(), answer.area());
    let guards_kept = state.kept() && answer.kept();
    Result { number, state: state.area().to_vec(), answer: answer.area().to_vec(), guards_kept }
}

fn invoke(call: &Call, state: &mut [u8], answer: &mut [u8]) -> u32 {
    let (line, record) = (&call.line, &call.record);
    // SAFETY: every pointer comes from a slice and is valid for its length, also at length 0; no two areas overlap.
    unsafe {
        match call.function {
            Function::LoadCheck => gate_load_check(line.as_ptr(), line.len()),
            Function::Fresh => gate_fresh(line.as_ptr(), line.len(), state.as_mut_ptr(), state.len()),
            Function::Operate => gate_operate(
                line.as_ptr(),
                line.len(),
                state.as_mut_ptr(),
                state.len(),
                record.as_ptr(),
                record.len(),
                answer.as_mut_ptr(),
                answer.len(),
            ),
        }
    }
}

/// The length of the state area that a file needs, or the question that refuses it.
pub fn state_bytes(line: &[u8]) -> u64 {
    // SAFETY: the pointer comes from a slice and is valid for its length, also at length 0.
    unsafe { gate_state_bytes(line.as_ptr(), line.len()) }
}

/// What looking for the first bad record answered.
#[derive(Clone, Debug, PartialEq, Eq)]
pub struct Walked {
    pub answer: u64,
    /// Whether the file and the area are as they were, and the bytes before and behind them.
    pub unchanged: bool,
}

/// Looks for the first bad record in a copy of an area.
pub fn first_bad(line: &[u8], state: &[u8]) -> Walked {
    let (mut file, mut area) = (Guarded::new(line), Guarded::new(state));
    let (given_line, given_state) = (file.area(), area.area());
    // SAFETY: both pointers come from slices and are valid for their lengths, also at length 0.
    let answer =
        unsafe { gate_first_bad(given_line.as_ptr(), given_line.len(), given_state.as_ptr(), given_state.len()) };
    let unchanged = file.kept() && area.kept() && file.area() == line && area.area() == state;
    Walked { answer, unchanged }
}

/// What rewriting a file answered and left.
#[derive(Clone, Debug, PartialEq, Eq)]
pub struct Rewritten {
    pub answer: u64,
    pub out: Vec<u8>,
    /// Whether the bytes before and behind the area are as they were.
    pub guards_kept: bool,
}

/// Rewrites the call's file into a copy of its area.
pub fn rewrite(call: &Rewrite) -> Rewritten {
    let mut out = Guarded::new(&call.out);
    let area = out.area();
    // SAFETY: both pointers come from slices and are valid for their lengths, also at length 0; the two do not overlap.
    let answer = unsafe { gate_rewrite(call.line.as_ptr(), call.line.len(), area.as_mut_ptr(), area.len()) };
    Rewritten { answer, out: out.area().to_vec(), guards_kept: out.kept() }
}
