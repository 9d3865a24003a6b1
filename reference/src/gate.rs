//! The functions of the gate, as the C interface has them: load check, state bytes, first bad, fresh, operate,
//! rewrite.

use crate::closure::{Search, closure};
use crate::config::{Config, load};
use crate::effect;
use crate::limits::{ANSWER_BYTES, CONTENT_BYTES};
use crate::memory::Memory;
use crate::operation;
use crate::questions::{Case, refusal};
use crate::state::{self, Contents, State, well_formed};
use crate::writer::{Written, coded, write};

/// Puts questions 1 to 6 to a configuration file.
pub fn load_check(line: &[u8]) -> u32 {
    load(line).err().map_or(0, u32::from)
}

/// Tells the length of a configuration's state area: questions 1 to 6. The answer has the form of `rewrite`'s.
pub fn state_bytes(line: &[u8]) -> u64 {
    told(load(line).map(|config| config.state_bytes()))
}

/// Tells the first object record of an area that breaks a rule of question 9, or 0 if none does: questions 1 to 6, then
/// 7. The answer has the form of `rewrite`'s.
pub fn first_bad(line: &[u8], area: &[u8]) -> u64 {
    told(shown(line, area).map(|(config, state)| state::first_bad(&config, &state)))
}

/// A number that is told, or the first refusal, as one number with its kind.
fn told(number: Result<usize, u8>) -> u64 {
    coded(number.map_or_else(Written::Refused, Written::Length))
}

/// What a file and an area show: questions 1 to 7.
fn shown(line: &[u8], area: &[u8]) -> Result<(Config, State), u8> {
    let config = load(line)?;
    let state = State::from_bytes(&config, area).ok_or(7)?;
    Ok((config, state))
}

/// Makes the fresh state: questions 1 to 6, then 7. At any number but 0 the area is as it was.
pub fn fresh(line: &[u8], state: &mut [u8]) -> u32 {
    match load(line) {
        Err(number) => u32::from(number),
        Ok(config) if state.len() != config.state_bytes() => 7,
        Ok(config) => {
            state.copy_from_slice(&State::fresh(&config).to_bytes());
            0
        }
    }
}

/// Judges one operation and, at 0, carries it out: questions 1 to 23. At any other number both areas are as they were.
pub fn operate(line: &[u8], state: &mut [u8], record: &[u8], answer: &mut [u8]) -> u32 {
    let judge = |config: &Config, state: &State, record: &[u8]| judge(closure, config, state, record);
    operate_with(load, judge, line, state, record, answer)
}

/// The same with a loader (questions 1 to 6) and a judge (questions 10 to 23) of the caller's choice.
pub fn operate_with(
    load: impl Fn(&[u8]) -> Result<Config, u8>,
    judge: impl Fn(&Config, &State, &[u8]) -> Judgement,
    line: &[u8],
    state: &mut [u8],
    record: &[u8],
    answer: &mut [u8],
) -> u32 {
    let judged = load(line).and_then(|config| {
        let state = to_judge(&config, state, answer.len())?;
        judge(&config, &state, record)
    });
    match judged {
        Err(number) => u32::from(number),
        Ok((next, answers)) => {
            state.copy_from_slice(&next.to_bytes());
            for (part, contents) in answer.chunks_exact_mut(CONTENT_BYTES).zip(&answers) {
                part.copy_from_slice(contents);
            }
            0
        }
    }
}

/// The state that follows and the contents read, or the first refusal.
pub type Judgement = Result<(State, Vec<Contents>), u8>;

/// The state that an operation is judged on: questions 7 to 9.
fn to_judge(config: &Config, area: &[u8], answer_bytes: usize) -> Result<State, u8> {
    let state = State::from_bytes(config, area).ok_or(7)?;
    if answer_bytes < ANSWER_BYTES {
        return Err(8);
    }
    if well_formed(config, &state) { Ok(state) } else { Err(9) }
}

/// Questions 10 to 23, for a well formed state.
pub fn judge(search: Search, config: &Config, state: &State, record: &[u8]) -> Judgement {
    let operation = operation::read(record).ok_or(10)?;
    let case = Case { config, state, operation: &operation, search };
    match refusal(&case) {
        Some(number) => Err(number),
        None => Ok((effect::apply(config, state, &operation), effect::answers(state, &operation))),
    }
}

/// Loads a configuration file and writes it into an area, questions 1 to 6. At a refusal, and where the area is too
/// short, it is as it was.
pub fn rewrite(line: &[u8], out: &mut [u8]) -> u64 {
    coded(rewritten(line, out))
}

/// The same, with the answer before it is a number.
pub fn rewritten(line: &[u8], out: &mut [u8]) -> Written {
    match load(line) {
        Err(number) => Written::Refused(number),
        Ok(config) => write(&Memory::of(&config), out),
    }
}
