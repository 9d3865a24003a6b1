//! Compares the proved library with the second implementation over generated calls: the answer, all state bytes and all
//! answer bytes after every call. The file of every session is rewritten besides (`rewrites`), every file is asked for
//! the length of its state area (`lengths`), and every area for its first bad record (`walks`). Ends with 1 at the
//! first difference, or if some number or kind of answer, some code (`codes`), or something of editions, serials and
//! large numbers (`serials`) never occurs.

mod codes;
mod lengths;
mod library;
mod rewrites;
mod serials;
mod walks;

use codes::Codes;
use lengths::Lengths;
use library::Result as Outcome;
use reference::generate::{Call, Calls, Function};
use reference::{fresh, load_check, operate};
use rewrites::Rewrites;
use serials::Serials;
use std::fmt;
use std::process::ExitCode;
use walks::Walks;

const USAGE: &str = "usage: matching [--calls N] [--seed S]";

/// The numbers that a call can answer: 0 to 23.
const NUMBERS: usize = 24;

fn main() -> ExitCode {
    match options() {
        Some((calls, seed)) => compare(calls, seed),
        None => {
            eprintln!("{USAGE}");
            ExitCode::FAILURE
        }
    }
}

/// How many calls, and the seed.
fn options() -> Option<(u64, u64)> {
    let (mut calls, mut seed) = (30_000, 1);
    let mut words = std::env::args().skip(1);
    while let Some(word) = words.next() {
        let number = words.next()?.parse().ok()?;
        match word.as_str() {
            "--calls" => calls = number,
            "--seed" => seed = number,
            _ => return None,
        }
    }
    Some((calls, seed))
}

fn compare(calls: u64, seed: u64) -> ExitCode {
    let mut comparison = Comparison {
        seed,
        stream: Calls::new(seed),
        rewrites: Rewrites::new(seed),
        lengths: Lengths::new(),
        walks: Walks::new(seed),
        seen: [0; NUMBERS],
        codes: Codes::default(),
        serials: Serials::default(),
    };
    let all_agree = comparison.lengths.agree_on_all(seed, &mut comparison.walks)
        && (1..=calls).all(|place| comparison.agrees_on_next(place));
    if !all_agree {
        return ExitCode::FAILURE;
    }
    comparison.print(calls);
    let absent = comparison.absent();
    if absent.is_empty() {
        return ExitCode::SUCCESS;
    }
    println!("never occurred: {}", absent.join(", "));
    ExitCode::FAILURE
}

/// Both sides as far as they were compared.
struct Comparison {
    seed: u64,
    stream: Calls,
    rewrites: Rewrites,
    lengths: Lengths,
    walks: Walks,
    /// How often each number was answered.
    seen: [u64; NUMBERS],
    codes: Codes,
    serials: Serials,
}

impl Comparison {
    /// Whether both sides do the same at the next call and find the same in its area, and do the same with the files
    /// and areas of the session that it may begin.
    fn agrees_on_next(&mut self, place: u64) -> bool {
        let sessions = self.stream.sessions;
        let call = self.stream.next_call();
        if self.stream.sessions != sessions && !self.agrees_on_session() {
            return false;
        }
        let Some(here) = agreed(format_args!("seed {}, call {place}", self.seed), &call) else {
            return false;
        };
        self.lengths.count(&call, here.number);
        self.codes.count(&call, here.number);
        self.serials.count(&call, here.number);
        if let Some(count) = self.seen.get_mut(here.number as usize) {
            *count += 1;
        }
        // Both sides left the same bytes, so one copy carries both on.
        self.stream.carry(&call, &here.state);
        self.lengths.agree(&call.line) && self.walks.agree(&call.line, &call.state)
    }

    fn agrees_on_session(&mut self) -> bool {
        let world = self.stream.world();
        self.lengths.count_session(world.config.is_wide());
        self.serials.count_session(&world.config);
        self.rewrites.agree(world, &mut self.lengths, &mut self.serials) && self.walks.agree_on_damaged(world)
    }

    fn print(&self, calls: u64) {
        println!("seed {}: {} sessions, {calls} calls", self.seed, self.stream.sessions);
        self.seen.iter().enumerate().for_each(|(number, count)| println!("{number:>3} {count}"));
        self.codes.print();
        self.rewrites.print();
        self.lengths.print();
        self.walks.print();
        self.serials.print();
        println!("0 differences");
    }

    /// What never occurred.
    fn absent(&self) -> Vec<String> {
        let numbers = (0..NUMBERS).filter(|number| self.seen[*number] == 0).map(|number| number.to_string());
        numbers
            .chain(self.codes.absent())
            .chain(self.rewrites.absent())
            .chain(self.lengths.absent())
            .chain(self.walks.absent())
            .chain(self.serials.absent())
            .collect()
    }
}

/// The outcome of a call if it is the same on both sides; else the difference is printed.
pub(crate) fn agreed(name: fmt::Arguments, call: &Call) -> Option<Outcome> {
    let (here, there) = (by_reference(call), library::run(call));
    if here == there {
        return Some(here);
    }
    print_difference(name, call, &here, &there);
    None
}

/// The second implementation's outcome.
fn by_reference(call: &Call) -> Outcome {
    let (mut state, mut answer) = (call.state.clone(), call.answer.clone());
    let number = match call.function {
        Function::LoadCheck => load_check(&call.line),
        Function::Fresh => fresh(&call.line, &mut state),
        Function::Operate => operate(&call.line, &mut state, &call.record, &mut answer),
    };
    Outcome { number, state, answer, guards_kept: true }
}

pub(crate) fn hex(bytes: &[u8]) -> String {
    bytes.iter().map(|byte| format!("{byte:02x}")).collect()
}

/// Everything that is needed to make the call again.
fn print_difference(name: fmt::Arguments, call: &Call, here: &Outcome, there: &Outcome) {
    println!("difference: {name}, {:?}", call.function);
    println!("line          {}", hex(&call.line));
    println!("state before  {}", hex(&call.state));
    println!("record        {}", hex(&call.record));
    println!("answer before {}", hex(&call.answer));
    for (name, outcome) in [("reference", here), ("library", there)] {
        println!("{name} answered {}", outcome.number);
        println!("  state after  {}", hex(&outcome.state));
        println!("  answer after {}", hex(&outcome.answer));
        if !outcome.guards_kept {
            println!("  bytes outside the areas were changed");
        }
    }
}
