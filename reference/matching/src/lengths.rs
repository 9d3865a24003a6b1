//! State areas of both lengths: what length each file needs, in the answers of both; areas of every length for
//! configurations of both kinds, and of those around the lengths of before there were locks and of now with locks in
//! them; lock bytes of every value; files of wide configurations and of edition 2, cut at every byte.

use crate::walks::Walks;
use crate::{agreed, hex, library};
use reference::generate::lengths::{
    EDGES, LOCKABLE, areas, cuts, lock_bytes, lock_lengths, serial_worlds, wide_worlds,
};
use reference::generate::{Call, Rng};
use reference::limits::{STATE_BYTES, STATE_BYTES_WIDE, locks_place};
use reference::{load, state_bytes};

/// The question about a state area's length.
const WRONG_LENGTH: u32 = 7;

/// What an answer about a length can be: either length, or refused by one of the questions 1 to 6.
const QUESTIONS: usize = 6;
const ANSWERS: usize = 2 + QUESTIONS;
const SMALL: usize = 0;
const WIDE: usize = 1;

/// What was met so far.
pub struct Lengths {
    /// The file that was compared last.
    last: Vec<u8>,
    files: u64,
    answers: [u64; ANSWERS],
    /// Sessions over small configurations, and over wide ones; refusals by 7 of each, and those of them of areas that
    /// have the length of before there were locks.
    sessions: [u64; 2],
    refused: [u64; 2],
    older: [u64; 2],
}

impl Lengths {
    pub fn new() -> Lengths {
        let (last, files, answers) = (Vec::new(), 0, [0; ANSWERS]);
        Lengths { last, files, answers, sessions: [0; 2], refused: [0; 2], older: [0; 2] }
    }

    /// Whether both tell the same length for a file, or refuse it by the same question.
    pub fn agree(&mut self, line: &[u8]) -> bool {
        if self.files > 0 && self.last == line {
            return true;
        }
        self.last = line.to_vec();
        self.files += 1;
        let (here, there) = (state_bytes(line), library::state_bytes(line));
        if let Some(place) = place(here) {
            self.answers[place] += 1;
        }
        if here != there {
            println!("difference: the length of the state area of {}", hex(line));
            println!("reference answered {here} (kind {}, {})", here >> 32, here as u32);
            println!("library answered {there} (kind {}, {})", there >> 32, there as u32);
        }
        here == there
    }

    /// Whether both do the same in areas of every length, with lock bytes of every value, and with files, wide ones and
    /// those of edition 2, that are cut anywhere.
    pub fn agree_on_all(&mut self, seed: u64, walks: &mut Walks) -> bool {
        let mut rng = Rng::part(seed, 2);
        let mut same = |lengths: &mut Lengths, call: Call| {
            agreed(format_args!("an area of any length, a lock byte, or a file cut anywhere"), &call).is_some()
                && lengths.agree(&call.line)
                && walks.agree(&call.line, &call.state)
        };
        EDGES.into_iter().all(|objects| areas(&mut rng, objects).all(|call| same(self, call)))
            && LOCKABLE.into_iter().all(|(devices, objects)| {
                let calls = [lock_lengths(&mut rng, devices, objects), lock_bytes(&mut rng, devices, objects)];
                calls.concat().into_iter().all(|call| same(self, call))
            })
            && wide_worlds(&mut rng).iter().all(|world| cuts(world).all(|call| same(self, call)))
            && serial_worlds(&mut rng).iter().all(|world| cuts(world).all(|call| same(self, call)))
    }

    /// Takes in the configuration of a session.
    pub fn count_session(&mut self, wide: bool) {
        self.sessions[kind(wide)] += 1;
    }

    /// Takes in a call that was answered with this number.
    pub fn count(&mut self, call: &Call, number: u32) {
        if number == WRONG_LENGTH
            && let Ok(config) = load(&call.line)
        {
            self.refused[kind(config.is_wide())] += 1;
            self.older[kind(config.is_wide())] += u64::from(call.state.len() == locks_place(config.room()));
        }
    }

    pub fn print(&self) {
        println!("{} state areas' lengths compared", self.files);
        (0..ANSWERS).for_each(|place| println!("{:>14} {}", name(place), self.answers[place]));
        println!("sessions over small configurations {}, over wide ones {}", self.sessions[SMALL], self.sessions[WIDE]);
        println!("refused by 7 of small configurations {}, of wide ones {}", self.refused[SMALL], self.refused[WIDE]);
        println!("of these in areas of before there were locks {}, {}", self.older[SMALL], self.older[WIDE]);
    }

    /// What never occurred.
    pub fn absent(&self) -> Vec<String> {
        let answers =
            (0..ANSWERS).filter(|place| self.answers[*place] == 0).map(|place| format!("length: {}", name(place)));
        let counts = [
            ("a small configuration", self.sessions[SMALL]),
            ("a wide configuration", self.sessions[WIDE]),
            ("7 of a small configuration", self.refused[SMALL]),
            ("7 of a wide configuration", self.refused[WIDE]),
            ("7 of a small area of before there were locks", self.older[SMALL]),
            ("7 of a wide area of before there were locks", self.older[WIDE]),
        ];
        let kinds = counts.into_iter().filter(|(_, count)| *count == 0).map(|(name, _)| name.to_string());
        answers.chain(kinds).collect()
    }
}

fn kind(wide: bool) -> usize {
    if wide { WIDE } else { SMALL }
}

/// The place of an answer among those that are counted.
fn place(answer: u64) -> Option<usize> {
    match (answer >> 32, answer as u32 as usize) {
        (0, STATE_BYTES) => Some(SMALL),
        (0, STATE_BYTES_WIDE) => Some(WIDE),
        (1, question @ 1..=QUESTIONS) => Some(WIDE + question),
        _ => None,
    }
}

fn name(place: usize) -> String {
    match place {
        SMALL => STATE_BYTES.to_string(),
        WIDE => STATE_BYTES_WIDE.to_string(),
        question => format!("refused by {}", question - WIDE),
    }
}
