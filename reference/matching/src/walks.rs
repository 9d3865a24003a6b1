//! The first bad record of an area (request N3), looked for by both, with question 9's answer: in the areas of all
//! other calls, and in those that are broken on purpose.

use crate::library::{self, Walked};
use crate::{agreed, hex};
use reference::generate::damaged::lines;
use reference::generate::{Call, Function, Rng, World};
use reference::limits::ANSWER_BYTES;
use reference::{first_bad, load};

/// The answers that refuse: questions 1 to 7.
const QUESTIONS: usize = 7;

/// What is told of an area, counted for small configurations and for wide ones. A place can be several of these.
const TOLD: [&str; 6] = [
    "0, well formed",
    "0, refused by 9",
    "an object's record",
    "an absent one's",
    "the first record",
    "the room's last",
];

/// The answer to an operation with an empty record, where the state is well formed.
const WELL_FORMED: u32 = 10;

/// What was found so far, with a random source of its own, so that the other calls are the same with it and without.
pub struct Walks {
    seed: u64,
    rng: Rng,
    areas: u64,
    refused: [u64; QUESTIONS],
    told: [[u64; TOLD.len()]; 2],
}

impl Walks {
    pub fn new(seed: u64) -> Walks {
        Walks { seed, rng: Rng::part(seed, 3), areas: 0, refused: [0; QUESTIONS], told: [[0; TOLD.len()]; 2] }
    }

    /// Whether both find the same in areas that are broken on purpose, of lines made from the world's.
    pub fn agree_on_damaged(&mut self, world: &World) -> bool {
        let lines = lines(&mut self.rng, &world.config);
        lines.iter().all(|made| made.areas.iter().all(|area| self.agree(&made.line, &area.state.to_bytes())))
    }

    /// Whether both find the same first bad record in an area, change nothing, and put question 9 with the same answer.
    pub fn agree(&mut self, line: &[u8], state: &[u8]) -> bool {
        self.areas += 1;
        let (here, there) =
            (Walked { answer: first_bad(line, state), unchanged: true }, library::first_bad(line, state));
        if here != there {
            self.print_difference(line, state, &here, &there);
            return false;
        }
        let Some(number) = self.question_9(line, state) else {
            return false;
        };
        self.count(line, here.answer, number);
        true
    }

    /// What an operation with an empty record answers, if both do the same.
    fn question_9(&self, line: &[u8], state: &[u8]) -> Option<u32> {
        let (line, state, answer) = (line.to_vec(), state.to_vec(), vec![0; ANSWER_BYTES]);
        let call = Call { function: Function::Operate, line, state, record: Vec::new(), answer, carried: false };
        let outcome = agreed(format_args!("seed {}, area {} with an empty record", self.seed, self.areas), &call)?;
        Some(outcome.number)
    }

    /// Takes in an answer, and the number of an operation with an empty record.
    fn count(&mut self, line: &[u8], answer: u64, number: u32) {
        match (answer >> 32, answer as u32 as usize, load(line)) {
            (0, place, Ok(config)) => {
                let told = [
                    place == 0 && number == WELL_FORMED,
                    place == 0 && number != WELL_FORMED,
                    (1..=config.objects.len()).contains(&place),
                    place > config.objects.len(),
                    place == 1,
                    place == config.room(),
                ];
                let counts = &mut self.told[usize::from(config.is_wide())];
                counts.iter_mut().zip(told).for_each(|(count, told)| *count += u64::from(told));
            }
            (_, question @ 1..=QUESTIONS, _) => self.refused[question - 1] += 1,
            _ => (),
        }
    }

    /// What is counted, by its name.
    fn counts(&self) -> impl Iterator<Item = (String, u64)> {
        let refused = (1..).zip(self.refused).map(|(question, count)| (format!("refused by {question}"), count));
        let rooms = ["small", "wide"].into_iter().zip(self.told);
        let told = rooms.flat_map(|(room, counts)| {
            TOLD.into_iter().zip(counts).map(move |(name, count)| (format!("{name} ({room})"), count))
        });
        refused.chain(told)
    }

    pub fn print(&self) {
        println!("{} areas asked for their first bad record", self.areas);
        self.counts().for_each(|(name, count)| println!("{name:>26} {count}"));
    }

    /// What never occurred.
    pub fn absent(&self) -> impl Iterator<Item = String> {
        self.counts().filter(|(_, count)| *count == 0).map(|(name, _)| format!("first bad record: {name}"))
    }

    /// Everything that is needed to make the call again.
    fn print_difference(&self, line: &[u8], state: &[u8], here: &Walked, there: &Walked) {
        println!("difference: seed {}, the first bad record of area {}", self.seed, self.areas);
        println!("line  {}", hex(line));
        println!("state {}", hex(state));
        for (name, walked) in [("reference", here), ("library", there)] {
            println!("{name} answered {} (kind {}, {})", walked.answer, walked.answer >> 32, walked.answer as u32);
            if !walked.unchanged {
                println!("  bytes were changed, which are only read");
            }
        }
    }
}
