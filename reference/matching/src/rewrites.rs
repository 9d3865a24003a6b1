//! Files rewritten by both: the answer with its kind, the whole area, and the bytes around it.

use crate::hex;
use crate::lengths::Lengths;
use crate::library::{self, Rewritten};
use crate::serials::Serials;
use reference::generate::rewrites::rewrites;
use reference::generate::{Rewrite, Rng, World};
use reference::rewrite;

/// What an answer can be: done, refused by one of the questions 1 to 6, or that the area is too short.
const QUESTIONS: u64 = 6;
const ANSWERS: usize = 2 + QUESTIONS as usize;
const SHORT: usize = ANSWERS - 1;

/// The rewrites so far, with a random source of their own, so that the other calls are the same with them and without.
pub struct Rewrites {
    seed: u64,
    rng: Rng,
    calls: u64,
    seen: [u64; ANSWERS],
}

impl Rewrites {
    pub fn new(seed: u64) -> Rewrites {
        Rewrites { seed, rng: Rng::part(seed, 1), calls: 0, seen: [0; ANSWERS] }
    }

    /// Whether both do the same with the world's file and with files made from it, and tell the same lengths of state
    /// areas for them; the first difference is printed.
    pub fn agree(&mut self, world: &World, lengths: &mut Lengths, serials: &mut Serials) -> bool {
        rewrites(&mut self.rng, world).iter().all(|call| self.agree_on(call, serials) && lengths.agree(&call.line))
    }

    fn agree_on(&mut self, call: &Rewrite, serials: &mut Serials) -> bool {
        self.calls += 1;
        let (here, there) = (by_reference(call), library::rewrite(call));
        if here != there {
            self.print_difference(call, &here, &there);
            return false;
        }
        if let Some(count) = place(here.answer).and_then(|place| self.seen.get_mut(place)) {
            *count += 1;
        }
        serials.count_rewrite(call, here.answer);
        true
    }

    pub fn print(&self) {
        println!("{} files rewritten", self.calls);
        (0..ANSWERS).for_each(|place| println!("{:>14} {}", name(place), self.seen[place]));
    }

    /// What was never answered.
    pub fn absent(&self) -> impl Iterator<Item = String> {
        (0..ANSWERS).filter(|place| self.seen[*place] == 0).map(name)
    }

    /// Everything that is needed to make the call again.
    fn print_difference(&self, call: &Rewrite, here: &Rewritten, there: &Rewritten) {
        println!("difference: seed {}, rewrite {}", self.seed, self.calls);
        println!("line         {}", hex(&call.line));
        println!("area before  {}", hex(&call.out));
        for (name, outcome) in [("reference", here), ("library", there)] {
            println!("{name} answered {} (kind {}, {})", outcome.answer, outcome.answer >> 32, outcome.answer as u32);
            println!("  area after {}", hex(&outcome.out));
            if !outcome.guards_kept {
                println!("  bytes outside the area were changed");
            }
        }
    }
}

/// The place of an answer among those that are counted.
fn place(answer: u64) -> Option<usize> {
    match (answer >> 32, u64::from(answer as u32)) {
        (0, _) => Some(0),
        (1, question @ 1..=QUESTIONS) => Some(question as usize),
        (2, _) => Some(SHORT),
        _ => None,
    }
}

fn name(place: usize) -> String {
    match place {
        0 => "rewritten".to_string(),
        SHORT => "short".to_string(),
        question => format!("refused by {question}"),
    }
}

/// The second implementation's outcome.
fn by_reference(call: &Rewrite) -> Rewritten {
    let mut out = call.out.clone();
    Rewritten { answer: rewrite(&call.line, &mut out), out, guards_kept: true }
}
