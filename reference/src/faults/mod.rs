//! Judges that are faulty on purpose, each in one point. What is judged right by all of them tells nothing about that
//! point: `coverage` counts the sessions that notice each. The plain judge knows nothing of this module. No session
//! shows a state area that is broken or of another length, so walks over one (`walks`), and what goes wrong with its
//! lock bytes (`lock_areas`), stand beside these judges; so do faulty questions 6, and loaders and writers that go
//! wrong with editions and serials.

mod answers;
mod colours;
mod green;
pub mod lock_areas;
mod locks;
mod rings;
mod searches;
mod serials;
pub mod walks;
mod wide;

pub use green::UNREACHED as GREEN_UNREACHED;
pub use locks::LOCKS;
pub use rings::{LOADERS, UNREACHED};
pub use serials::{READERS, WRITERS};

use crate::closure::{Search, closure, limited};
use crate::config::Config;
use crate::effect;
use crate::gate::Judgement;
use crate::limits::{MAX_NUMBER, MAX_ONE_BYTE, SMALL_ROOM};
use crate::operation::{self, Operation};
use crate::questions::{Case, QUESTIONS, Question};
use crate::state::State;
use colours::COLOURS;
use green::GREENS;
use rings::RINGS;
use serials::SERIALS;

/// What makes the state that follows.
type Apply = fn(&Config, &State, &Operation) -> State;

/// What a faulty judge takes a file for; the number of a question if it refuses the file. What it takes a record for,
/// and a state.
type Taken = fn(&Config) -> Result<Config, u8>;
type Named = fn(Operation) -> Operation;
type Kept = fn(&Config, &State) -> State;

/// One fault: what stands in the place of the papers' rule.
#[derive(Clone, Copy, Debug)]
pub struct Fault {
    pub name: &'static str,
    /// The codes of operations that this fault can touch, and the right answers that it can turn into another, or at
    /// which it can store something else. A search that finds less than there is, for instance, passes what should be
    /// refused and never refuses what should pass.
    pub codes: &'static [usize],
    pub touches: &'static [u8],
    /// The right answers of which calls must show it; where none is given, all that it touches.
    asked: &'static [u8],
    /// The least cases that must notice it.
    pub cases: usize,
    /// How many objects a configuration has that it can touch, at least.
    objects: usize,
    search: Search,
    instead: Option<(u8, Question)>,
    /// A question, and the one that it is put before.
    early: Option<(u8, u8)>,
    apply: Apply,
    taken: Option<Taken>,
    named: Named,
    kept: Option<Kept>,
    /// The largest number that it reads in a record.
    most_number: usize,
}

/// No fault: where each of those below begins.
const NONE: Fault = Fault {
    name: "",
    codes: &[],
    touches: &[],
    asked: &[],
    cases: 3,
    objects: 0,
    search: closure,
    instead: None,
    early: None,
    apply: effect::apply,
    taken: None,
    named: |operation| operation,
    kept: None,
    most_number: MAX_NUMBER,
};

/// All codes that there are.
const ALL_CODES: &[usize] = &[1, 2, 3, 4, 5, 6, 7, 8, 9, 10, 11, 12, 13, 14, 15];

const fn search(name: &'static str, search: Search) -> Fault {
    Fault { name, codes: &[1, 3, 8, 10, 11, 12], touches: &[19, 20, 21], search, ..NONE }
}

/// Question 18 put wrongly: it passes what it should refuse (18), or the other way round (0).
const fn eighteen(name: &'static str, touches: &'static [u8], question: Question) -> Fault {
    Fault { name, codes: &[2, 4], touches, instead: Some((18, question)), ..NONE }
}

/// Faults of the closure (document 01: reach): they find less.
const SEARCHES: [Fault; 20] = [
    search("closure of 2 rounds", limited::<2>),
    search("closure of 5 rounds", limited::<5>),
    search("closure of 9 rounds", limited::<9>),
    search("closure of 16 rounds", limited::<16>),
    search("closure of 2 sweeps by rising number", searches::rising::<2>),
    search("closure of 5 sweeps by rising number", searches::rising::<5>),
    search("closure of 9 sweeps by rising number", searches::rising::<9>),
    search("closure of 16 sweeps by rising number", searches::rising::<16>),
    search("closure of 2 sweeps by falling number", searches::falling::<2>),
    search("closure of 5 sweeps by falling number", searches::falling::<5>),
    search("closure of 9 sweeps by falling number", searches::falling::<9>),
    search("closure of 16 sweeps by falling number", searches::falling::<16>),
    search("whole descriptor states for pairs", searches::whole_states),
    search("each device collects for itself", searches::each_alone),
    search("one pair kept for each descriptor", searches::one_pair_each),
    search("closure: mode 1 is no read", searches::taken_as::<1, 0>),
    search("closure: mode 1 is no read in kind 1", searches::mode_1_reads_in_hardcoded_only),
    search("closure: mode 2 is no write", searches::taken_as::<2, 0>),
    search("closure: mode 3 is no read", searches::taken_as::<3, 2>),
    search("closure: mode 3 is no write", searches::taken_as::<3, 1>),
];

/// Faults of question 18.
const DESCRIBED: [Fault; 11] = [
    eighteen("18 looks one step far", &[0], answers::near::<1>),
    eighteen("18 looks two steps far", &[0], answers::near::<2>),
    eighteen("18 looks six steps far", &[0], answers::near::<6>),
    eighteen("18 ignores the stored value of writes", &[18], answers::any_stored_value::<2>),
    eighteen("18 ignores the stored value of copies", &[18], answers::any_stored_value::<4>),
    eighteen("18 asks nothing about destinations", &[18], answers::any_destination),
    eighteen("18 by all values in the closure", &[18], answers::by_closure),
    eighteen("18: mode 1 is no read", &[0], answers::taken_as::<1, 0>),
    eighteen("18: mode 2 is no write", &[0], answers::taken_as::<2, 0>),
    eighteen("18: mode 3 is no read", &[0], answers::taken_as::<3, 2>),
    eighteen("18: mode 3 is no write", &[0], answers::taken_as::<3, 1>),
];

/// Faults of questions 19 and 20, and of what is stored.
const OTHERS: [Fault; 7] = [
    Fault {
        name: "19 not put for code 3",
        codes: &[3],
        touches: &[19],
        instead: Some((19, answers::code_3_passes_19)),
        ..NONE
    },
    Fault {
        name: "19 put on the state before the call",
        codes: &[1, 3],
        touches: &[19],
        instead: Some((19, answers::crosses_before)),
        ..NONE
    },
    Fault {
        name: "20 put on the state after the call",
        codes: &[11],
        touches: &[20],
        instead: Some((20, answers::leaves_after)),
        ..NONE
    },
    Fault {
        name: "20 counts the leaving device's entries",
        codes: &[11],
        touches: &[0],
        instead: Some((20, answers::leaves_with_own)),
        ..NONE
    },
    Fault {
        name: "copies of code 3 done one by one",
        codes: &[3],
        touches: &[0, 19],
        instead: Some((19, answers::crosses_one_by_one)),
        apply: answers::one_by_one::<3>,
        ..NONE
    },
    Fault {
        name: "copies of code 4 done one by one",
        codes: &[4],
        touches: &[0],
        apply: answers::one_by_one::<4>,
        ..NONE
    },
    Fault {
        name: "activation clears nothing",
        codes: &[7, 8, 9],
        touches: &[0],
        apply: answers::nothing_cleared,
        ..NONE
    },
];

/// A fault of wide configurations with at least so many objects: it can touch everything, and accepted calls show it.
const fn wide(name: &'static str, objects: usize) -> Fault {
    const ANSWERS: &[u8] = &[0, 10, 11, 12, 13, 14, 15, 16, 17, 18, 19, 20, 21, 22, 23];
    Fault { name, codes: ALL_CODES, touches: ANSWERS, asked: &[0], objects, ..NONE }
}

/// Faults of wide configurations (request N2). One of them shows only where there is a single object more than in small
/// configurations.
const WIDE: [Fault; 7] = [
    Fault { taken: Some(wide::entries_modulo), ..wide("entries' objects modulo 128", MAX_ONE_BYTE + 1) },
    Fault { taken: Some(wide::entries_of_small), ..wide("entries' objects at most 96", SMALL_ROOM + 1) },
    Fault { named: wide::records_modulo, ..wide("records' objects modulo 128", MAX_ONE_BYTE + 1) },
    Fault { kept: Some(wide::without_last), cases: 1, ..wide("97 objects in the small room", SMALL_ROOM + 1) },
    Fault { objects: MAX_ONE_BYTE + 1, ..search("closure: nothing above 127 is read", wide::none_above_one_byte) },
    Fault {
        name: "15 asks the first 96 objects",
        codes: &[6],
        touches: &[15],
        objects: SMALL_ROOM + 1,
        instead: Some((15, wide::few_are_in_it)),
        ..NONE
    },
    Fault {
        name: "the first 96 objects go with their owner",
        codes: &[7, 8, 10, 11],
        touches: &[0],
        objects: SMALL_ROOM + 1,
        apply: wide::few_are_moved,
        ..NONE
    },
];

/// All faults that sessions notice.
pub fn all() -> Vec<Fault> {
    [&SEARCHES[..], &DESCRIBED, &OTHERS, &WIDE, &RINGS, &GREENS, &COLOURS, &LOCKS, &SERIALS].concat()
}

impl Fault {
    /// Whether a call with this record and this right answer can go another way by this fault.
    pub fn can_touch(&self, config: &Config, record: &[u8], right: u8) -> bool {
        let known = |code: usize| self.codes.contains(&code);
        let code = || operation::read(record).map(|operation| operation.code());
        config.objects.len() >= self.objects && self.touches.contains(&right) && code().is_some_and(known)
    }

    /// The right answers of which calls must show it.
    pub fn asked(&self) -> &'static [u8] {
        if self.asked.is_empty() { self.touches } else { self.asked }
    }
}

/// Questions 10 to 23 as the faulty judge puts them, for a well formed state; a file that it refuses is refused at
/// every call.
pub fn judge(fault: &Fault, config: &Config, state: &State, record: &[u8]) -> Judgement {
    let taken = fault.taken.map(|taken| taken(config)).transpose()?;
    let config = taken.as_ref().unwrap_or(config);
    let kept = fault.kept.map(|kept| kept(config, state));
    let state = kept.as_ref().unwrap_or(state);
    let operation = operation::read_up_to(fault.most_number, record).ok_or(10)?;
    let touched = config.objects.len() >= fault.objects;
    let operation = if touched { (fault.named)(operation) } else { operation };
    let case = Case { config, state, operation: &operation, search: fault.search };
    for (number, plain) in order(fault) {
        let question = fault.instead.filter(|(instead, _)| *instead == number).map_or(plain, |(_, question)| question);
        if !question(&case) {
            return Err(number);
        }
    }
    Ok(((fault.apply)(config, state, &operation), effect::answers(state, &operation)))
}

/// The questions in the order in which the faulty judge asks them.
fn order(fault: &Fault) -> Vec<(u8, Question)> {
    let mut list = QUESTIONS.to_vec();
    let place = |wanted: u8| list.iter().position(|(number, _)| *number == wanted);
    if let Some((early, before)) = fault.early
        && let (Some(from), Some(to)) = (place(early), place(before))
    {
        list[to..=from].rotate_right(1);
    }
    list
}
