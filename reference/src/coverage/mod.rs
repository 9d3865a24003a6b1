//! What stored cases show: chains of every length, refusals that are easy to miss, and for each fault (`faults`) how
//! many cases notice it. Counted from the cases' bytes alone, whatever made them.

pub mod chains;
pub mod greens;
mod least;
pub mod locks;
pub mod serials;
pub mod wide;

use crate::closure::{closure, crosses};
use crate::config::{Config, load, load_by, load_with};
use crate::effect;
use crate::faults::{self, Fault, LOADERS, READERS};
use crate::gate::judge;
use crate::generate::Folder;
use crate::limits::MAX_VALUES;
use crate::office::next_record;
use crate::operation::{self, Actor, Operation};
use crate::state::State;
use crate::varint::Reader;
use chains::{Chain, Order, shortest};
use greens::Greens;
use locks::Locks;
use serials::Serials;
use std::collections::BTreeMap;
use wide::Wide;

/// The longest chain that a configuration without rings has room for: one value is a hardcoded descriptor's, which
/// stores nothing, and each link of a shortest chain reads a value that was not read before. With a ring, whose
/// hardcoded value is the first link itself, there is one of a link more.
pub const LONGEST: usize = MAX_VALUES - 1;

/// Who notices a fault.
#[derive(Clone, Debug)]
pub struct Noticed {
    pub fault: Fault,
    /// Calls on the right state that get another answer, or leave other bytes, by the right answer.
    pub calls: BTreeMap<u8, usize>,
    /// Those of them that get another answer.
    pub answers: usize,
    /// Cases whose text differs, carried on with the faulty judge.
    pub cases: usize,
}

/// All counts.
#[derive(Clone, Debug)]
pub struct Coverage {
    pub cases: usize,
    pub calls: usize,
    /// Chains to an entry that crosses (document 01: is outside), by order and length. A chain of one has no order.
    pub crossing: BTreeMap<(usize, Option<Order>), usize>,
    /// Chains to an entry that names what leaves, by length.
    pub leaving: BTreeMap<usize, usize>,
    /// Chains to an entry that would cross with a device that comes in, by length.
    pub entering: BTreeMap<usize, usize>,
    /// Refusals by 19 and 22 of codes 1 and 3, by 20 of codes 10, 11 and 12, and by 21 and 22 of code 8.
    pub refused: BTreeMap<(u8, usize), usize>,
    /// What is shown of wide configurations.
    pub wide: Wide,
    /// What is shown of green zones.
    pub greens: Greens,
    /// What is shown of locks.
    pub locks: Locks,
    /// What is shown of serials and large numbers.
    pub serials: Serials,
    /// Calls that the closure judges in one way and the search for the shortest chain in the other.
    pub contradictions: usize,
    pub noticed: Vec<Noticed>,
    /// Cases whose file a faulty question 6 (`faults::LOADERS`) answers in another way, in the order of these.
    pub loaded: [usize; LOADERS.len()],
    /// Cases whose file a loader that goes wrong with serials (`faults::READERS`) answers in another way.
    pub read: [usize; READERS.len()],
}

/// A call on the right state, and what came of it.
struct Call<'a> {
    record: &'a [u8],
    before: State,
    number: u8,
    after: State,
}

impl Coverage {
    pub fn of(cases: &[Folder]) -> Coverage {
        let noticed =
            faults::all().into_iter().map(|fault| Noticed { fault, calls: BTreeMap::new(), answers: 0, cases: 0 });
        let mut coverage = Coverage {
            cases: cases.len(),
            calls: 0,
            crossing: BTreeMap::new(),
            leaving: BTreeMap::new(),
            entering: BTreeMap::new(),
            refused: BTreeMap::new(),
            wide: Wide::default(),
            greens: Greens::default(),
            locks: Locks::default(),
            serials: Serials::default(),
            contradictions: 0,
            noticed: noticed.collect(),
            loaded: [0; LOADERS.len()],
            read: [0; READERS.len()],
        };
        for case in cases {
            coverage.count_loaders(&case.line);
            coverage.serials.count_file(&case.line);
            if let Ok(config) = load(&case.line) {
                coverage.count(&config, &calls(&config, &case.session));
            }
        }
        coverage
    }

    fn count(&mut self, config: &Config, calls: &[Call]) {
        self.calls += calls.len();
        self.wide.count(config, calls.iter().map(|call| (call.record, call.number)));
        self.greens.count_case(calls.iter().map(|call| &call.after));
        self.locks.count(config, calls.iter().map(|call| (call.record, call.number, &call.after)));
        for call in calls {
            self.greens.count(config, &call.before, call.record, call.number);
            self.serials.count(call.record, call.number);
            self.count_chain(config, call);
        }
        for noticed in &mut self.noticed {
            noticed.count(config, calls);
        }
    }

    /// A file that is refused in another way prints another text.
    fn count_loaders(&mut self, line: &[u8]) {
        let right = load(line).err();
        for (count, (_, question)) in self.loaded.iter_mut().zip(LOADERS) {
            *count += usize::from(load_with(question, line).err() != right);
        }
        for (count, (_, rules)) in self.read.iter_mut().zip(READERS) {
            *count += usize::from(load_by(&rules, line).err() != right);
        }
    }

    /// The chain behind a refusal by 19 to 21; there is none behind any other call that these questions were put to,
    /// nor behind a write or copy that a green zone's rule passes. A refusal by 20 may come from the stricter part
    /// alone, and behind one by 22 there may be a chain or none.
    fn count_chain(&mut self, config: &Config, call: &Call) {
        let Some(operation) = operation::read(call.record).filter(|_| matches!(call.number, 0 | 19..=22)) else {
            return;
        };
        if call.number != 0 {
            *self.refused.entry((call.number, operation.code())).or_default() += 1;
        }
        if call.number == 22 {
            return;
        }
        let chain = match operation.code() {
            1 | 3 | 8 => chain_to_crossing(config, &call.before, &operation),
            10..=12 => chain_to_leaving(config, &call.before, &operation),
            _ => None,
        };
        let leaves = matches!(operation.code(), 10..=12);
        let named = leaves && greens::is_named(config, &call.before, &operation);
        if named && chain.is_none() {
            *self.greens.strict.entry(operation.code()).or_default() += 1;
        }
        self.contradictions += usize::from((chain.is_some() || named) != (call.number != 0));
        if let Some(chain) = &chain {
            self.wide.count_chain(chain, call.number);
        }
        match (chain, call.number) {
            (Some(chain), 19) => *self.crossing.entry((chain.length, chain.order())).or_default() += 1,
            (Some(chain), 20) => *self.leaving.entry(chain.length).or_default() += 1,
            (Some(chain), 21) => *self.entering.entry(chain.length).or_default() += 1,
            _ => (),
        }
    }
}

/// The calls of a session, each on the state that the plain judge has made.
fn calls<'a>(config: &Config, session: &'a [u8]) -> Vec<Call<'a>> {
    let mut reader = Reader::new(session);
    let mut before = State::fresh(config);
    let mut list = Vec::new();
    while let Some(record) = next_record(&mut reader) {
        let (number, after) = match judge(closure, config, &before, record) {
            Ok((next, _)) => (0, next),
            Err(number) => (number, before.clone()),
        };
        list.push(Call { record, before, number, after: after.clone() });
        before = after;
    }
    list
}

fn chain_to_crossing(config: &Config, before: &State, operation: &Operation) -> Option<Chain> {
    let next = effect::apply(config, before, operation);
    shortest(config, &next, |device, entry| crosses(config, &next, device, entry))
}

fn chain_to_leaving(config: &Config, before: &State, operation: &Operation) -> Option<Chain> {
    let concerned = effect::concerned(config, operation);
    shortest(config, before, |device, entry| {
        operation.actor() != Some(Actor::Device(device)) && concerned.contains(&entry.object)
    })
}

impl Noticed {
    fn count(&mut self, config: &Config, calls: &[Call]) {
        let mut first_answer = None;
        let mut first_state = None;
        for (place, call) in calls.iter().enumerate() {
            if !self.fault.can_touch(config, call.record, call.number) {
                continue;
            }
            let (number, after) = outcome(&self.fault, config, &call.before, call.record);
            if number != call.number {
                self.answers += 1;
                first_answer.get_or_insert(place);
            } else if after != call.after {
                first_state.get_or_insert(place);
            } else {
                continue;
            }
            *self.calls.entry(call.number).or_default() += 1;
        }
        // Up to the first call that leaves other bytes, the faulty judge has the right state.
        let noticed = match (first_answer, first_state) {
            (answer, Some(state)) if answer.is_none_or(|answer| state < answer) => {
                self.is_noticed_from(config, &calls[state..])
            }
            (answer, _) => answer.is_some(),
        };
        self.cases += usize::from(noticed);
    }

    /// Whether some answer differs when the faulty judge carries its own state on.
    fn is_noticed_from(&self, config: &Config, calls: &[Call]) -> bool {
        let mut state = calls[0].before.clone();
        calls.iter().any(|call| {
            let (number, after) = outcome(&self.fault, config, &state, call.record);
            state = after;
            number != call.number
        })
    }
}

/// The faulty judge's answer and the state that it leaves.
fn outcome(fault: &Fault, config: &Config, state: &State, record: &[u8]) -> (u8, State) {
    match faults::judge(fault, config, state, record) {
        Ok((next, _)) => (0, next),
        Err(number) => (number, state.clone()),
    }
}
