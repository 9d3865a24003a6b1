//! A stream of calls of the functions that judge: sessions with the state carried on, and between their calls others
//! with malformed files, areas and records, which carry nothing on. Some sessions begin with a drill, and at times the
//! area is one of before there were locks, with sixteen zeros at its end, and carried on.

use super::areas;
use super::broken;
use super::drills;
use super::greens::greened;
use super::likely::Scene;
use super::locks::locking;
use super::records::{self, Want};
use super::rings::ringed;
use super::rng::Rng;
use super::serials::{self, label, labelled};
use super::worlds::{Size, World, world};
use crate::config::load;
use crate::limits::{ANSWER_BYTES, STATE_BYTES, STATE_BYTES_WIDE, locks_place};
use crate::operation::Operation;
use crate::state::State;
use std::collections::VecDeque;

#[derive(Clone, Copy, Debug, PartialEq, Eq)]
pub enum Function {
    LoadCheck,
    Fresh,
    Operate,
}

/// One call with all that it is given.
#[derive(Clone, Debug, PartialEq, Eq)]
pub struct Call {
    pub function: Function,
    pub line: Vec<u8>,
    pub state: Vec<u8>,
    pub record: Vec<u8>,
    pub answer: Vec<u8>,
    /// Whether the state that the call leaves is the session's from then on.
    pub carried: bool,
}

/// The stream.
#[derive(Clone, Debug)]
pub struct Calls {
    rng: Rng,
    world: World,
    state: Vec<u8>,
    queue: VecDeque<Call>,
    /// The records of a drill that are still to come.
    drill: VecDeque<Vec<u8>>,
    operations: usize,
    pub sessions: u64,
}

impl Calls {
    pub fn new(seed: u64) -> Calls {
        let mut rng = Rng::part(seed, 0);
        let world = world(&mut rng, Size::Tiny);
        let (queue, drill) = (VecDeque::new(), VecDeque::new());
        Calls { rng, world, state: Vec::new(), queue, drill, operations: 0, sessions: 0 }
    }

    /// The next call; the state that it leaves comes back by `carry`.
    pub fn next_call(&mut self) -> Call {
        if self.queue.is_empty() && self.operations == 0 {
            self.begin();
        }
        match self.queue.pop_front() {
            Some(call) => call,
            None => {
                self.operations -= 1;
                self.operation()
            }
        }
    }

    /// The world of the session that the last call belongs to.
    pub fn world(&self) -> &World {
        &self.world
    }

    pub fn carry(&mut self, call: &Call, state: &[u8]) {
        if call.carried {
            self.state = state.to_vec();
        }
    }

    /// A new session: the file is checked, broken and made fresh.
    fn begin(&mut self) {
        self.sessions += 1;
        if self.rng.percent(5) {
            let drill = drills::any(&mut self.rng);
            (self.world, self.drill) = (drill.world, drill.records.into());
            if self.rng.percent(50) {
                label(&mut self.rng, &mut self.world);
            }
        } else {
            let size = Size::any(&mut self.rng);
            let kinds = [ringed, greened, locking, labelled];
            self.world = kinds[self.rng.weighted(&[20, 15, 20, 45])](&mut self.rng, size);
        }
        self.operations = self.drill.len() + self.rng.between(5, 70) + self.world.config.objects.len();
        let line = self.world.line.clone();
        let check = self.call(Function::LoadCheck, line.clone());
        self.queue.push_back(check);
        for _ in 0..self.rng.between(0, 3) {
            let number = self.rng.between(1, 6) as u8;
            let line = broken::line(&mut self.rng, &self.world, number);
            self.put_beside(line);
        }
        if self.rng.percent(40) {
            let call = self.widened();
            self.queue.push_back(call);
        }
        if let Some(line) = serials::changed(&mut self.rng, &self.world) {
            self.put_beside(line);
        }
        if self.rng.percent(25) {
            let mut call = self.call(Function::Fresh, line.clone());
            call.state = self.wrong_length(&call.state);
            self.queue.push_back(call);
        }
        let fresh = Call { carried: true, ..self.call(Function::Fresh, line) };
        self.queue.push_back(fresh);
    }

    /// A call of any function with another file than the session's.
    fn put_beside(&mut self, line: Vec<u8>) {
        let function = [Function::LoadCheck, Function::Fresh, Function::Operate][self.rng.below(3)];
        let call = self.call(function, line);
        self.queue.push_back(call);
    }

    /// A file that announces many objects, with a fresh state in an area of either length.
    fn widened(&mut self) -> Call {
        let line = broken::widened(&mut self.rng, &self.world);
        let mut state = load(&line).map_or(Vec::new(), |config| State::fresh(&config).to_bytes());
        state.resize([STATE_BYTES, STATE_BYTES_WIDE][self.rng.below(2)], 0);
        let function = [Function::LoadCheck, Function::Fresh, Function::Operate][self.rng.below(3)];
        let (partition, green) = (self.rng.between(0, 64), self.rng.percent(30));
        let record = Operation::Create { partition, green }.to_bytes();
        Call { state, record, ..self.call(function, line) }
    }

    /// A call with areas of the session's lengths and any bytes.
    fn call(&mut self, function: Function, line: Vec<u8>) -> Call {
        let state = self.rng.bytes(self.world.config.state_bytes());
        let count = self.rng.below(12);
        let record = self.rng.bytes(count);
        Call { function, line, state, record, answer: self.answer(), carried: false }
    }

    fn answer(&mut self) -> Vec<u8> {
        let length = if self.rng.percent(70) { ANSWER_BYTES } else { self.rng.between(ANSWER_BYTES, 200) };
        self.rng.bytes(length)
    }

    /// The area with another length than the session's file needs, often the one that other files need, or the one that
    /// it had before there were locks.
    fn wrong_length(&mut self, area: &[u8]) -> Vec<u8> {
        let mut area = area.to_vec();
        let needed = self.world.config.state_bytes();
        let other = STATE_BYTES + STATE_BYTES_WIDE - needed;
        let near = [0, 1, needed - 1, needed + 1, 2 * needed, self.rng.below(needed)];
        let before = locks_place(self.world.config.room());
        let lengths =
            [&near[..], &[other, other, other - 1, other + 1], &[before, before, before - 1, before + 1]].concat();
        area.resize(lengths[self.rng.below(lengths.len())], 0);
        area
    }

    /// An operation: the drill's or session's next one, or one beside it.
    fn operation(&mut self) -> Call {
        let area = self.state.clone();
        let config = &self.world.config;
        let state = State::from_bytes(config, &area).unwrap_or_else(|| State::fresh(config));
        let line = self.world.line.clone();
        let answer = self.answer();
        if let Some(record) = self.drill.pop_front() {
            return Call { function: Function::Operate, line, state: area, record, answer, carried: true };
        }
        let want = Want::any(&mut self.rng, &self.world);
        let record = records::record(&mut self.rng, &self.world, &state, want);
        let mut call = Call { function: Function::Operate, line, state: area, record, answer, carried: false };
        match self.rng.weighted(&[73, 3, 3, 7, 11, 3]) {
            0 => call.carried = true,
            5 => {
                call.state = areas::carried_over(&areas::older(&self.world.config, &state.to_bytes()));
                call.carried = true;
            }
            1 => call.state = self.wrong_length(&call.state),
            2 => {
                let length = [0, 1, 16, ANSWER_BYTES - 1][self.rng.below(4)];
                call.answer = self.rng.bytes(length);
            }
            3 => call.state = areas::broken(&mut self.rng, &self.world.config, &state),
            _ => {
                let state = areas::scrambled(&mut self.rng, &self.world.config);
                call.state = state.to_bytes();
                call.record = self.beside(&state, want);
            }
        }
        call
    }

    /// A record for a state that no list of calls reaches: one in three is about green zones, whatever its answer is.
    fn beside(&mut self, state: &State, want: Want) -> Vec<u8> {
        if self.rng.percent(35) {
            let number = [20, 22, 22][self.rng.below(3)];
            let mut scene = Scene { rng: &mut self.rng, world: &self.world, state };
            return scene.likely_refused(number).to_bytes();
        }
        let refusals = if self.world.locks { &[18, 19, 20, 21, 22, 23][..] } else { &[18, 19, 20, 21, 22] };
        let refused = Want::Refused(refusals[self.rng.below(refusals.len())]);
        let want = [Want::Accepted, refused, want][self.rng.weighted(&[20, 60, 20])];
        records::record(&mut self.rng, &self.world, state, want)
    }
}
