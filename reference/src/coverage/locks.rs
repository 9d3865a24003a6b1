//! What cases show of locks (request N6). What is locked is kept here a second time, from the records and answers
//! alone.

use crate::config::Config;
use crate::operation::{self, Actor, Operation};
use crate::state::{NONE, State};
use std::collections::{BTreeMap, BTreeSet};

#[derive(Clone, Debug, Default)]
pub struct Locks {
    /// Cases in which a device was locked.
    pub cases: usize,
    /// Records of codes 14 and 15 by their answers, those that cannot be read among them, and code 8's refused by 23.
    pub records: BTreeMap<(usize, u8), usize>,
    /// Accepted records of the other codes while a device is locked.
    pub beside: BTreeMap<usize, usize>,
    /// Devices that were locked in wide configurations.
    pub wide: usize,
    /// States in which a locked device is in a partition, or the locks are not those that the records tell.
    pub contradictions: usize,
}

/// The codes of this request.
const CODES: [u8; 2] = [14, 15];
/// The code of a device that comes in.
const ENTERING: usize = 8;

impl Locks {
    /// Takes in the calls of a case: each record with its answer and the state that it leaves.
    pub fn count<'a>(&mut self, config: &Config, calls: impl Iterator<Item = (&'a [u8], u8, &'a State)>) {
        let mut locked = BTreeSet::new();
        let mut any = false;
        for (record, number, after) in calls {
            if let Some(code) = record.first().filter(|code| CODES.contains(code)) {
                *self.records.entry((usize::from(*code), number)).or_default() += 1;
            }
            if let Some(operation) = operation::read(record) {
                self.count_operation(config, &operation, number, &mut locked);
            }
            any |= !locked.is_empty();
            let told: BTreeSet<usize> = (1..=config.devices()).filter(|device| after.is_locked(*device)).collect();
            let inside = locked.iter().any(|device| after.device(*device) != NONE);
            self.contradictions += usize::from(told != locked || inside);
        }
        self.cases += usize::from(any);
    }

    fn count_operation(&mut self, config: &Config, operation: &Operation, number: u8, locked: &mut BTreeSet<usize>) {
        if operation.code() == ENTERING && number == 23 {
            *self.records.entry((ENTERING, number)).or_default() += 1;
        }
        match operation {
            _ if number != 0 => (),
            Operation::Lock { actor: Actor::Device(device), locked: true } => {
                self.wide += usize::from(config.is_wide());
                locked.insert(*device);
            }
            Operation::Lock { actor, .. } => {
                locked.remove(&actor.number());
            }
            _ if !locked.is_empty() => *self.beside.entry(operation.code()).or_default() += 1,
            _ => (),
        }
    }
}
