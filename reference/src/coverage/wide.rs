//! What cases show of wide configurations (request N2): numbers of two bytes in records, and chains through the objects
//! that have them.

use super::chains::Chain;
use crate::config::Config;
use crate::limits::MAX_ONE_BYTE;
use crate::operation;
use std::collections::BTreeMap;

#[derive(Clone, Debug, Default)]
pub struct Wide {
    /// Cases by how many objects they have.
    pub cases: BTreeMap<usize, usize>,
    /// Records that are refused.
    pub refused: usize,
    /// Accepted records that name an object whose number has two bytes.
    pub named: usize,
    /// The lengths of the chains that read such an object and cross, and of those that end at what leaves.
    pub crossing: Vec<usize>,
    pub leaving: Vec<usize>,
}

impl Wide {
    /// Takes in a case: its calls' records and answers.
    pub fn count<'a>(&mut self, config: &Config, calls: impl Iterator<Item = (&'a [u8], u8)>) {
        if !config.is_wide() {
            return;
        }
        *self.cases.entry(config.objects.len()).or_default() += 1;
        for (record, number) in calls {
            self.refused += usize::from(number != 0);
            self.named += usize::from(number == 0 && names_two_bytes(record));
        }
    }

    /// Takes in the chain behind a refusal by 19 to 21.
    pub fn count_chain(&mut self, chain: &Chain, number: u8) {
        if chain.descriptors.iter().any(|object| *object > MAX_ONE_BYTE) {
            let lengths = if number == 20 { &mut self.leaving } else { &mut self.crossing };
            lengths.push(chain.length);
        }
    }
}

/// Whether a record names an object whose number has two bytes.
fn names_two_bytes(record: &[u8]) -> bool {
    let objects = operation::read(record).map(|operation| [operation.sources(), operation.targets()].concat());
    objects.is_some_and(|objects| objects.iter().any(|object| *object > MAX_ONE_BYTE))
}
