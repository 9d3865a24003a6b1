//! The least that stored cases must show, what is missing, and the counts as text.

use super::chains::{ORDERS, Order};
use super::greens::Greens;
use super::locks::Locks;
use super::serials::{Role, Serials};
use super::wide::Wide;
use super::{Coverage, LONGEST, Noticed};
use crate::faults::{Fault, LOADERS, READERS};
use crate::generate::serials::SERIALS;
use crate::generate::worlds::WIDE_COUNTS;
use crate::limits::LAST_EDITION;
use std::fmt;

/// Chains of each length: those that cross, in each order, and those that end at what leaves.
const CHAINS: usize = 2;
/// Refusals by a number of a code.
const REFUSED: [(u8, usize, usize); 8] =
    [(19, 1, 300), (19, 3, 100), (20, 10, 30), (20, 11, 30), (20, 12, 30), (21, 8, 100), (22, 1, 100), (22, 8, 20)];
/// Rings whose chains leave after so many steps: each step is a descriptor write, and the chain is one longer.
const STEPS: [usize; 3] = [1, 2, 10];
const RINGS: usize = 5;
/// In green zones (request N5): cases with such zones beside others, records of code 13 by answer, writes and copies
/// that are accepted, refusals by 20's stricter part alone, by code, and devices that come in.
const GREEN_CASES: usize = 20;
const CREATED: [(u8, usize); 4] = [(0, 50), (10, 5), (11, 5), (14, 15)];
const GREEN_STORED: [(usize, usize); 2] = [(1, 60), (3, 20)];
const STRICT: [(usize, usize); 3] = [(10, 10), (11, 10), (12, 15)];
const GREEN_ENTERED: usize = 30;
/// Of locks (request N6): cases with one, records of codes 14 and 15 by answer, code 8 refused by 23, accepted records
/// of other codes while a device is locked, and devices that are locked in wide configurations.
const LOCK_CASES: usize = 25;
const LOCKED: [(usize, u8, usize); 11] = [
    (8, 23, 60),
    (14, 0, 60),
    (14, 10, 5),
    (14, 11, 5),
    (14, 16, 20),
    (14, 23, 25),
    (15, 0, 50),
    (15, 10, 5),
    (15, 11, 5),
    (15, 16, 15),
    (15, 23, 25),
];
const BESIDE_LOCKS: [(usize, usize); 11] =
    [(1, 10), (3, 8), (5, 8), (6, 5), (7, 10), (8, 20), (9, 10), (10, 8), (11, 10), (12, 5), (13, 10)];
const WIDE_LOCKED: usize = 16;
/// Of serials (request N7): cases of edition 2, serials of each kind that matters, files of edition 2 that are refused
/// at a serial, files of no edition, and records with a number from 65,536 on, for each code and each role.
const EDITION_CASES: usize = 30;
const EACH_SERIAL: usize = 2;
const AT_SERIALS: usize = 4;
const NO_EDITION: usize = 8;
const UNKNOWN: usize = 4;
const UNREADABLE: [(Role, usize); 3] = [(Role::Code, 40), (Role::Count, 20), (Role::Form, 5)];
/// The last code.
const CODES: usize = 15;
/// Files that a faulty question 6, or another loader, answers in another way.
const FILES: usize = 3;
/// Calls that notice a fault, for each right answer that must show it.
const CALLS: usize = 5;
/// In wide configurations: cases with each count of objects, refusals, accepted records that name an object with a
/// number of two bytes, chains through such an object that cross, and that end at what leaves; and the longest of
/// both.
const WIDE_CASES: usize = 1;
const WIDE_REFUSED: usize = 20;
const WIDE_NAMED: usize = 15;
const WIDE_CROSSING: usize = 5;
const WIDE_LEAVING: usize = 3;
const WIDE_LONGEST: usize = 40;

/// A count: its name, how often, and the least that it must be.
struct Row {
    name: String,
    count: usize,
    least: usize,
}

impl Coverage {
    /// The rarest length of chains that cross in an order, and how often it is there.
    fn rarest_crossing(&self, order: Order) -> (usize, usize) {
        let lengths = order.least()..=LONGEST;
        let count = |length: usize| self.crossing.get(&(length, Some(order))).copied().unwrap_or(0);
        lengths.map(|length| (count(length), length)).min().unwrap_or_default()
    }

    fn rarest_leaving(&self) -> (usize, usize) {
        let counts = (1..=LONGEST).map(|length| (self.leaving.get(&length).copied().unwrap_or(0), length));
        counts.min().unwrap_or_default()
    }

    fn chain_rows(&self) -> Vec<Row> {
        let one = self.crossing.get(&(1, None)).copied().unwrap_or(0);
        let mut rows = vec![Row { name: "chains of 1 that cross".to_string(), count: one, least: CHAINS }];
        for order in ORDERS {
            let (count, length) = self.rarest_crossing(order);
            let name = format!("{order:?} chains of each length {} to {LONGEST} that cross", order.least());
            rows.push(Row { name: format!("{name}, rarest {length}"), count, least: CHAINS });
        }
        let (count, length) = self.rarest_leaving();
        let name = format!("chains of each length 1 to {LONGEST} to what leaves, rarest {length}");
        rows.push(Row { name, count, least: CHAINS });
        rows
    }

    fn refusal_rows(&self) -> Vec<Row> {
        let row = |(number, code, least): (u8, usize, usize)| {
            let count = self.refused.get(&(number, code)).copied().unwrap_or(0);
            Row { name: format!("refusals by {number} of code {code}"), count, least }
        };
        REFUSED.into_iter().map(row).collect()
    }

    fn ring_rows(&self) -> Vec<Row> {
        let steps = STEPS.into_iter().map(|steps| {
            let count = self.entering.get(&(steps + 1)).copied().unwrap_or(0);
            Row { name: format!("rings that leave after {steps} steps"), count, least: RINGS }
        });
        let names = LOADERS.iter().map(|(name, _)| name);
        steps.chain(names.zip(self.loaded).map(|(name, count)| file_row(name, count))).collect()
    }

    fn serial_rows(&self) -> Vec<Row> {
        let names = READERS.iter().map(|(name, _)| name);
        let files = names.zip(self.read).map(|(name, count)| file_row(name, count));
        self.serials.rows().into_iter().chain(files).collect()
    }

    /// All rows but those of the faulty judges.
    fn rows(&self) -> Vec<Row> {
        let rows = [self.chain_rows(), self.refusal_rows(), self.ring_rows(), self.wide.rows(), self.greens.rows()];
        rows.into_iter().flatten().chain(self.locks.rows()).chain(self.serial_rows()).collect()
    }

    /// What is below its least, and what contradicts itself.
    pub fn missing(&self) -> Vec<String> {
        let rows = self.rows().into_iter();
        let rows = rows.chain(self.noticed.iter().flat_map(Noticed::rows));
        let low = rows.filter(|row| row.count < row.least);
        let mut list: Vec<String> =
            low.map(|row| format!("{}: {}, at least {}", row.name, row.count, row.least)).collect();
        if self.contradictions > 0 {
            list.push(format!("calls that contradict the shortest chain: {}", self.contradictions));
        }
        if self.locks.contradictions > 0 {
            list.push(format!("states that contradict the records' locks: {}", self.locks.contradictions));
        }
        list
    }
}

/// The cases whose file a faulty loader answers in another way.
fn file_row(name: &str, count: usize) -> Row {
    Row { name: format!("cases that notice '{name}'"), count, least: FILES }
}

fn longest(lengths: &[usize]) -> usize {
    lengths.iter().copied().max().unwrap_or(0)
}

impl Greens {
    fn rows(&self) -> Vec<Row> {
        let row =
            |name: String, count: Option<&usize>, least: usize| Row { name, count: count.copied().unwrap_or(0), least };
        let zones = row("cases with green zones beside others".to_string(), Some(&self.cases), GREEN_CASES);
        let created = CREATED.map(|(number, least)| {
            row(format!("records of code 13 with answer {number}"), self.created.get(&number), least)
        });
        let stored = GREEN_STORED.map(|(code, least)| {
            row(format!("values stored in green zones by code {code}"), self.stored.get(&code), least)
        });
        let strict = STRICT
            .map(|(code, least)| row(format!("stricter refusals by 20 of code {code}"), self.strict.get(&code), least));
        let entered = row("devices that come into green zones".to_string(), Some(&self.entered), GREEN_ENTERED);
        [zones].into_iter().chain(created).chain(stored).chain(strict).chain([entered]).collect()
    }
}

impl Locks {
    fn rows(&self) -> Vec<Row> {
        let row =
            |name: String, count: Option<&usize>, least: usize| Row { name, count: count.copied().unwrap_or(0), least };
        let cases = row("cases with a locked device".to_string(), Some(&self.cases), LOCK_CASES);
        let records = LOCKED.map(|(code, number, least)| {
            row(format!("records of code {code} with answer {number}"), self.records.get(&(code, number)), least)
        });
        let beside = BESIDE_LOCKS.map(|(code, least)| {
            row(format!("accepted records of code {code} beside a lock"), self.beside.get(&code), least)
        });
        let wide = row("devices locked in wide configurations".to_string(), Some(&self.wide), WIDE_LOCKED);
        [cases].into_iter().chain(records).chain(beside).chain([wide]).collect()
    }
}

impl Serials {
    fn rows(&self) -> Vec<Row> {
        let row = |name: String, count: usize, least: usize| Row { name, count, least };
        let second = self.editions.get(&LAST_EDITION).copied().unwrap_or(0);
        let mut rows = vec![
            row("cases of edition 2".to_string(), second, EDITION_CASES),
            row("files cut before a serial".to_string(), self.cut_before, AT_SERIALS),
            row("files cut inside a serial".to_string(), self.cut_inside, AT_SERIALS),
            row("files refused by 2 in a serial".to_string(), self.malformed, AT_SERIALS),
            row("files refused by 3 before a serial".to_string(), self.no_value, AT_SERIALS),
            row("files of no edition".to_string(), self.no_edition, NO_EDITION),
        ];
        rows.extend(SERIALS.map(|serial| {
            row(format!("devices with serial {serial}"), self.serials.get(&serial).copied().unwrap_or(0), EACH_SERIAL)
        }));
        rows.extend((1..=CODES).map(|code| {
            let count = self.unknown.get(&code).copied().unwrap_or(0);
            row(format!("large numbers refused by 11 of code {code}"), count, UNKNOWN)
        }));
        rows.extend(UNREADABLE.map(|(role, least)| {
            let count = self.unreadable.get(&role).copied().unwrap_or(0);
            row(format!("large numbers refused by 10 as {role:?}"), count, least)
        }));
        rows
    }
}

impl Wide {
    fn rows(&self) -> Vec<Row> {
        let of_count = |objects: usize| self.cases.get(&objects).copied().unwrap_or(0);
        let row = |name: &str, count: usize, least: usize| Row { name: name.to_string(), count, least };
        let mut rows: Vec<Row> = WIDE_COUNTS
            .map(|objects| row(&format!("cases with {objects} objects"), of_count(objects), WIDE_CASES))
            .into();
        rows.extend([
            row("refusals in wide configurations", self.refused, WIDE_REFUSED),
            row("accepted records that name an object above 127", self.named, WIDE_NAMED),
            row("chains through objects above 127 that cross", self.crossing.len(), WIDE_CROSSING),
            row("chains through objects above 127 to what leaves", self.leaving.len(), WIDE_LEAVING),
            row("links of the longest that crosses", longest(&self.crossing), WIDE_LONGEST),
            row("links of the longest to what leaves", longest(&self.leaving), WIDE_LONGEST),
        ]);
        rows
    }
}

impl Noticed {
    fn rows(&self) -> Vec<Row> {
        let name = self.fault.name;
        let name_of_cases = format!("cases that notice '{name}'");
        let mut rows = vec![Row { name: name_of_cases, count: self.cases, least: self.fault.cases }];
        for number in self.fault.asked() {
            let name = format!("calls with answer {number} that notice '{name}'");
            rows.push(Row { name, count: self.calls.get(number).copied().unwrap_or(0), least: CALLS });
        }
        rows
    }
}

impl fmt::Display for Coverage {
    fn fmt(&self, out: &mut fmt::Formatter<'_>) -> fmt::Result {
        writeln!(out, "{} cases, {} calls", self.cases, self.calls)?;
        for row in self.rows() {
            writeln!(out, "{:>6}  {} (at least {})", row.count, row.name, row.least)?;
        }
        writeln!(out, "{:>6}  calls that contradict the shortest chain (none allowed)", self.contradictions)?;
        writeln!(out, "{:>6}  states that contradict the records' locks (none allowed)", self.locks.contradictions)?;
        writeln!(
            out,
            "cases that notice each fault (and the least), calls by right answer (at least {CALLS} of those asked for)"
        )?;
        for noticed in &self.noticed {
            let calls: Vec<String> = noticed.calls.iter().map(|(number, count)| format!("{number}: {count}")).collect();
            let calls = format!("{}; another answer to {}", calls.join(", "), noticed.answers);
            let Fault { name, cases, .. } = noticed.fault;
            writeln!(out, "{:>6} ({cases})  {name:<42} {calls}", noticed.cases)?;
        }
        Ok(())
    }
}
