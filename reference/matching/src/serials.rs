//! What the calls show of editions, serials and large numbers (request N7): sessions over lines of either edition,
//! files of edition 2 by their answers, and records whose large number is refused.

use reference::Config;
use reference::coverage::serials::{Role, Serials as Shown};
use reference::generate::{Call, Function, Rewrite};
use reference::limits::{FIRST_EDITION, LAST_EDITION, SERIALS_FROM};
use reference::load;

/// The editions that there are.
const EDITIONS: usize = LAST_EDITION - FIRST_EDITION + 1;

/// What was met so far.
#[derive(Default)]
pub struct Serials {
    /// Sessions by edition, and those of edition 2 over small and wide configurations.
    sessions: [u64; EDITIONS],
    rooms: [u64; 2],
    /// Files that were rewritten, and for which the area was too short, by edition; those of edition 2 with a serial
    /// other than 0.
    rewritten: [u64; EDITIONS],
    short: [u64; EDITIONS],
    with_serial: u64,
    /// What files and records show.
    shown: Shown,
    /// The file that was looked at last.
    last: Vec<u8>,
}

impl Serials {
    /// Takes in the configuration of a session.
    pub fn count_session(&mut self, config: &Config) {
        self.sessions[config.edition - FIRST_EDITION] += 1;
        if config.edition >= SERIALS_FROM {
            self.rooms[usize::from(config.is_wide())] += 1;
        }
    }

    /// Takes in a call and its answer.
    pub fn count(&mut self, call: &Call, number: u32) {
        self.count_file(&call.line);
        if call.function == Function::Operate {
            self.shown.count(&call.record, number as u8);
        }
    }

    /// Takes in a file that was rewritten, and the answer.
    pub fn count_rewrite(&mut self, call: &Rewrite, answer: u64) {
        self.count_file(&call.line);
        let Ok(config) = load(&call.line) else { return };
        let counts = if answer >> 32 == 0 { &mut self.rewritten } else { &mut self.short };
        counts[config.edition - FIRST_EDITION] += 1;
        self.with_serial += u64::from(answer >> 32 == 0 && config.serials.iter().any(|serial| *serial != 0));
    }

    fn count_file(&mut self, line: &[u8]) {
        if self.last != line {
            self.last = line.to_vec();
            self.shown.count_file(line);
        }
    }

    /// What is counted, by its name.
    fn counts(&self) -> Vec<(String, u64)> {
        let mut counts = Vec::new();
        for place in 0..EDITIONS {
            let edition = place + FIRST_EDITION;
            counts.push((format!("sessions over edition {edition}"), self.sessions[place]));
            counts.push((format!("rewritten files of edition {edition}"), self.rewritten[place]));
            counts.push((format!("areas too short for edition {edition}"), self.short[place]));
            let accepted = self.shown.editions.get(&edition).copied().unwrap_or(0);
            counts.push((format!("accepted files of edition {edition}"), accepted as u64));
        }
        counts.extend([
            ("sessions over edition 2, small".to_string(), self.rooms[0]),
            ("sessions over edition 2, wide".to_string(), self.rooms[1]),
            ("rewritten files with a serial".to_string(), self.with_serial),
            ("files cut before a serial".to_string(), self.shown.cut_before as u64),
            ("files cut inside a serial".to_string(), self.shown.cut_inside as u64),
            ("files refused by 2 in a serial".to_string(), self.shown.malformed as u64),
            ("files refused by 3 before a serial".to_string(), self.shown.no_value as u64),
            ("files of no edition".to_string(), self.shown.no_edition as u64),
        ]);
        let unknown: usize = self.shown.unknown.values().sum();
        counts.push(("large numbers refused by 11".to_string(), unknown as u64));
        counts.extend([Role::Code, Role::Count, Role::Form].map(|role| {
            let count = self.shown.unreadable.get(&role).copied().unwrap_or(0);
            (format!("large numbers refused by 10 as {role:?}"), count as u64)
        }));
        counts
    }

    pub fn print(&self) {
        println!("editions, serials and large numbers");
        self.counts().iter().for_each(|(name, count)| println!("{name:>36} {count}"));
    }

    /// What never occurred.
    pub fn absent(&self) -> impl Iterator<Item = String> {
        self.counts().into_iter().filter(|(_, count)| *count == 0).map(|(name, _)| name)
    }
}
