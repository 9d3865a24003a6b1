//! Stored cases for a program that reads them from standard input: a row of cases, each a line length and a session
//! length (two bytes each, lowest first), the line's bytes, the session's bytes. The output expected is, for each case,
//! the report and a line with a dot.

use super::corners::{corners, file_l, green_corners, lock_corners, ring_corners};
use super::drills::{self, Point};
use super::rng::Rng;
use super::serial_corners::serial_corners;
use super::sessions::{Folder, folder, folder_of_before, folder_with_greens, folder_with_locks, folder_with_rings};
use super::worlds::Size;
use crate::config::load;
use crate::limits::{LAST_EDITION, LINE_LIMIT, SESSION_LIMIT};
use crate::office::report;
use std::fmt;

/// The stored cases and what they show.
#[derive(Clone, Debug, Default)]
pub struct Stored {
    pub input: Vec<u8>,
    pub expected: Vec<u8>,
    pub tally: Tally,
}

/// How often each thing is shown.
#[derive(Clone, Debug, Default)]
pub struct Tally {
    pub cases: usize,
    /// Refused files and rows, by number.
    pub numbers: [usize; 24],
    pub cut: usize,
    pub long: usize,
    pub silent: usize,
}

/// The most bytes of input: what the program that is given the stored cases takes in, 192 KiB.
pub const MOST_INPUT: usize = 196_608;

/// What a session can show: files refused by 1 to 6, rows 0 and 10 to 23.
pub const SHOWN: [usize; 21] = [0, 1, 2, 3, 4, 5, 6, 10, 11, 12, 13, 14, 15, 16, 17, 18, 19, 20, 21, 22, 23];
/// How many of them a session shows over a line without rings, in zones that are not green.
const SHOWN_WITHOUT_RING: usize = 18;

impl Tally {
    fn count(&mut self, report: &str) {
        self.cases += 1;
        self.silent += usize::from(report.is_empty());
        for row in report.lines() {
            match row.split_once(' ').map(|(_, number)| number.parse::<usize>()) {
                Some(Ok(number)) => self.numbers[number] += 1,
                _ if row == "cut" => self.cut += 1,
                _ => self.long += 1,
            }
        }
    }

    /// The numbers that are shown fewer than `least` times.
    pub fn rare(&self, least: usize) -> Vec<usize> {
        SHOWN.into_iter().filter(|number| self.numbers[*number] < least).collect()
    }
}

impl fmt::Display for Tally {
    fn fmt(&self, out: &mut fmt::Formatter<'_>) -> fmt::Result {
        writeln!(out, "{} cases", self.cases)?;
        for number in SHOWN {
            writeln!(out, "{number:>5} {}", self.numbers[number])?;
        }
        writeln!(out, "  cut {}\n long {}\nempty {}", self.cut, self.long, self.silent)
    }
}

impl Stored {
    fn push_drills(&mut self, seed: u64, points: &[(Point, usize)]) {
        for (point, _) in points {
            drills::stored(seed, *point).iter().for_each(|drill| self.push(&drill.folder()));
        }
    }

    pub fn push(&mut self, folder: &Folder) {
        let length = |bytes: &[u8]| (bytes.len() as u16).to_le_bytes();
        self.input.extend(length(&folder.line));
        self.input.extend(length(&folder.session));
        self.input.extend(&folder.line);
        self.input.extend(&folder.session);
        let text = report(&folder.line, &folder.session);
        self.tally.count(&String::from_utf8_lossy(&text));
        self.expected.extend(text);
        self.expected.extend(b".\n");
    }
}

/// The cases of an input; nothing if it does not end with a case.
pub fn cases(mut input: &[u8]) -> Option<Vec<Folder>> {
    let mut list = Vec::new();
    while !input.is_empty() {
        let (lengths, rest) = input.split_at_checked(4)?;
        let (line, rest) = rest.split_at_checked(usize::from(u16::from_le_bytes([lengths[0], lengths[1]])))?;
        let (session, rest) = rest.split_at_checked(usize::from(u16::from_le_bytes([lengths[2], lengths[3]])))?;
        list.push(Folder { line: line.to_vec(), session: session.to_vec() });
        input = rest;
    }
    Some(list)
}

/// Cases as in `stored`, and behind them the drills, then cases of devices with rings, then those of green zones, then
/// those of locks, then those of serials.
pub fn with_drills(seed: u64, count: usize, bytes: usize) -> Stored {
    let mut stored = stored(seed, count, bytes);
    let (points, serial_points) = drills::POINTS.split_at(drills::BEFORE_SERIALS);
    let (points, lock_points) = points.split_at(drills::BEFORE_LOCKS);
    let (points, green_points) = points.split_at(drills::BEFORE_GREENS);
    stored.push_drills(seed, points);
    ring_corners().iter().for_each(|folder| stored.push(folder));
    (0..RING_CASES).for_each(|case| stored.push(&ring_folder(seed, case)));
    stored.push_drills(seed, green_points);
    green_corners().iter().for_each(|folder| stored.push(folder));
    (0..GREEN_CASES).for_each(|case| stored.push(&green_folder(seed, case)));
    stored.push_drills(seed, lock_points);
    lock_corners().iter().for_each(|folder| stored.push(folder));
    (0..LOCK_CASES).for_each(|case| stored.push(&lock_folder(seed, case)));
    stored.push_drills(seed, serial_points);
    serial_corners().iter().for_each(|folder| stored.push(folder));
    (0..SERIAL_CASES).for_each(|case| stored.push(&serial_folder(seed, case)));
    stored
}

/// How many generated cases have serials, where their random source begins, and how long they are at most.
pub const SERIAL_CASES: usize = 12;
const SERIAL_PART: usize = 400_000;
const SERIAL_BYTES: usize = 400;

/// A generated case of edition 2 that shows one of these numbers.
fn serial_folder(seed: u64, case: usize) -> Folder {
    let mut rng = Rng::part(seed, (SERIAL_PART + case) as u64);
    let focus = [11, 10, 19, 2, 20, 3][case % 6];
    loop {
        let folder = some_folder(&mut rng, focus, folder);
        let second = folder.line.first().is_some_and(|edition| usize::from(*edition) == LAST_EDITION);
        if second && is_met(&folder, focus) && folder.line.len() + folder.session.len() <= SERIAL_BYTES {
            return folder;
        }
    }
}

/// How many generated cases have locks, where their random source begins, and how long they are at most.
pub const LOCK_CASES: usize = 16;
const LOCK_PART: usize = 300_000;
const LOCK_BYTES: usize = 500;

/// A generated case in which something is refused by 23.
fn lock_folder(seed: u64, case: usize) -> Folder {
    let mut rng = Rng::part(seed, (LOCK_PART + case) as u64);
    loop {
        let folder = some_folder(&mut rng, 23, folder_with_locks);
        if is_met(&folder, 23) && folder.line.len() + folder.session.len() <= LOCK_BYTES {
            return folder;
        }
    }
}

/// What makes a folder, of a size, with so many records and a number to see often.
type Making = fn(&mut Rng, Size, usize, Option<u8>) -> Folder;

/// A generated folder, seldom of more than a few objects.
fn some_folder(rng: &mut Rng, focus: u8, making: Making) -> Folder {
    let size = [Size::Tiny, Size::Small, Size::Medium][rng.weighted(&[20, 65, 15])];
    let records = rng.between(20, 40);
    making(rng, size, records, Some(focus))
}

/// Whether a session shows this number.
fn is_met(folder: &Folder, number: u8) -> bool {
    let text = report(&folder.line, &folder.session);
    let end = format!(" {number}");
    String::from_utf8_lossy(&text).lines().any(|row| row.ends_with(&end))
}

/// How many generated cases have green zones, where their random source begins, and how long they are at most.
pub const GREEN_CASES: usize = 12;
const GREEN_PART: usize = 200_000;
const GREEN_BYTES: usize = 500;

/// A generated case in which something is refused by 22.
fn green_folder(seed: u64, case: usize) -> Folder {
    let mut rng = Rng::part(seed, (GREEN_PART + case) as u64);
    loop {
        let folder = some_folder(&mut rng, [20, 22][case % 2], folder_with_greens);
        if is_met(&folder, 22) && folder.line.len() + folder.session.len() <= GREEN_BYTES {
            return folder;
        }
    }
}

/// How many generated cases have devices with rings, where their random source begins, and how long they are at most.
pub const RING_CASES: usize = 24;
const RING_PART: usize = 100_000;
const RING_BYTES: usize = 600;

/// A generated case in which a device has a ring; every third has a file that question 6 refuses by such a device.
fn ring_folder(seed: u64, case: usize) -> Folder {
    let mut rng = Rng::part(seed, (RING_PART + case) as u64);
    let focus = [21, 21, 6][case % 3];
    loop {
        let size = [Size::Tiny, Size::Small, Size::Medium][rng.weighted(&[20, 65, 15])];
        let records = if focus == 6 { 3 } else { rng.between(20, 40) };
        let folder = folder_with_rings(&mut rng, size, records, Some(focus));
        let fits = match load(&folder.line) {
            Ok(config) => focus != 6 && config.has_rings(),
            Err(number) => number == focus,
        };
        if fits && folder.line.len() + folder.session.len() <= RING_BYTES {
            return folder;
        }
    }
}

/// `count` cases in at most `bytes` bytes of input: corners first, then generated ones.
pub fn stored(seed: u64, count: usize, bytes: usize) -> Stored {
    let mut stored = Stored::default();
    corners().iter().take(count).for_each(|folder| stored.push(folder));
    for case in stored.tally.cases..count {
        let share = bytes.saturating_sub(stored.input.len()) / (count - case);
        if let Some(folder) = small_folder(seed, case, share) {
            stored.push(&folder);
        }
    }
    stored
}

/// A generated case of at most twice its share of the bytes left.
fn small_folder(seed: u64, case: usize, share: usize) -> Option<Folder> {
    let mut rng = Rng::part(seed, case as u64);
    let focus = rng.percent(75).then(|| SHOWN[case % SHOWN_WITHOUT_RING] as u8);
    (0..40).find_map(|turn| {
        let tiny = if focus.is_some_and(|number| number >= 18) { 0 } else { 20 + turn };
        let size = [Size::Tiny, Size::Small, Size::Medium, Size::Full][rng.weighted(&[tiny, 60, 12, 3])];
        let records = rng.between(if turn < 20 { 12 } else { 0 }, 36);
        let folder = folder_of_before(&mut rng, size, records, focus);
        let room = if matches!(size, Size::Tiny | Size::Small) { 2 * share } else { 6 * share };
        (4 + folder.line.len() + folder.session.len() <= room).then_some(folder)
    })
}

/// Files that are too long, for a program that takes them.
pub fn long() -> [Folder; 3] {
    let session = vec![0; SESSION_LIMIT + 1];
    let line = [file_l(), vec![0; LINE_LIMIT + 1 - file_l().len()]].concat();
    [
        Folder { line: line.clone(), session: Vec::new() },
        Folder { line: file_l(), session: session.clone() },
        Folder { line: Vec::new(), session },
    ]
}
