//! The stored cases of `crates/vectors`, judged by the reference: cases on standard input, a row for each on standard
//! output. tests/vectors.py makes the cases and says what they are.
//!
//! A case is a byte for what is called, its length in two bytes, lowest first, and its bytes. A row is the case's place
//! from 1, the answer, and a checksum of what the call left (0 where it leaves nothing); where the first bad record of
//! an area is asked for, what an operation with an empty record answers there.

use reference::limits::{ANSWER_BYTES, LINE_LIMIT, MAX_COUNT, STATE_BYTES};
use reference::memory::{OBJECT_PLACES, SMALL_OBJECT_PLACES};
use reference::operation::{self, Operation, Put};
use reference::state::{CLEARED, Contents, State, well_formed};
use reference::{Memory, coded, first_bad, fresh, load, load_check, operate, state_bytes, write};
use std::io::{Read, Write};
use std::process::ExitCode;

/// What a case calls: the load check; making a fresh state in an area of the right length, of a byte less and of a byte
/// more; question 9; question 10; the writer of files, for small configurations; making a fresh state in an area of a
/// given length; an operation in one; the length of a state area; the writer for any configuration of edition 1; the
/// first bad record of an area of a given length; an operation with a given record in one; the writer for any
/// configuration with its edition and serials.
const LOAD: u8 = 1;
const FRESH: u8 = 2;
const FORMED: u8 = 3;
const OPERATION: u8 = 4;
const FRESH_SHORT: u8 = 5;
const FRESH_LONG: u8 = 6;
const WRITE_SMALL: u8 = 7;
const FRESH_GIVEN: u8 = 8;
const OPERATE_GIVEN: u8 = 9;
const STATE_LENGTH: u8 = 10;
const WRITE: u8 = 11;
const FIRST_BAD: u8 = 12;
const OPERATE_RECORD: u8 = 13;
const WRITE_SERIALS: u8 = 14;

const HEAD_BYTES: usize = 3;
const PATCH_BYTES: usize = 3;
const LENGTH_BYTES: usize = 2;

/// What an area holds before a fresh state is made in it, or a file written into it.
const OLD_BYTE: u8 = 0xAA;

/// The longest area. One that a file is written into is cut to it; a case with a longer state area is none.
const LONGEST_AREA: usize = LINE_LIMIT;

/// The record of the operation in a given area: creates partition 1.
const CREATE: [u8; 2] = [5, 1];

/// The record that stops at question 10, if all before are answered with yes.
const EMPTY_RECORD: [u8; 0] = [];

/// What a case gets that is none: lengths that its bytes have no room for, a place outside its area, an unknown call.
const NO_CASE: Row = (255, 0);

/// An answer, and the checksum of what was left, or a second answer.
type Row = (u64, u64);

fn main() -> ExitCode {
    match run() {
        Ok(()) => ExitCode::SUCCESS,
        Err(message) => {
            eprintln!("{message}");
            ExitCode::FAILURE
        }
    }
}

fn run() -> Result<(), String> {
    let (mut cases, mut rows) = (Vec::new(), String::new());
    std::io::stdin().read_to_end(&mut cases).map_err(|error| error.to_string())?;
    let (mut rest, mut place) = (&cases[..], 0);
    while !rest.is_empty() {
        place += 1;
        let (call, bytes, behind) = cut(rest).ok_or_else(|| format!("case {place} is cut short"))?;
        let (answer, left) = judge(call, bytes).unwrap_or(NO_CASE);
        rows += &format!("{place} {answer} {left}\n");
        rest = behind;
    }
    std::io::stdout().write_all(rows.as_bytes()).map_err(|error| error.to_string())
}

/// The first case: what is called, its bytes, and what stands behind it.
fn cut(cases: &[u8]) -> Option<(u8, &[u8], &[u8])> {
    let (head, rest) = cases.split_at_checked(HEAD_BYTES)?;
    let (bytes, behind) = rest.split_at_checked(two(head[1], head[2]))?;
    Some((head[0], bytes, behind))
}

fn two(low: u8, high: u8) -> usize {
    usize::from(low) + 256 * usize::from(high)
}

fn judge(call: u8, bytes: &[u8]) -> Option<Row> {
    match call {
        LOAD => Some((u64::from(load_check(bytes)), 0)),
        FRESH => Some(judge_fresh(bytes, area_length(bytes))),
        FRESH_SHORT => Some(judge_fresh(bytes, area_length(bytes) - 1)),
        FRESH_LONG => Some(judge_fresh(bytes, area_length(bytes) + 1)),
        FRESH_GIVEN => judge_fresh_given(bytes),
        FORMED => judge_formed(bytes),
        OPERATION => Some(judge_record(bytes)),
        OPERATE_GIVEN => judge_operate(bytes),
        STATE_LENGTH => Some((state_bytes(bytes), 0)),
        WRITE_SMALL => judge_write(bytes, |row| Memory::from_row(row, SMALL_OBJECT_PLACES)),
        WRITE => judge_write(bytes, |row| Memory::from_row(row, OBJECT_PLACES)),
        WRITE_SERIALS => judge_write(bytes, Memory::from_bytes),
        FIRST_BAD => judge_first_bad(bytes),
        OPERATE_RECORD => judge_operate_record(bytes),
        _ => None,
    }
}

/// The length of the state area that a file needs; the shorter one where the file is refused.
fn area_length(line: &[u8]) -> usize {
    load(line).map_or(STATE_BYTES, |config| config.state_bytes())
}

/// A length in two bytes, and what stands behind it.
fn length(bytes: &[u8]) -> Option<(usize, &[u8])> {
    let (length, rest) = bytes.split_at_checked(LENGTH_BYTES)?;
    Some((two(length[0], length[1]), rest))
}

/// The length of a state area, at most the longest, and what stands behind it.
fn given_area(bytes: &[u8]) -> Option<(usize, &[u8])> {
    length(bytes).filter(|(length, _)| *length <= LONGEST_AREA)
}

fn judge_fresh(line: &[u8], length: usize) -> Row {
    let mut area = vec![OLD_BYTE; length];
    let answer = u64::from(fresh(line, &mut area));
    (answer, checksum(area.into_iter().map(usize::from)))
}

/// The area's length, then the file.
fn judge_fresh_given(bytes: &[u8]) -> Option<Row> {
    given_area(bytes).map(|(length, line)| judge_fresh(line, length))
}

/// An area of zeros with some bytes set: for each a place in two bytes, and the byte.
fn patched(length: usize, patches: &[u8]) -> Option<Vec<u8>> {
    let mut area = vec![0; length];
    for patch in patches.chunks(PATCH_BYTES) {
        let [low, high, byte] = *patch else { return None };
        *area.get_mut(two(low, high))? = byte;
    }
    Some(area)
}

/// A file after its length in one byte, then the bytes of the area that are not 0.
fn judge_formed(bytes: &[u8]) -> Option<Row> {
    let (length, rest) = bytes.split_first()?;
    let (line, patches) = rest.split_at_checked(usize::from(*length))?;
    let area = patched(area_length(line), patches)?;
    let answer = match load(line) {
        Err(number) => u64::from(number),
        Ok(config) if well_formed(&config, &State::from_bytes(&config, &area)?) => 0,
        Ok(_) => 9,
    };
    Some((answer, 0))
}

/// A file after its length, the area's length, then the bytes of the area that are not 0: the file and the area.
fn given_line_and_area(bytes: &[u8]) -> Option<(&[u8], Vec<u8>)> {
    let (line_length, rest) = length(bytes)?;
    let (line, rest) = rest.split_at_checked(line_length)?;
    let (area_length, patches) = given_area(rest)?;
    patched(area_length, patches).map(|area| (line, area))
}

fn judge_operate(bytes: &[u8]) -> Option<Row> {
    let (line, area) = given_line_and_area(bytes)?;
    Some(judge_operation(line, area, &CREATE))
}

/// A record after its length, then what stands in a case of an operation without one.
fn judge_operate_record(bytes: &[u8]) -> Option<Row> {
    let (record_length, rest) = length(bytes)?;
    let (record, rest) = rest.split_at_checked(record_length)?;
    let (line, area) = given_line_and_area(rest)?;
    Some(judge_operation(line, area, record))
}

fn judge_operation(line: &[u8], mut area: Vec<u8>, record: &[u8]) -> Row {
    let answer = u64::from(operate(line, &mut area, record, &mut [0; ANSWER_BYTES]));
    (answer, checksum(area.into_iter().map(usize::from)))
}

fn judge_first_bad(bytes: &[u8]) -> Option<Row> {
    let (line, mut area) = given_line_and_area(bytes)?;
    let place = first_bad(line, &area);
    Some((place, u64::from(operate(line, &mut area, &EMPTY_RECORD, &mut [0; ANSWER_BYTES]))))
}

/// The area's length in two bytes, then the row of a configuration in memory; bytes missing at the end are 0.
fn judge_write(bytes: &[u8], in_memory: fn(&[u8]) -> Option<Memory>) -> Option<Row> {
    let byte = |place: usize| bytes.get(place).copied().unwrap_or(0);
    let memory = in_memory(bytes.get(LENGTH_BYTES..).unwrap_or_default())?;
    let mut area = vec![OLD_BYTE; two(byte(0), byte(1)).min(LONGEST_AREA)];
    let answer = coded(write(&memory, &mut area));
    Some((answer, checksum(area.into_iter().map(usize::from))))
}

fn judge_record(record: &[u8]) -> Row {
    operation::read(record).map_or((10, 0), |operation| (0, checksum(fields(&operation).into_iter())))
}

/// One of the eight places of an operation: an object, then a value number or a destination, a form, sixteen bytes.
type Part = (usize, usize, usize, Contents);

/// An operation as its fields: code, who acts, partition, count; then by columns its parts, with zeros behind the last.
fn fields(operation: &Operation) -> Vec<usize> {
    let mut parts = parts(operation);
    let actor = operation.actor().map_or(0, |actor| actor.number());
    let mut all = vec![operation.code(), actor, operation.partition().unwrap_or(0), parts.len()];
    parts.resize(MAX_COUNT, (0, 0, 0, CLEARED));
    all.extend(parts.iter().map(|part| part.0));
    all.extend(parts.iter().map(|part| part.1));
    all.extend(parts.iter().map(|part| part.2));
    all.extend(parts.iter().flat_map(|part| part.3).map(usize::from));
    all
}

fn parts(operation: &Operation) -> Vec<Part> {
    match operation {
        Operation::Write { items, .. } => items
            .iter()
            .map(|item| match item.put {
                Put::Value(value) => (item.object, value, 0, CLEARED),
                Put::Raw(contents) => (item.object, 0, 1, contents),
            })
            .collect(),
        Operation::Read { pairs, .. } => pairs.iter().map(|pair| (pair.source, pair.destination, 0, CLEARED)).collect(),
        _ => operation.targets().into_iter().map(|object| (object, 0, 0, CLEARED)).collect(),
    }
}

fn checksum(numbers: impl Iterator<Item = usize>) -> u64 {
    numbers.fold(0, |sum, number| (sum * 31 + number as u64) % 65_521)
}
