//! The programs: what the office program prints for a configuration file and a session, and what the program that
//! rewrites a configuration file (request N1) prints and writes.

use crate::config::load;
use crate::gate::{fresh, operate, rewritten};
use crate::limits::{ANSWER_BYTES, LINE_LIMIT, SESSION_LIMIT};
use crate::varint::Reader;
use crate::writer::Written;

/// The whole output, byte for byte. A slice longer than its limit counts as a file that is too long.
pub fn report(line: &[u8], session: &[u8]) -> Vec<u8> {
    if line.len() > LINE_LIMIT || session.len() > SESSION_LIMIT {
        return b"long\n".to_vec();
    }
    // The length that the configuration needs; a refused one needs none, and is refused by its own number.
    let mut state = vec![0; load(line).map_or(0, |config| config.state_bytes())];
    match fresh(line, &mut state) {
        0 => rows(line, session, &mut state).into_bytes(),
        number => format!("line {number}\n").into_bytes(),
    }
}

/// A row for each record; the answer area is zeros before the first and carried on after it.
fn rows(line: &[u8], session: &[u8], state: &mut [u8]) -> String {
    let mut answer = [0; ANSWER_BYTES];
    let mut reader = Reader::new(session);
    let mut out = String::new();
    let mut place = 0;
    while !reader.at_end() {
        let Some(record) = next_record(&mut reader) else {
            return out + "cut\n";
        };
        place += 1;
        out += &format!("{place} {}\n", operate(line, state, record, &mut answer));
    }
    out
}

/// A length, put questions 1 and 2 only, and the record behind it; nothing if it is cut.
pub fn next_record<'a>(reader: &mut Reader<'a>) -> Option<&'a [u8]> {
    let length = reader.number().ok()?;
    reader.raw(length)
}

/// The text that the rewriting program prints for `line.bin`, and the bytes of `line.out`; none where it leaves that
/// file alone. A slice longer than its limit counts as a file that is too long.
pub fn rewriting(line: &[u8]) -> (String, Option<Vec<u8>>) {
    let long = ("long\n".to_string(), None);
    if line.len() > LINE_LIMIT {
        return long;
    }
    let mut out = vec![0; LINE_LIMIT];
    match rewritten(line, &mut out) {
        Written::Length(length) => (String::new(), Some(out[..length].to_vec())),
        Written::Refused(number) => (format!("line {number}\n"), None),
        // No file that is accepted is longer than the files that the program takes.
        Written::Short(_) => long,
    }
}
