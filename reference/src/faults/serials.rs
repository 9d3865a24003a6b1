//! What goes wrong with editions, serials and large numbers (request N7): judges that sessions notice, and loaders that
//! take a file for another. What only the writer shows stands in `WRITERS`.

use super::answers::plain;
use super::{ALL_CODES, Fault, NONE};
use crate::config::{Config, RULES, Rules, field};
use crate::generate::names::names;
use crate::limits::{FIRST_EDITION, LAST_EDITION, MAX_NUMBER, MAX_NUMBER_BEFORE, MAX_SERIAL, SERIALS_FROM};
use crate::memory::Memory;
use crate::operation::{Actor, Operation};
use crate::questions::{Case, Question};
use crate::varint::{Fault as Unread, Reader};

/// A number of a record that is taken for another, or for none: it passes 10 and is stopped by 11.
const fn of_records(name: &'static str) -> Fault {
    Fault { name, codes: ALL_CODES, touches: &[11], ..NONE }
}

/// A question that is put otherwise where devices have serials.
const fn asking(number: u8, name: &'static str, codes: &'static [usize], question: Question) -> Fault {
    Fault { name, codes, touches: &[0, 21, 22, 23], asked: &[0], instead: Some((number, question)), ..NONE }
}

/// A question that is not put over lines of edition 2.
const fn passing(name: &'static str, codes: &'static [usize], touches: &'static [u8], asked: (u8, Question)) -> Fault {
    Fault { name, codes, touches, instead: Some(asked), ..NONE }
}

/// Faults that sessions notice.
pub const SERIALS: [Fault; 9] = [
    Fault { most_number: MAX_NUMBER_BEFORE, ..of_records("records' numbers up to 65,535") },
    Fault { most_number: MAX_NUMBER - 1, ..of_records("records' numbers up to 2,097,150") },
    Fault { named: in_two_bytes, ..of_records("records' numbers cut to 16 bits") },
    asking(23, "a serial is taken for a lock", &[8, 14, 15], |case| plain(23, case) && serial(case) == 0),
    asking(23, "no device without a serial comes in", &[8], |case| plain(23, case) && !is_bare(case)),
    passing("18 not put in edition 2", &[2, 4], &[18], (18, |case| has_serials(case) || plain(18, case))),
    passing("19 not put in edition 2", &[1, 3], &[19], (19, |case| has_serials(case) || plain(19, case))),
    passing("20 not put in edition 2", &[10, 11, 12], &[20], (20, |case| has_serials(case) || plain(20, case))),
    passing("21 not put in edition 2", &[8], &[21], (21, |case| has_serials(case) || plain(21, case))),
];

fn has_serials(case: &Case) -> bool {
    case.config.edition >= SERIALS_FROM
}

/// The serial of the device that comes in, is locked or is unlocked; 0 for other operations.
fn serial(case: &Case) -> usize {
    match (case.operation.code(), case.operation.actor()) {
        (8 | 14 | 15, Some(Actor::Device(device))) => case.config.serials[device - 1],
        _ => 0,
    }
}

/// Whether a device comes in that has no serial, over a line with serials.
fn is_bare(case: &Case) -> bool {
    case.operation.code() == 8 && has_serials(case) && serial(case) == 0
}

/// The upper bytes of every number that a record names are lost.
fn in_two_bytes(mut operation: Operation) -> Operation {
    names(&mut operation).into_iter().for_each(|(_, number)| *number %= MAX_NUMBER_BEFORE + 1);
    operation
}

/// What a device's numbers are taken for.
type Pair = Result<(usize, usize), u8>;

/// Loaders that read files in another way, by what each does.
pub const READERS: [(&str, Rules); 12] = [
    ("files' numbers up to 65,535", Rules { most_number: MAX_NUMBER_BEFORE, ..RULES }),
    ("files' numbers up to 2,097,150", Rules { most_number: MAX_NUMBER - 1, ..RULES }),
    ("edition 2 is none", Rules { last_edition: FIRST_EDITION, ..RULES }),
    ("edition 3 is one", Rules { last_edition: LAST_EDITION + 1, ..RULES }),
    ("no serial for the last device", Rules { device: all_but_last, ..RULES }),
    ("no serial for the first device", Rules { device: all_but_first, ..RULES }),
    ("no serials in edition 2", Rules { device: without_serial, ..RULES }),
    ("serials in edition 1 too", Rules { device: in_every_edition, ..RULES }),
    ("the serial before the value number", Rules { device: serial_first, ..RULES }),
    ("serials up to 65,535", Rules { device: small_serial, ..RULES }),
    ("serial 0 is none", Rules { device: some_serial, ..RULES }),
    ("a serial of four bytes is out of range", Rules { device: long_serial, ..RULES }),
];

fn without_serial(reader: &mut Reader, _: &Config, _: usize, values: usize) -> Pair {
    Ok((field(reader, 0..=values)?, 0))
}

/// The devices' numbers as they are, for all devices but one.
fn all_but(left_out: usize, reader: &mut Reader, config: &Config, devices: usize, values: usize) -> Pair {
    let rules = if config.devices() + 1 == left_out { without_serial } else { RULES.device };
    rules(reader, config, devices, values)
}

fn all_but_last(reader: &mut Reader, config: &Config, devices: usize, values: usize) -> Pair {
    all_but(devices, reader, config, devices, values)
}

fn all_but_first(reader: &mut Reader, config: &Config, devices: usize, values: usize) -> Pair {
    all_but(1, reader, config, devices, values)
}

fn in_every_edition(reader: &mut Reader, _: &Config, _: usize, values: usize) -> Pair {
    Ok((field(reader, 0..=values)?, field(reader, 0..=MAX_SERIAL)?))
}

fn serial_first(reader: &mut Reader, config: &Config, _: usize, values: usize) -> Pair {
    let serial = if config.edition >= SERIALS_FROM { field(reader, 0..=MAX_SERIAL)? } else { 0 };
    Ok((field(reader, 0..=values)?, serial))
}

/// The devices' numbers as they are, with a question about the serial.
fn asked(fits: fn(usize) -> bool, reader: &mut Reader, config: &Config, values: usize) -> Pair {
    let (value, serial) = (RULES.device)(reader, config, 0, values)?;
    if config.edition < SERIALS_FROM || fits(serial) { Ok((value, serial)) } else { Err(3) }
}

fn small_serial(reader: &mut Reader, config: &Config, _: usize, values: usize) -> Pair {
    asked(|serial| serial <= MAX_NUMBER_BEFORE, reader, config, values)
}

fn some_serial(reader: &mut Reader, config: &Config, _: usize, values: usize) -> Pair {
    asked(|serial| serial != 0, reader, config, values)
}

/// A serial whose form is bad is refused by 3.
fn long_serial(reader: &mut Reader, config: &Config, _: usize, values: usize) -> Pair {
    let value = field(reader, 0..=values)?;
    if config.edition < SERIALS_FROM {
        return Ok((value, 0));
    }
    let serial = reader.number().map_err(|fault| if fault == Unread::Cut { 1 } else { 3 })?;
    Ok((value, serial))
}

/// What a faulty writer takes a configuration in memory for.
pub type Taken = fn(&Memory) -> Memory;

/// Writers that go wrong with editions and serials, by what each does. No session shows any of these.
pub const WRITERS: [(&str, Taken); 9] = [
    ("serials cut to 16 bits", |memory| with_serials(memory, |serial| serial % (1 << 16))),
    ("serials cut to 21 bits", |memory| with_serials(memory, |serial| serial % (MAX_SERIAL as u32 + 1))),
    ("serials cut to 24 bits", |memory| with_serials(memory, |serial| serial % (1 << 24))),
    ("the first edition written as the last", |memory| in_edition(memory, |_| LAST_EDITION)),
    ("edition 2 written as edition 1", |memory| {
        with_serials(
            &in_edition(memory, |edition| if edition == LAST_EDITION { FIRST_EDITION } else { edition }),
            |_| 0,
        )
    }),
    ("serials of edition 1 dropped", |memory| {
        if usize::from(memory.edition) < SERIALS_FROM { with_serials(memory, |_| 0) } else { memory.clone() }
    }),
    ("edition 3 written as edition 2", |memory| in_edition(memory, |edition| edition.min(LAST_EDITION))),
    ("serials of the devices before", |memory| {
        let mut other = memory.clone();
        other.serials.rotate_right(1);
        other
    }),
    ("serials of absent devices asked for", |memory| {
        let most = if usize::from(memory.edition) < SERIALS_FROM { 0 } else { MAX_SERIAL };
        let fit = memory.serials.iter().all(|serial| *serial as usize <= most);
        if fit { memory.clone() } else { in_edition(memory, |_| 0) }
    }),
];

fn with_serials(memory: &Memory, change: fn(u32) -> u32) -> Memory {
    Memory { serials: memory.serials.map(change), ..memory.clone() }
}

fn in_edition(memory: &Memory, change: impl Fn(usize) -> usize) -> Memory {
    Memory { edition: change(usize::from(memory.edition)) as u8, ..memory.clone() }
}
