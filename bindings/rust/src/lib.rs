//! Safe calls of the sorter gate.
//!
//! The gate judges operations that move devices, drivers and objects between partitions. It is a proved library,
//! `libgate.a`; this package lends it slices and turns its numbers into results. It keeps nothing between calls, uses
//! no heap, and answers every input of any length and content.
//!
//! ```
//! use sorter_gate::{ANSWER_BYTES, STATE_BYTES_WIDE, fresh, operate, state_bytes};
//!
//! // A line with one driver and nothing else: edition 1, one driver, no card, object or value.
//! let line = [1, 1, 0, 0, 0];
//! let (mut room, mut answer) = ([0; STATE_BYTES_WIDE], [0; ANSWER_BYTES]);
//! // The area of this line is a part of the longest that a line can need.
//! let state = &mut room[..state_bytes(&line)?];
//! fresh(&line, state)?;
//! operate(&line, state, &[5, 1], &mut answer)?;
//! let refusal = operate(&line, state, &[5, 1], &mut answer).unwrap_err();
//! assert_eq!(refusal.number(), 14);
//! # Ok::<(), sorter_gate::Refusal>(())
//! ```
#![no_std]
#![warn(missing_docs)]

pub mod code;
mod refusal;
mod rewriting;

pub use refusal::Refusal;
pub use rewriting::RewriteError;

// begin sizes: made by tests/tables from tables/numbers.ini
/// The length of the state area of a line of at most 96 objects.
pub const STATE_BYTES: usize = 1744;

/// The length of the state area of a line of more objects, at most 192; no area is longer.
pub const STATE_BYTES_WIDE: usize = 3376;

/// The lock bytes, a card's each, with which a state area of either length ends.
pub const LOCK_BYTES: usize = 16;

/// The least length of an answer area.
pub const ANSWER_BYTES: usize = 128;

/// The length of the longest line file that can be accepted; refuse a longer one before you call.
pub const LONGEST_LINE: usize = 1821;

/// The length of the longest record that can be accepted, or pass question 11; refuse a longer one before you call.
pub const LONGEST_RECORD: usize = 155;
// end sizes

/// The version of this package and of the library that it is made for.
pub const VERSION: &str = env!("CARGO_PKG_VERSION");

unsafe extern "C" {
    fn gate_load_check(line: *const u8, line_len: usize) -> u32;
    fn gate_state_bytes(line: *const u8, line_len: usize) -> u64;
    fn gate_fresh(line: *const u8, line_len: usize, state: *mut u8, state_len: usize) -> u32;
    fn gate_operate(
        line: *const u8,
        line_len: usize,
        state: *mut u8,
        state_len: usize,
        record: *const u8,
        record_len: usize,
        answer: *mut u8,
        answer_len: usize,
    ) -> u32;
    fn gate_first_bad(line: *const u8, line_len: usize, state: *const u8, state_len: usize) -> u64;
    fn gate_rewrite(line: *const u8, line_len: usize, out: *mut u8, out_len: usize) -> u64;
}

/// Puts questions 1 to 6 to a line file. One of edition 2 has a serial for each card, which is put questions 1 to 3
/// like any number of it; beyond that no answer and no state depends on edition or serials.
pub fn load_check(line: &[u8]) -> Result<(), Refusal> {
    // SAFETY: the pointer comes from a slice: it is valid for the slice's length, and not null even if that is 0. The
    // library only reads it.
    let number = unsafe { gate_load_check(line.as_ptr(), line.len()) };
    Refusal::check(number)
}

/// Tells how long the state area of a line has to be: `STATE_BYTES` or `STATE_BYTES_WIDE`, by the count of its objects
/// alone. A line file is refused by questions 1 to 6.
///
/// An answer of a kind that this package does not know, as a later version of the library may have, is a `Refusal` too,
/// with the number `u32::MAX`.
///
/// ```
/// use sorter_gate::{STATE_BYTES, STATE_BYTES_WIDE, state_bytes};
///
/// // 96 external objects, and one more.
/// let line = |objects: u8| [&[1, 0, 0, objects, 0], &[3, 0, 0].repeat(objects.into())[..]].concat();
/// assert_eq!(state_bytes(&line(96)), Ok(STATE_BYTES));
/// assert_eq!(state_bytes(&line(97)), Ok(STATE_BYTES_WIDE));
/// ```
pub fn state_bytes(line: &[u8]) -> Result<usize, Refusal> {
    // SAFETY: as in `load_check`.
    let answer = unsafe { gate_state_bytes(line.as_ptr(), line.len()) };
    rewriting::number_told(answer)
}

/// Makes the fresh state of a line: questions 1 to 6, then 7, whether `state` has just the length that `state_bytes`
/// tells. If it is refused, `state` is as it was; otherwise all of it is the fresh state, whatever it held.
pub fn fresh(line: &[u8], state: &mut [u8]) -> Result<(), Refusal> {
    // SAFETY: both pointers come from slices: each is valid for its length, and not null even if that is 0. `state` is
    // borrowed mutably, so that it overlaps nothing and nobody else touches it during the call.
    let number = unsafe { gate_fresh(line.as_ptr(), line.len(), state.as_mut_ptr(), state.len()) };
    Refusal::check(number)
}

/// Judges one operation record by all questions and, if it is accepted, carries it out. `state` has the length that
/// `state_bytes` tells, as for `fresh`. A read (codes 3 and 4) has then put sixteen bytes for each source at the start
/// of `answer`; the rest of `answer` is as it was. If the record is refused, both areas are as they were.
///
/// A record longer than `LONGEST_RECORD` is refused by 11 or an earlier question. What cards write into transfer
/// descriptors is to be told, by `code::CARD_WRITE` or `code::CARD_READ`, before the next call; docs/CONTROLLER.md,
/// 'What the host owes', says how, and what is done on the machine where a record is accepted.
///
/// An empty record is always refused, and never for what it asks: `Refusal` 10 says that the line file and both areas
/// are in order, a smaller number what is wrong with them.
pub fn operate(line: &[u8], state: &mut [u8], record: &[u8], answer: &mut [u8]) -> Result<(), Refusal> {
    // SAFETY: as in `fresh`, for four slices; `state` and `answer` are borrowed mutably, so that no two areas overlap
    // that are written.
    let number = unsafe {
        gate_operate(
            line.as_ptr(),
            line.len(),
            state.as_mut_ptr(),
            state.len(),
            record.as_ptr(),
            record.len(),
            answer.as_mut_ptr(),
            answer.len(),
        )
    };
    Refusal::check(number)
}

/// Names the first object whose record in a state area breaks a rule of question 9, for whoever looks at a damaged one.
/// Objects count from 1 on; one that the line does not have is named too, if its record is not 0. Line file and length
/// of the area are refused by questions 1 to 7. Nothing is changed.
///
/// `None` is that no record breaks a rule, and not that the state is well formed: where `operate` is refused by 9 all
/// the same, the fault is in the bytes of partitions, drivers, cards or locks. An answer of a kind that this package
/// does not know is a `Refusal`, as of `state_bytes`.
///
/// ```
/// use sorter_gate::{ANSWER_BYTES, STATE_BYTES, first_bad, fresh, operate};
///
/// // A line with two objects, both external data.
/// let line = [1, 0, 0, 2, 0, 3, 0, 0, 3, 0, 0];
/// let (mut state, mut answer) = ([0; STATE_BYTES], [0; ANSWER_BYTES]);
/// fresh(&line, &mut state)?;
/// assert_eq!(first_bad(&line, &state)?, None);
/// // The partition of object 2 stands behind 64 + 16 + 16 bytes and the 17 of object 1. Nobody created partition 5.
/// state[64 + 16 + 16 + 17] = 5;
/// assert_eq!(first_bad(&line, &state)?, Some(2));
/// assert_eq!(operate(&line, &mut state, &[], &mut answer).unwrap_err().number(), 9);
/// # Ok::<(), sorter_gate::Refusal>(())
/// ```
pub fn first_bad(line: &[u8], state: &[u8]) -> Result<Option<usize>, Refusal> {
    // SAFETY: as in `load_check`, for two slices: the library reads both, and writes neither.
    let answer = unsafe { gate_first_bad(line.as_ptr(), line.len(), state.as_ptr(), state.len()) };
    rewriting::number_told(answer).map(|place| (place > 0).then_some(place))
}

/// Loads a line file and writes the line that was loaded into `out`, in its own edition and with the cards' serials; an
/// accepted file comes out byte for byte. Returns its length: so many bytes at the start of `out` are the file, and the
/// rest of `out` is as it was. If the file is refused or `out` is too short, `out` is as it was. An empty `out` asks
/// for the length.
///
/// ```
/// use sorter_gate::{LONGEST_LINE, RewriteError, rewrite};
///
/// // A line with one driver and nothing else.
/// let line = [1, 1, 0, 0, 0];
/// assert_eq!(rewrite(&line, &mut []), Err(RewriteError::Short(5)));
/// let mut out = [0; LONGEST_LINE];
/// let length = rewrite(&line, &mut out)?;
/// assert_eq!(out[..length], line);
/// # Ok::<(), RewriteError>(())
/// ```
pub fn rewrite(line: &[u8], out: &mut [u8]) -> Result<usize, RewriteError> {
    // SAFETY: as in `fresh`; `out` is borrowed mutably, so that it does not overlap the line.
    let answer = unsafe { gate_rewrite(line.as_ptr(), line.len(), out.as_mut_ptr(), out.len()) };
    RewriteError::check(answer)
}
