//! The answers of the calls that have a kind beside their number, and why a line was not written.

use crate::Refusal;
use core::error::Error;
use core::fmt::{self, Display, Formatter};

// What a kind counts in an answer, and the kinds.
// begin kinds: made by tests/tables from tables/kinds.ini
const KIND_UNIT: u64 = 4294967296;
const DONE: u64 = 0;
const REFUSED: u64 = 1;
const SHORT: u64 = 2;
// end kinds

/// Why a line file was not written. The area is as it was.
#[derive(Clone, Copy, Debug, PartialEq, Eq, Hash)]
pub enum RewriteError {
    /// The line file is refused, by one of questions 1 to 6.
    Refused(Refusal),
    /// The line file is accepted, and the area is too short for it: this many bytes are needed.
    Short(usize),
    /// An answer that this package does not know; the library is of a later version. This is the whole answer.
    Unknown(u64),
}

impl RewriteError {
    /// The number that an answer tells, or why there is none: every answer that is not known is an error too.
    pub(crate) const fn check(answer: u64) -> Result<usize, RewriteError> {
        let number = (answer % KIND_UNIT) as u32;
        match (answer / KIND_UNIT, Refusal::new(number)) {
            (DONE, _) => Ok(number as usize),
            (REFUSED, Some(refusal)) => Err(RewriteError::Refused(refusal)),
            (SHORT, _) => Err(RewriteError::Short(number as usize)),
            _ => Err(RewriteError::Unknown(answer)),
        }
    }
}

/// What an answer tells, the length of a state area or the place of a record, or the question that refused the call.
/// What cannot be told apart, an answer of a kind that is not known, is refused by a question that is not known either.
pub(crate) const fn number_told(answer: u64) -> Result<usize, Refusal> {
    match RewriteError::check(answer) {
        Ok(number) => Ok(number),
        Err(RewriteError::Refused(refusal)) => Err(refusal),
        Err(RewriteError::Short(_) | RewriteError::Unknown(_)) => Err(Refusal::UNKNOWN),
    }
}

impl Display for RewriteError {
    fn fmt(&self, f: &mut Formatter<'_>) -> fmt::Result {
        match self {
            RewriteError::Refused(refusal) => refusal.fmt(f),
            RewriteError::Short(length) => write!(f, "the area is too short: the line file needs {length} bytes"),
            RewriteError::Unknown(answer) => {
                write!(f, "an answer that this package does not know, {answer}; the library is of a later version")
            }
        }
    }
}

impl Error for RewriteError {}

#[cfg(test)]
mod tests {
    use super::{DONE, KIND_UNIT, REFUSED, RewriteError, SHORT, number_told};
    use crate::{Refusal, STATE_BYTES_WIDE};

    #[test]
    fn an_answer_is_taken_apart_by_its_kind() {
        let most = KIND_UNIT - 1;
        for number in [1, 45, most] {
            let refusal = Refusal::new(number as u32).expect("only 0 is no refusal");
            assert_eq!(RewriteError::check(DONE * KIND_UNIT + number), Ok(number as usize));
            assert_eq!(RewriteError::check(REFUSED * KIND_UNIT + number), Err(RewriteError::Refused(refusal)));
            assert_eq!(RewriteError::check(SHORT * KIND_UNIT + number), Err(RewriteError::Short(number as usize)));
        }
    }

    #[test]
    fn an_answer_of_a_later_version_is_an_error() {
        for answer in [REFUSED * KIND_UNIT, (SHORT + 1) * KIND_UNIT, (SHORT + 1) * KIND_UNIT + 7, u64::MAX] {
            assert_eq!(RewriteError::check(answer), Err(RewriteError::Unknown(answer)));
            assert_eq!(number_told(answer), Err(Refusal::UNKNOWN));
        }
    }

    /// Nothing is too short to be told a length or a place: that kind is `gate_rewrite`'s alone.
    #[test]
    fn a_number_is_told_or_the_call_is_refused() {
        for number in [1, 6, STATE_BYTES_WIDE as u64, KIND_UNIT - 1] {
            let refusal = Refusal::new(number as u32).expect("only 0 is no refusal");
            assert_eq!(number_told(DONE * KIND_UNIT + number), Ok(number as usize));
            assert_eq!(number_told(REFUSED * KIND_UNIT + number), Err(refusal));
            assert_eq!(number_told(SHORT * KIND_UNIT + number), Err(Refusal::UNKNOWN));
        }
    }
}
