//! The number of a refused call, with what it means.

use core::error::Error;
use core::fmt::{self, Display, Formatter};

/// What it means that question 1, 2, .. is answered with no.
// begin texts: made by tests/tables from tables/questions.ini
const TEXTS: [&str; 23] = [
    "line file: a number's last byte is missing",
    "line file: a number has more than three bytes, or is not in the shortest form",
    "line file: a number is out of its field's range",
    "line file: bytes are left over",
    "line file: a card has not exactly one kind 4 object, or a kind 4 object has no card as owner",
    "line file: a hard-wired value names an object that is not its card's, or one of kind 4",
    "the state area has another length than the line needs: 1,744 or, over 96 objects, 3,376 bytes",
    "the answer area has fewer than 128 bytes",
    "the state is not well formed for this line file",
    "the record cannot be read to its last byte",
    "a driver, card, object or value that is named does not exist, or a partition is not 1 to 63",
    "a target, destination or listed object is named twice",
    "kinds do not fit",
    "the partition was used before, or does not exist",
    "something is in the partition that is to be destroyed",
    "what is brought in, locked or unlocked is active, or what acts or leaves is not",
    "an object is not in the driver's partition, or not in the one named",
    "a card's transfer is not described by what it reads now",
    "a chain of descriptor writes would lead a card out of its partition",
    "an active card can reach an object that would leave, or a descriptor that stays in its green zone names it",
    "with this card brought in, a chain of descriptor writes would lead a card out of its partition",
    "a value stored in a green zone names what it may not, or a card's hard-wired value writes a descriptor there",
    "the card to be brought in or locked is locked, or the one to be unlocked is not",
];
// end texts

/// What is told of a number that a later version of the library has and this package has not.
const UNKNOWN: &str = "a question that this package does not know; the library is of a later version";

/// The first question that was answered with no. A refused call changed nothing.
#[derive(Clone, Copy, Debug, PartialEq, Eq, PartialOrd, Ord, Hash)]
pub struct Refusal(u32);

impl Refusal {
    /// How many questions this package knows.
    pub const QUESTIONS: u32 = TEXTS.len() as u32;

    /// What stands for an answer of a kind that this package does not know.
    pub(crate) const UNKNOWN: Refusal = Refusal(u32::MAX);

    /// The refusal with a question's number, as a log or another program tells it; 0 is none. A number above
    /// `QUESTIONS` is one of a later version.
    pub const fn new(number: u32) -> Option<Refusal> {
        if number == 0 { None } else { Some(Refusal(number)) }
    }

    /// The question's number, from 1 on.
    pub const fn number(self) -> u32 {
        self.0
    }

    /// Whether this package knows the question.
    pub const fn is_known(self) -> bool {
        self.0 <= Refusal::QUESTIONS
    }

    /// What it means, in one line.
    pub const fn text(self) -> &'static str {
        if self.is_known() { TEXTS[self.0 as usize - 1] } else { UNKNOWN }
    }

    /// The result of a call that answered this number: every number but 0 is a refusal, also one that is not known.
    pub(crate) const fn check(number: u32) -> Result<(), Refusal> {
        match Refusal::new(number) {
            None => Ok(()),
            Some(refusal) => Err(refusal),
        }
    }
}

impl Display for Refusal {
    fn fmt(&self, f: &mut Formatter<'_>) -> fmt::Result {
        write!(f, "refused by question {}: {}", self.number(), self.text())
    }
}

impl Error for Refusal {}

#[cfg(test)]
mod tests {
    use super::{Refusal, TEXTS, UNKNOWN};

    #[test]
    fn a_number_of_a_later_version_is_a_refusal() {
        for number in [Refusal::QUESTIONS + 1, u32::from(u8::MAX) + 1, u32::MAX] {
            let refusal = Refusal::check(number).expect_err("only 0 is accepted");
            assert_eq!((refusal.number(), refusal.text(), refusal.is_known()), (number, UNKNOWN, false));
        }
        assert_eq!(Refusal::check(0), Ok(()));
        assert_eq!(Refusal::check(23).map_err(Refusal::text), Err(TEXTS[22]));
    }
}
