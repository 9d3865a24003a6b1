//! Varints (document 01: the numbers of the line file): groups of seven bits, lowest first, 128 added to all bytes but
//! the last; and a reader that walks over a row of them.

use crate::limits::{MAX_NUMBER, MAX_NUMBER_BYTES};

/// Why a number cannot be read.
#[derive(Clone, Copy, Debug, PartialEq, Eq)]
pub enum Fault {
    /// Its last byte is missing (question 1), however long it is.
    Cut,
    /// More than three bytes, not the shortest form, or too large (question 2).
    Form,
}

/// A place in a row of bytes, and the largest number that question 2 passes.
#[derive(Clone, Debug)]
pub struct Reader<'a> {
    bytes: &'a [u8],
    place: usize,
    most: usize,
}

impl<'a> Reader<'a> {
    pub fn new(bytes: &'a [u8]) -> Self {
        Reader::up_to(MAX_NUMBER, bytes)
    }

    /// A reader with another limit than the papers', for what was read before, and for faults.
    pub fn up_to(most: usize, bytes: &'a [u8]) -> Self {
        Reader { bytes, place: 0, most }
    }

    pub fn at_end(&self) -> bool {
        self.place == self.bytes.len()
    }

    /// The number that begins here.
    pub fn number(&mut self) -> Result<usize, Fault> {
        let rest = &self.bytes[self.place..];
        let last = rest.iter().position(|byte| *byte < 128).ok_or(Fault::Cut)?;
        if last >= MAX_NUMBER_BYTES || (last > 0 && rest[last] == 0) {
            return Err(Fault::Form);
        }
        let value = rest[..=last].iter().rev().fold(0, |sum, byte| sum * 128 + usize::from(byte & 127));
        // Three groups hold no more than the papers' limit, so that only a lower one can be exceeded.
        if value > self.most {
            return Err(Fault::Form);
        }
        self.place += last + 1;
        Ok(value)
    }

    /// The next `count` bytes as they stand, if there are so many.
    pub fn raw(&mut self, count: usize) -> Option<&'a [u8]> {
        let bytes = self.bytes.get(self.place..)?.get(..count)?;
        self.place += count;
        Some(bytes)
    }
}

/// Puts a number down in its shortest form.
pub fn write(mut value: usize, out: &mut Vec<u8>) {
    while value >= 128 {
        out.push((value % 128) as u8 | 128);
        value /= 128;
    }
    out.push(value as u8);
}

#[cfg(test)]
mod tests {
    use super::*;
    use crate::limits::MAX_NUMBER_BEFORE;

    fn read(bytes: &[u8]) -> Result<usize, Fault> {
        Reader::new(bytes).number()
    }

    #[test]
    fn numbers_of_each_length() {
        for value in [0, 1, 127, 128, 300, 16_383, 16_384, 65_535, 65_536, 70_000, 2_097_151] {
            let mut bytes = Vec::new();
            write(value, &mut bytes);
            assert_eq!(read(&bytes), Ok(value));
        }
    }

    #[test]
    fn every_number_is_written_in_its_shortest_form() {
        for value in 0..=MAX_NUMBER {
            let mut bytes = Vec::new();
            write(value, &mut bytes);
            let shortest = (1..=MAX_NUMBER_BYTES).find(|length| value < 1 << (7 * length));
            assert_eq!((read(&bytes), Some(bytes.len())), (Ok(value), shortest));
        }
    }

    #[test]
    fn three_full_groups_are_the_limit() {
        assert_eq!(MAX_NUMBER, (1 << (7 * MAX_NUMBER_BYTES)) - 1);
        assert_eq!(read(&[255, 255, 127]), Ok(MAX_NUMBER));
        assert_eq!(read(&[128, 128, 4]), Ok(65_536));
        assert_eq!(read(&[240, 162, 4]), Ok(70_000));
        assert_eq!(read(&[128, 128, 128, 1]), Err(Fault::Form));
    }

    /// What was read with the limit of before is read the same, and what was refused for its size is above it.
    #[test]
    fn numbers_of_before_are_read_as_before() {
        for value in 0..=MAX_NUMBER {
            let mut bytes = Vec::new();
            write(value, &mut bytes);
            let before = Reader::up_to(MAX_NUMBER_BEFORE, &bytes).number();
            assert_eq!(before, if value <= MAX_NUMBER_BEFORE { Ok(value) } else { Err(Fault::Form) });
        }
    }

    #[test]
    fn no_last_byte_is_cut_however_long() {
        assert_eq!(read(&[]), Err(Fault::Cut));
        assert_eq!(read(&[128]), Err(Fault::Cut));
        assert_eq!(read(&[255; 9]), Err(Fault::Cut));
    }

    #[test]
    fn forms_that_are_refused() {
        assert_eq!(read(&[128, 0]), Err(Fault::Form));
        assert_eq!(read(&[129, 128, 0]), Err(Fault::Form));
        assert_eq!(read(&[255, 255, 0]), Err(Fault::Form));
        assert_eq!(read(&[129, 128, 128, 1]), Err(Fault::Form));
        assert_eq!(read(&[255, 255, 255, 127]), Err(Fault::Form));
        assert_eq!(read(&[128, 128, 128, 0]), Err(Fault::Form));
    }

    #[test]
    fn raw_bytes_are_taken_whole_or_not_at_all() {
        let mut reader = Reader::new(&[1, 2, 3]);
        assert_eq!(reader.raw(4), None);
        assert_eq!(reader.raw(3), Some(&[1, 2, 3][..]));
        assert!(reader.at_end());
        assert_eq!(reader.raw(0), Some(&[][..]));
    }
}
