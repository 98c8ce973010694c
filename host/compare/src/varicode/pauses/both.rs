//! The two readers on the same bits: a text that was written without an opening has no zero that is skipped, so they
//! answer alike, bit by bit.

use super::super::joined::{READER_FIELDS, answered_lines, text, written};
use crate::answers::answered;
use crate::groups::Outcome;
use expected::Random;
use list::line::Line;
use list::varicode::{ReaderLine, WriterLine};

const TEXTS: usize = 60;

/// So many texts go through the program at once.
const AT_ONCE: usize = 20;

pub fn outcome(random: &mut Random) -> Outcome {
    for turn in 0..TEXTS / AT_ONCE {
        let texts: Vec<Vec<u8>> = (0..AT_ONCE).map(|at| text(turn * AT_ONCE + at, random)).collect();
        let bits = written(&texts, |_| WriterLine::new(), random)?;
        let [old, for_pauses] = [ReaderLine::new, ReaderLine::for_pauses]
            .map(|new| answered_lines(bits.iter().map(|bits| taken_at_each(new(), bits)).collect()));
        for ((line, old), (_, for_pauses)) in old?.into_iter().zip(for_pauses?) {
            alike(line.call, &old, &for_pauses)?;
        }
    }
    Ok(TEXTS as u64)
}

/// A taking-out after each bit.
fn taken_at_each(line: ReaderLine, bits: &[u8]) -> Line {
    bits.iter().fold(line, |line, bit| line.put(*bit).take(1)).line()
}

/// Whether two readers' answers are the same, and their records after them but for the first field, which says of which
/// reader they are.
fn alike(call: String, old: &str, for_pauses: &str) -> Result<(), String> {
    let mut fields: Vec<&str> = old.split(' ').collect();
    let kind = fields.len() - READER_FIELDS;
    fields[kind] = "1";
    let answer = fields.join(" ");
    answered(&Line { call, answer }, for_pauses)
}

#[cfg(test)]
mod tests {
    use super::*;

    fn told(digits: &str) -> Result<(), String> {
        let bits: Vec<u8> = digits.bytes().map(|digit| digit - b'0').collect();
        let [old, for_pauses] = [ReaderLine::new, ReaderLine::for_pauses].map(|new| taken_at_each(new(), &bits));
        alike(old.call, &old.answer, &for_pauses.answer)
    }

    #[test]
    fn bits_that_the_two_read_alike_and_bits_that_they_do_not() {
        for digits in ["", "1", "1100", "110011001", "1100110", "11111111111100"] {
            assert_eq!(told(digits), Ok(()), "{digits}");
        }
        // A character that one does not bring, one that comes later, and a record that has heard a zero.
        for digits in ["01100", "110001100", "11000"] {
            assert!(told(digits).is_err(), "{digits}");
        }
    }
}
