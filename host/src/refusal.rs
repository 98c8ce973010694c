//! A door's answer taken apart: a count or a score, or a refusal's number and place.

use std::error::Error;
use std::fmt;

/// Why a call was refused, by document 01's table, as amended. A refused call changed no byte that was lent to it.
#[derive(Debug, Clone, Copy, PartialEq, Eq)]
pub struct Refusal {
    /// 01's refusal number.
    pub number: u32,
    /// The index of the first bad value where the number is about values, else 0.
    pub place: u32,
}

impl fmt::Display for Refusal {
    fn fmt(&self, f: &mut fmt::Formatter<'_>) -> fmt::Result {
        write!(f, "refused {} at {}", self.number, self.place)
    }
}

impl Error for Refusal {}

/// Reads the answer of a door that counts.
pub fn count(answer: u64) -> Result<usize, Refusal> {
    accepted(answer).map(|low| low as usize)
}

/// Reads the answer of a door that gives a score by its bits.
pub fn score(answer: u64) -> Result<f32, Refusal> {
    accepted(answer).map(f32::from_bits)
}

/// Reads the answer of the door that gives a whole score by its bits in two's complement.
pub fn signed_score(answer: u64) -> Result<i32, Refusal> {
    accepted(answer).map(|low| low as i32)
}

/// The lowest 32 bits, unless a refusal's number stands above them: proved to be the door's answer again (`door_read` in
/// `crates/refusal/specs/Answer.antt`, and `proofs/Told.antt` of `crates/doors` and of `crates/radio`).
fn accepted(answer: u64) -> Result<u32, Refusal> {
    let (number, low) = ((answer >> 32) as u32, answer as u32);
    if number == 0 {
        Ok(low)
    } else {
        Err(Refusal { number, place: low })
    }
}

#[cfg(test)]
mod tests {
    use super::*;

    #[test]
    fn an_answer_below_two_to_the_32_is_a_count() {
        assert_eq!(count(0), Ok(0));
        assert_eq!(count(0xFFFF_FFFF), Ok(0xFFFF_FFFF));
    }

    #[test]
    fn an_answer_below_two_to_the_32_is_a_score() {
        assert_eq!(score(0x3F80_0000), Ok(1.0));
        assert!(score(0x8000_0000).unwrap().is_sign_negative());
        assert_eq!(score(1 << 32), Err(Refusal { number: 1, place: 0 }));
    }

    #[test]
    fn an_answer_below_two_to_the_32_is_a_whole_score() {
        assert_eq!(signed_score(0x7FFF_FFFF), Ok(i32::MAX));
        assert_eq!(signed_score(0xFFFF_FFFF), Ok(-1));
        assert_eq!(signed_score(0x8000_0000), Ok(i32::MIN));
        assert_eq!(signed_score(12 << 32 | 3), Err(Refusal { number: 12, place: 3 }));
    }

    #[test]
    fn an_answer_above_is_a_number_and_a_place() {
        let refusal = Refusal { number: 6, place: 9 };
        assert_eq!(count(6 << 32 | 9), Err(refusal));
        assert_eq!(refusal.to_string(), "refused 6 at 9");
    }
}
