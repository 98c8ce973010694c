//! The block decoder of readings that are signed bytes, with types for code and rate: whole numbers throughout, and no
//! float.
//!
//! A reading is from -127 to 127, above 0 for a coded bit 0, below 0 for a 1. Readings stand in the order of the coded
//! bits. Those that are missing at the end count as 0; those beyond the coded length are not looked at. A used one that
//! is -128 gives refusal 12.

use crate::decoder::with_buffers;
use crate::doors;
use crate::encoder::{Code, Rate};
use crate::refusal::{Refusal, signed_score};

/// The word that signed readings fit best, and how well it does.
#[derive(Debug, Clone, PartialEq, Eq)]
pub struct SignedWord {
    /// The info bits, a byte 0 or 1 each.
    pub bits: Vec<u8>,
    /// The winning score: the readings where the word's coded bits are 0, less those where they are 1.
    pub score: i32,
}

/// The word of `info` bits that the readings fit best; of equal ones always the same, which is the one that
/// [`decode`](crate::decode) gives for the same numbers.
///
/// ```
/// use relay_coder::{Code, Rate, decode_signed};
///
/// let word = decode_signed(Code::K5, Rate::R1_2, 1, &[-1]).unwrap();
/// assert_eq!((word.bits, word.score), (vec![1], 1));
///
/// let refusal = decode_signed(Code::K5, Rate::R1_2, 1, &[127, -128]).unwrap_err();
/// assert_eq!(refusal.to_string(), "refused 12 at 1");
/// ```
pub fn decode_signed(code: Code, rate: Rate, info: usize, readings: &[i8]) -> Result<SignedWord, Refusal> {
    let (bits, score) = with_buffers(code, info, |out, scratch| {
        decode_signed_into(code, rate, info, readings, out, scratch)
    })?;
    Ok(SignedWord { bits, score })
}

/// The same with buffers of the caller's own, which are as for [`decode_into`](crate::decode_into). Gives the score.
///
/// ```
/// use relay_coder::{Code, Rate, decode_signed_into, scratch_len};
///
/// let mut out = [7; 2];
/// let mut scratch = vec![0; scratch_len(Code::K5, 1)];
/// let score = decode_signed_into(Code::K5, Rate::R1_2, 1, &[-100, 100], &mut out, &mut scratch);
/// assert_eq!((out, score), ([0, 7], Ok(0)));
/// ```
pub fn decode_signed_into(
    code: Code,
    rate: Rate,
    info: usize,
    readings: &[i8],
    out: &mut [u8],
    scratch: &mut [u8],
) -> Result<i32, Refusal> {
    signed_score(doors::decode_signed(
        code as u8, rate as u8, info, readings, out, scratch,
    ))
}
