//! The block decoder of readings, with types for code and rate.
//!
//! A reading is how surely a coded bit was received: above 0 for a 0, below 0 for a 1. Readings stand in the order
//! of the coded bits. Those that are missing at the end count as 0.0; those beyond the coded length are not looked
//! at.

use crate::encoder::{Code, Rate, room_for};
use crate::refusal::{Refusal, score};
use crate::{doors, slices};

/// The word that readings fit best, and how well it does.
#[derive(Debug, Clone, PartialEq)]
pub struct Word {
    /// The info bits, a byte 0 or 1 each.
    pub bits: Vec<u8>,
    /// The winning score: the readings where the word's coded bits are 0, less those where they are 1.
    pub score: f32,
}

/// How many bytes of scratch the decoding of `info` bits needs: a survivor for each state at each step. A count so huge
/// that the number does not fit gives the largest there is; no decoding takes it.
///
/// ```
/// use relay_coder::{Code, scratch_len};
///
/// assert_eq!(scratch_len(Code::K5, 3), (3 + 4) * 16);
/// assert_eq!(scratch_len(Code::DvbK7, usize::MAX), usize::MAX);
/// ```
pub fn scratch_len(code: Code, info: usize) -> usize {
    let tail = match code {
        Code::K5 => 4,
        Code::DvbK7 | Code::En300744 => 6,
    };
    info.saturating_add(tail).saturating_mul(1 << tail)
}

/// The word of `info` bits that the readings fit best; of equal ones always the same.
///
/// ```
/// use relay_coder::{Code, Rate, decode};
///
/// let word = decode(Code::K5, Rate::R1_2, 1, &[-1.0]).unwrap();
/// assert_eq!((word.bits, word.score), (vec![1], 1.0));
///
/// let refusal = decode(Code::K5, Rate::R1_2, 1, &[0.5, f32::NAN]).unwrap_err();
/// assert_eq!(refusal.to_string(), "refused 6 at 1");
/// ```
pub fn decode(code: Code, rate: Rate, info: usize, readings: &[f32]) -> Result<Word, Refusal> {
    let (bits, score) = with_buffers(code, info, |out, scratch| {
        decode_into(code, rate, info, readings, out, scratch)
    })?;
    Ok(Word { bits, score })
}

/// The same with buffers of the caller's own. Writes the word to the first `info` bytes of `out` and the survivors
/// to the first [`scratch_len`] bytes of `scratch`, and gives the score; what lies beyond stays, and after a refusal
/// every byte does. Neither buffer has to be cleared.
///
/// ```
/// use relay_coder::{Code, Rate, decode_into, scratch_len};
///
/// let mut out = [7; 2];
/// let mut scratch = vec![0; scratch_len(Code::K5, 1)];
/// let score = decode_into(Code::K5, Rate::R1_2, 1, &[-1.0, 1.0], &mut out, &mut scratch);
/// assert_eq!((out, score), ([0, 7], Ok(0.0)));
/// ```
pub fn decode_into(
    code: Code,
    rate: Rate,
    info: usize,
    readings: &[f32],
    out: &mut [u8],
    scratch: &mut [u8],
) -> Result<f32, Refusal> {
    let readings = slices::bytes_of(readings);
    score(doors::decode(code as u8, rate as u8, info, readings, out, scratch))
}

/// Lends new buffers, just long enough for `info` bits, to a decoding: the bits that it writes, and what it gives.
pub(crate) fn with_buffers<S>(
    code: Code,
    info: usize,
    decoding: impl FnOnce(&mut [u8], &mut [u8]) -> Result<S, Refusal>,
) -> Result<(Vec<u8>, S), Refusal> {
    let room = room_for(info);
    let mut bits = vec![0; room];
    let score = decoding(&mut bits, &mut vec![0; scratch_len(code, room)])?;
    Ok((bits, score))
}
