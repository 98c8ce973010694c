//! The encoders and the coded length, with types for code and rate.
//!
//! An input bit is the lowest bit of its byte; a coded bit is a byte 0 or 1.

use crate::doors;
use crate::refusal::{Refusal, count};

/// The most info bits that one call may bring; more give refusal 3.
pub const INFO_LIMIT: usize = 16_384;

/// The convolutional codes, each with its keep patterns, by 01's numbers.
#[derive(Debug, Clone, Copy, PartialEq, Eq)]
#[repr(u8)]
pub enum Code {
    /// Tap words 10101 and 10011.
    K5 = 0,
    /// Tap words 1111001 and 1011011, those of ETSI EN 300 744, with the keep patterns of K5, which are the Rust's: only
    /// at rate 1/2 is it what the standard has.
    DvbK7 = 1,
    /// The same tap words with the keep patterns of EN 300 744, for where the other end follows the standard.
    En300744 = 2,
}

/// The five rates, by 01's numbers.
#[derive(Debug, Clone, Copy, PartialEq, Eq)]
#[repr(u8)]
pub enum Rate {
    R1_2 = 0,
    R2_3 = 1,
    R3_4 = 2,
    R5_6 = 3,
    R7_8 = 4,
}

/// How many coded bits `info` info bits give.
///
/// ```
/// use relay_coder::{Code, Rate, coded_len};
///
/// assert_eq!(coded_len(Code::DvbK7, Rate::R7_8, 10), Ok(19));
/// assert_eq!(coded_len(Code::K5, Rate::R1_2, 16_384), Ok(32_776));
/// assert_eq!(coded_len(Code::K5, Rate::R1_2, 16_385).unwrap_err().number, 3);
/// ```
pub fn coded_len(code: Code, rate: Rate, info: usize) -> Result<usize, Refusal> {
    count(doors::coded_len(code as u8, rate as u8, info))
}

/// The coded bits of `info`, with zero tail and keep pattern.
///
/// ```
/// use relay_coder::{Code, Rate, encode};
///
/// let coded = encode(Code::K5, Rate::R1_2, &[1]).unwrap();
/// assert_eq!(coded, [1, 1, 0, 0, 1, 0, 0, 1, 1, 1]);
///
/// // The two K7 codes differ in what they keep.
/// assert_eq!(encode(Code::DvbK7, Rate::R2_3, &[1]).unwrap(), [1, 1, 1, 1, 1, 1, 0, 0, 0, 1, 1]);
/// assert_eq!(encode(Code::En300744, Rate::R2_3, &[1]).unwrap(), [1, 1, 0, 1, 1, 1, 0, 0, 1, 1, 1]);
/// ```
pub fn encode(code: Code, rate: Rate, info: &[u8]) -> Result<Vec<u8>, Refusal> {
    let mut out = vec![0; coded_len(code, rate, info.len())?];
    encode_into(code, rate, info, &mut out)?;
    Ok(out)
}

/// Writes the coded bits of `info` at the start of `out` and says how many; the rest of `out` stays.
///
/// ```
/// use relay_coder::{Code, Rate, encode_into};
///
/// let mut out = [7; 12];
/// assert_eq!(encode_into(Code::K5, Rate::R1_2, &[1], &mut out), Ok(10));
/// assert_eq!(out[10..], [7, 7]);
/// ```
pub fn encode_into(code: Code, rate: Rate, info: &[u8], out: &mut [u8]) -> Result<usize, Refusal> {
    count(doors::encode(code as u8, rate as u8, info, out))
}

/// The coded bits of the plain K5 encoder at rate 1/2: two for each bit, no zero tail.
///
/// ```
/// assert_eq!(relay_coder::conv_encode(&[1, 0]).unwrap(), [1, 1, 0, 0]);
/// ```
pub fn conv_encode(bits: &[u8]) -> Result<Vec<u8>, Refusal> {
    let mut out = vec![0; 2 * room_for(bits.len())];
    conv_encode_into(bits, &mut out)?;
    Ok(out)
}

/// Writes what [`conv_encode`] gives at the start of `out` and says how many; the rest of `out` stays.
///
/// ```
/// let mut out = [7; 3];
/// assert_eq!(relay_coder::conv_encode_into(&[1], &mut out), Ok(2));
/// assert_eq!(out, [1, 1, 7]);
/// ```
pub fn conv_encode_into(bits: &[u8], out: &mut [u8]) -> Result<usize, Refusal> {
    count(doors::conv_encode(bits, out))
}

/// So many info bits to take room for: none beyond the limit, where a door refuses whatever the room.
pub(crate) fn room_for(info: usize) -> usize {
    if info > INFO_LIMIT { 0 } else { info }
}
