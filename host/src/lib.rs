//! The relay coder for a Rust host: safe functions over the doors of the proved code.
//!
//! The encoders, the coded length and the two block decoders take a [`Code`] and a [`Rate`], and give a result or the
//! [`Refusal`] that document 01 names, as amended. [`decode`] takes readings as f32s, [`decode_signed`] as signed bytes,
//! without a float. [`doors`] has the same entries with 01's bare numbers.
//!
//! ```
//! use relay_coder::{Code, Rate, decode, encode};
//!
//! let coded = encode(Code::K5, Rate::R3_4, &[1]).unwrap();
//! assert_eq!(coded, [1, 1, 0, 0, 0, 1, 1]);
//!
//! // A reading above 0 says 0, one below says 1: here the coded bits themselves, the first one damaged.
//! let mut readings: Vec<f32> = coded.iter().map(|bit| 1.0 - 2.0 * f32::from(*bit)).collect();
//! readings[0] = 0.25;
//! let word = decode(Code::K5, Rate::R3_4, 1, &readings).unwrap();
//! assert_eq!(word.bits, [1]);
//! ```

mod decoder;
pub mod doors;
mod encoder;
mod refusal;
mod signed;
mod slices;

pub use decoder::{Word, decode, decode_into, scratch_len};
pub use encoder::{Code, INFO_LIMIT, Rate, coded_len, conv_encode, conv_encode_into, encode, encode_into};
pub use refusal::{Refusal, count, score, signed_score};
pub use signed::{SignedWord, decode_signed, decode_signed_into};
