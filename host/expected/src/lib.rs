//! What each door must answer and leave in its buffers. An accepted input's output is the oracle's; whether an
//! input is accepted is decided here, from 01's table of refusal numbers with the limit of request 2026-06, and from
//! nothing of the proved code. The reader for pauses, code number 2 and the decoder of signed bytes, which the oracle does
//! not have, are by the words of the requests 2026-01, 2026-04 and 2026-05.

pub mod decoder;
pub mod encoder;
pub mod program;
mod random;
pub mod signed;
mod standard;
pub mod streaming;
pub mod symbols;
pub mod varicode;

pub use random::Random;

/// The codes and rates that 01 numbers, each with its name. DVB is K7 with the keep patterns of EN 300 744.
pub const CODES: [(u8, &str); 3] = [(0, "K5"), (1, "K7"), (2, "DVB")];
pub const RATES: [(u8, &str); 5] = [(0, "1/2"), (1, "2/3"), (2, "3/4"), (3, "5/6"), (4, "7/8")];

/// The most info bits or symbols that one call may bring.
pub const INFO_LIMIT: usize = 16_384;

/// The answer that carries a refusal number with place 0.
pub fn refused(number: u64) -> u64 {
    number << 32
}

/// A door's answer, and the whole of the lent output after the call.
#[derive(Debug, Clone, PartialEq, Eq)]
pub struct After {
    pub answer: u64,
    pub out: Vec<u8>,
}

impl After {
    /// A refused call changes no byte.
    fn refusal(number: u64, out: &[u8]) -> After {
        After {
            answer: refused(number),
            out: out.to_vec(),
        }
    }

    /// An accepted call answers how many elements it wrote; those beyond stay.
    fn written(elements: &[u8], out: &[u8]) -> After {
        let mut out = out.to_vec();
        out[..elements.len()].copy_from_slice(elements);
        After {
            answer: elements.len() as u64,
            out,
        }
    }
}
