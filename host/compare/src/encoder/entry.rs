//! One call of an encoder, at the door and as it must be.

use crate::lent::{hex, lend, same};
use expected::{After, encoder};
use relay_coder::doors;

#[derive(Clone, Copy)]
pub enum Entry {
    Plain,
    With { code: u8, rate: u8 },
}

impl Entry {
    /// The answer and the whole of out that the oracle, or 01's table, gives.
    pub fn expected(self, info: &[u8], out: &[u8]) -> After {
        match self {
            Entry::Plain => encoder::conv_encode(info, out),
            Entry::With { code, rate } => encoder::encode(code, rate, info, out),
        }
    }

    /// The room that an accepted call needs: the length of the oracle's encoding.
    pub fn room(self, info: &[u8]) -> usize {
        let ample = vec![0; 2 * (info.len() + 8)];
        self.expected(info, &ample).answer as usize
    }

    /// Calls the door and compares the answer, every byte of out, the bytes about it and the input.
    pub fn compare(self, info: &[u8], before: &[u8], must: &After) -> Result<(), String> {
        let told = |why: String| format!("{}\n{why}", self.case(info, before));
        let input = info.to_vec();
        let got = lend(before, |out| self.door(&input, out)).map_err(told)?;
        if input != info {
            return Err(told("  the input was written to".to_string()));
        }
        same(must, &got).map_err(told)
    }

    fn door(self, info: &[u8], out: &mut [u8]) -> u64 {
        match self {
            Entry::Plain => doors::conv_encode(info, out),
            Entry::With { code, rate } => doors::encode(code, rate, info, out),
        }
    }

    fn case(self, info: &[u8], before: &[u8]) -> String {
        let entry = match self {
            Entry::Plain => "conv_encode".to_string(),
            Entry::With { code, rate } => format!("encode code {code} rate {rate}"),
        };
        format!(
            "  {entry}, {} info bytes {}\n  out before {}",
            info.len(),
            hex(info),
            hex(before)
        )
    }
}
