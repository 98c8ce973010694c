//! One call of a block decoder of readings, at the door and as it must be.

use crate::lent::{hex, lend};
use expected::decoder::{AfterBlock, decode};
use relay_coder::doors;
use std::fmt::LowerHex;

/// What readings cross as, which says whose door it is: the decoder of f32s takes bytes, four a reading.
pub trait Reading: Copy + PartialEq + LowerHex {
    const ENTRY: &'static str;

    /// Calls the door.
    fn door(code: u8, rate: u8, info: usize, readings: &[Self], out: &mut [u8], scratch: &mut [u8]) -> u64;

    /// What the call must come to.
    fn expected(call: &Call<Self>, out: &[u8], scratch: &[u8]) -> AfterBlock;

    /// Holds what the call must come to to what another door gives, where there is another.
    fn beside(_: &Call<Self>, _out: &[u8], _scratch: &[u8], _must: &AfterBlock) -> Result<(), String> {
        Ok(())
    }
}

impl Reading for u8 {
    const ENTRY: &'static str = "decode";

    fn door(code: u8, rate: u8, info: usize, readings: &[u8], out: &mut [u8], scratch: &mut [u8]) -> u64 {
        doors::decode(code, rate, info, readings, out, scratch)
    }

    fn expected(call: &Call<u8>, out: &[u8], scratch: &[u8]) -> AfterBlock {
        decode(call.code, call.rate, call.info, call.readings, out, scratch)
    }
}

pub struct Call<'a, R> {
    pub code: u8,
    pub rate: u8,
    pub info: usize,
    pub readings: &'a [R],
}

/// The bytes of readings.
pub fn bytes(readings: &[f32]) -> Vec<u8> {
    readings.iter().flat_map(|reading| reading.to_le_bytes()).collect()
}

impl<R: Reading> Call<'_, R> {
    /// Compares the door with what it must give, and that with what stands beside it.
    pub fn compare(&self, out: &[u8], scratch: &[u8]) -> Result<(), String> {
        self.hold(out, scratch, &R::expected(self, out, scratch))
    }

    /// The same where what it must give is known.
    pub fn hold(&self, out: &[u8], scratch: &[u8], must: &AfterBlock) -> Result<(), String> {
        self.expect(out, scratch, must)?;
        R::beside(self, out, scratch, must).map_err(|why| self.told(out, scratch, &why))
    }

    /// Compares the answer, every byte of both buffers, the bytes about them and the input.
    pub fn expect(&self, out: &[u8], scratch: &[u8], must: &AfterBlock) -> Result<(), String> {
        let got = self.after(out, scratch).map_err(|why| self.told(out, scratch, &why))?;
        same(must, &got).map_err(|why| self.told(out, scratch, &why))
    }

    /// What the door makes of copies of the buffers.
    pub fn after(&self, out: &[u8], scratch: &[u8]) -> Result<AfterBlock, String> {
        let readings = self.readings.to_vec();
        let mut inner = Err("  the door was not called".to_string());
        let outer = lend(out, |out| {
            inner = lend(scratch, |scratch| {
                R::door(self.code, self.rate, self.info, &readings, out, scratch)
            });
            inner.as_ref().map_or(0, |after| after.answer)
        })?;
        if readings != self.readings {
            return Err("  the readings were written to".to_string());
        }
        inner.map(|after| AfterBlock {
            answer: after.answer,
            out: outer.out,
            scratch: after.out,
        })
    }

    fn told(&self, out: &[u8], scratch: &[u8], why: &str) -> String {
        format!(
            "  {} code {} rate {} info {}, reading bytes {}\n  out before {}, scratch of {} bytes\n{why}",
            R::ENTRY,
            self.code,
            self.rate,
            self.info,
            hex(self.readings),
            hex(out),
            scratch.len()
        )
    }
}

/// Nothing if the two are the same, else where they first differ.
pub fn same(must: &AfterBlock, got: &AfterBlock) -> Result<(), String> {
    if got == must {
        return Ok(());
    }
    let place = |name: &str, must: &[u8], got: &[u8]| {
        let at = must.iter().zip(got).position(|(a, b)| a != b)?;
        Some(format!(
            "  differs in {name}, first at {at}\n  expected {}\n  got      {}",
            hex(must),
            hex(got)
        ))
    };
    let why = place("out", &must.out, &got.out)
        .or_else(|| place("scratch", &must.scratch, &got.scratch))
        .unwrap_or("  differs in the answer alone".to_string());
    Err(format!(
        "{why}\n  expected answer {:#x}, got {:#x}",
        must.answer, got.answer
    ))
}
