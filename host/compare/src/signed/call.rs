//! One call of the decoder of signed bytes, at the door, as it must be, and beside the door of f32s.

use crate::decoder::call::{Call, Reading, bytes, same};
use expected::decoder::AfterBlock;
use expected::signed::decode;
use relay_coder::doors;

impl Reading for i8 {
    const ENTRY: &'static str = "decode_signed";

    fn door(code: u8, rate: u8, info: usize, readings: &[i8], out: &mut [u8], scratch: &mut [u8]) -> u64 {
        doors::decode_signed(code, rate, info, readings, out, scratch)
    }

    fn expected(call: &Call<i8>, out: &[u8], scratch: &[u8]) -> AfterBlock {
        decode(call.code, call.rate, call.info, call.readings, out, scratch)
    }

    fn beside(call: &Call<i8>, out: &[u8], scratch: &[u8], must: &AfterBlock) -> Result<(), String> {
        let answer = match must.answer >> 32 {
            0 => u64::from((must.answer as u32 as i32 as f32).to_bits()),
            // The other door takes -128 as any number.
            12 => return Ok(()),
            _ => must.answer,
        };
        let floats: Vec<f32> = call.readings.iter().copied().map(f32::from).collect();
        let got = Call {
            code: call.code,
            rate: call.rate,
            info: call.info,
            readings: &bytes(&floats),
        }
        .after(out, scratch)?;
        let must = AfterBlock { answer, ..must.clone() };
        same(&must, &got).map_err(|why| format!("  the door of f32s, given the same numbers:\n{why}"))
    }
}
