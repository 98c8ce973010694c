//! The decoder of signed bytes, to be tried against every word.

use crate::decoder::best::{Heard, Tried};
use expected::decoder::survivors;
use relay_coder::doors;

pub const SIGNED: Tried = Tried {
    entry: "decode_signed",
    largest: |random| [0, 1, 2, 3, 40, 127][random.below(6)],
    door,
};

fn door(code: u8, rate: u8, info: usize, readings: &[i32]) -> Heard {
    let list: Vec<i8> = readings.iter().map(|reading| *reading as i8).collect();
    let (mut out, mut scratch) = (vec![0; info], vec![0; survivors(code, info)]);
    let answer = doors::decode_signed(code, rate, info, &list, &mut out, &mut scratch);
    let score = relay_coder::signed_score(answer)?;
    Ok((out, f64::from(score)))
}
