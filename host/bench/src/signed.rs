//! The block decoder of signed bytes beside that of f32s, both the proved doors, on the same numbers.

use crate::clock::times;
use crate::decoder::noisy;
use expected::{Random, signed};
use relay_coder::{Code, INFO_LIMIT, Rate, decode_into, decode_signed_into, encode, scratch_len};
use std::hint::black_box;

const SEED: u64 = 1998;
const SIZES: [usize; 3] = [1000, 4096, INFO_LIMIT];
const CODES: [(&str, Code); 2] = [("K7 1/2", Code::DvbK7), ("K5 1/2", Code::K5)];

/// More than elsewhere, since the least of them is shown too.
const ROUNDS: usize = 201;

pub fn run() {
    println!(
        "signed bytes beside f32, both proved, {ROUNDS} rounds: least, then median; the ratios are of the doors as a host \
         calls them"
    );
    println!(
        "{:<12} {:>6} {:>8} {:>8} {:>7} {:>8} {:>8} {:>7}",
        "entry", "info", "signed", "f32", "ratio", "signed", "f32", "ratio"
    );
    for (name, code) in CODES {
        for size in SIZES {
            row(name, code, size);
        }
    }
}

fn row(name: &str, code: Code, size: usize) {
    let (rate, random) = (Rate::R1_2, &mut Random::new(SEED));
    let coded = encode(code, rate, &random.bits(size)).expect("the input is within the limits");
    let readings: Vec<i8> = coded.iter().map(|bit| byte(noisy(*bit, random))).collect();
    let floats: Vec<f32> = readings.iter().copied().map(f32::from).collect();
    let (mut out, mut scratch) = (vec![0; size], vec![0; scratch_len(code, size)]);
    let (mut float_out, mut float_scratch) = (out.clone(), scratch.clone());
    let must = signed::decode(code as u8, rate as u8, size, &readings, &out, &scratch);
    let [ours, theirs] = times(
        ROUNDS,
        || {
            let readings = black_box(&readings);
            let _ = black_box(decode_signed_into(code, rate, size, readings, &mut out, &mut scratch));
        },
        || {
            let readings = black_box(&floats);
            let _ = black_box(decode_into(
                code,
                rate,
                size,
                readings,
                &mut float_out,
                &mut float_scratch,
            ));
        },
    );
    assert!(out == must.out && float_out == must.out, "{name}: the words differ");
    let per_bit = |ns: f64| ns / size as f64;
    println!(
        "{name:<12} {size:>6} {:>8.3} {:>8.3} {:>7.3} {:>8.3} {:>8.3} {:>7.3}",
        per_bit(ours.least),
        per_bit(theirs.least),
        ours.least / theirs.least,
        per_bit(ours.median),
        per_bit(theirs.median),
        ours.median / theirs.median
    );
}

/// A reading about 1 or -1 as a receiver rounds it to a byte.
pub fn byte(reading: f32) -> i8 {
    (reading * 50.0).round().clamp(-127.0, 127.0) as i8
}
