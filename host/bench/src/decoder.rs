//! The block decoder of readings.

use crate::clock::medians;
use expected::Random;
use oracle::fec::conv::{ConvCode, PunctureRate, viterbi_decode_soft_with};
use relay_coder::{Code, INFO_LIMIT, Rate, decode_into, encode, scratch_len};
use std::hint::black_box;

const SEED: u64 = 1998;
const SIZES: [usize; 3] = [1000, 4096, INFO_LIMIT];
const CODES: [(&str, Code, ConvCode); 2] = [("K5", Code::K5, ConvCode::K5), ("K7", Code::DvbK7, ConvCode::DvbK7)];
const RATES: [(&str, Rate, PunctureRate); 2] = [
    ("1/2", Rate::R1_2, PunctureRate::R1_2),
    ("7/8", Rate::R7_8, PunctureRate::R7_8),
];

pub fn run() {
    println!(
        "block decoder: the proved door takes the readings as bytes and writes to lent buffers, not cleared between calls; \
         the Rust allocates its own"
    );
    println!(
        "{:<12} {:>6} {:>8} {:>8} {:>7}",
        "entry", "info", "proved", "Rust", "ratio"
    );
    for (code_name, code, oracle_code) in CODES {
        for (rate_name, rate, oracle_rate) in RATES {
            for size in SIZES {
                let random = &mut Random::new(SEED);
                let coded = encode(code, rate, &random.bits(size)).expect("the input is within the limits");
                let readings: Vec<f32> = coded.iter().map(|bit| noisy(*bit, random)).collect();
                let (mut out, mut scratch) = (vec![0; size], vec![0; scratch_len(code, size)]);
                let mut proved = || decode_into(code, rate, size, black_box(&readings), &mut out, &mut scratch);
                let rust = || viterbi_decode_soft_with(oracle_code, black_box(&readings), size, oracle_rate);
                let (ours, theirs) = medians(
                    || {
                        let _ = black_box(proved());
                    },
                    || {
                        black_box(rust());
                    },
                );
                let name = format!("{code_name} {rate_name}");
                assert!(out == rust(), "{name}: the words differ");
                let (ours, theirs) = (ours / size as f64, theirs / size as f64);
                println!("{name:<12} {size:>6} {ours:>8.3} {theirs:>8.3} {:>7.3}", ours / theirs);
            }
        }
    }
}

/// A coded bit as it is received through noise: a tenth of them on the wrong side.
pub fn noisy(bit: u8, random: &mut Random) -> f32 {
    let sent = 1.0 - 2.0 * f32::from(bit);
    let noise = random.below(2001) as f32 / 800.0 - 1.25;
    sent + noise
}
