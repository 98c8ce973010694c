//! The encoders.

use crate::clock::medians;
use expected::Random;
use oracle::fec::conv::{ConvCode, PunctureRate, conv_encode_punctured_with};
use relay_coder::{Code, INFO_LIMIT, Rate, conv_encode_into, encode_into};
use std::hint::black_box;

const SEED: u64 = 1998;
const SIZES: [usize; 3] = [1000, 4096, INFO_LIMIT];
const CODES: [(&str, Code, ConvCode); 2] = [("K5", Code::K5, ConvCode::K5), ("K7", Code::DvbK7, ConvCode::DvbK7)];
const RATES: [(&str, Rate, PunctureRate); 2] = [
    ("1/2", Rate::R1_2, PunctureRate::R1_2),
    ("7/8", Rate::R7_8, PunctureRate::R7_8),
];

pub fn run() {
    println!(
        "encoders: the proved code writes to one lent buffer, not cleared between calls; the Rust allocates its result"
    );
    println!(
        "{:<12} {:>6} {:>8} {:>8} {:>7}",
        "entry", "info", "proved", "Rust", "ratio"
    );
    for size in SIZES {
        let info = Random::new(SEED).bits(size);
        let proved = |out: &mut [u8]| conv_encode_into(black_box(&info), out);
        row("plain K5", size, proved, || {
            oracle::codec::conv_encode(black_box(&info))
        });
    }
    for (code_name, code, oracle_code) in CODES {
        for (rate_name, rate, oracle_rate) in RATES {
            for size in SIZES {
                let info = Random::new(SEED).bits(size);
                let proved = |out: &mut [u8]| encode_into(code, rate, black_box(&info), out);
                let rust = || conv_encode_punctured_with(oracle_code, black_box(&info), oracle_rate);
                row(&format!("{code_name} {rate_name}"), size, proved, rust);
            }
        }
    }
}

/// Checks that both give the same coded bits, then times them.
fn row(
    name: &str,
    size: usize,
    proved: impl Fn(&mut [u8]) -> Result<usize, relay_coder::Refusal>,
    rust: impl Fn() -> Vec<u8>,
) {
    let mut out = vec![0; 2 * (size + 6)];
    let count = proved(&mut out).expect("the input is within the limits");
    assert!(out[..count] == rust()[..], "{name}: the outputs differ");
    let (ours, theirs) = medians(
        || {
            let _ = black_box(proved(black_box(&mut out)));
        },
        || {
            black_box(rust());
        },
    );
    let (ours, theirs) = (ours / size as f64, theirs / size as f64);
    println!("{name:<12} {size:>6} {ours:>8.3} {theirs:>8.3} {:>7.2}", ours / theirs);
}
