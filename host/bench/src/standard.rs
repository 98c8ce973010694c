//! Code number 2, which the oracle does not have, beside number 1: both the proved doors. What is coded and decoded is
//! checked against what is expected of each.

use crate::clock::medians;
use crate::decoder::noisy;
use expected::{Random, decoder, encoder};
use relay_coder::{Code, INFO_LIMIT, Rate, Refusal, decode_into, encode, encode_into, scratch_len};
use std::hint::black_box;

const SEED: u64 = 1998;
const SIZES: [usize; 3] = [1000, 4096, INFO_LIMIT];
const RATES: [(&str, Rate); 2] = [("1/2", Rate::R1_2), ("7/8", Rate::R7_8)];

pub fn run() {
    println!(
        "code number 2 beside number 1, both proved: K7 with the keep patterns of EN 300 744, and with the Rust's"
    );
    println!(
        "{:<12} {:>6} {:>8} {:>8} {:>7}",
        "entry", "info", "number 2", "number 1", "ratio"
    );
    for (rate_name, rate) in RATES {
        for size in SIZES {
            let info = Random::new(SEED).bits(size);
            let (second, first) = medians(
                encoding(Code::En300744, rate, &info),
                encoding(Code::DvbK7, rate, &info),
            );
            row(&format!("encode {rate_name}"), size, second, first);
        }
    }
    for (rate_name, rate) in RATES {
        for size in SIZES {
            let (second, first) = medians(decoding(Code::En300744, rate, size), decoding(Code::DvbK7, rate, size));
            row(&format!("decode {rate_name}"), size, second, first);
        }
    }
}

fn encoding(code: Code, rate: Rate, info: &[u8]) -> impl FnMut() {
    let mut out = encode(code, rate, info).expect("the input is within the limits");
    let must = encoder::encode(code as u8, rate as u8, info, &out).out;
    assert!(out == must, "{code:?} {rate:?}: the outputs differ");
    move || {
        accepted(encode_into(code, rate, black_box(info), black_box(&mut out)));
    }
}

/// Each code with the noise on its own codeword, so that both have as much to mend.
fn decoding(code: Code, rate: Rate, size: usize) -> impl FnMut() {
    let random = &mut Random::new(SEED);
    let coded = encode(code, rate, &random.bits(size)).expect("the input is within the limits");
    let readings: Vec<f32> = coded.iter().map(|bit| noisy(*bit, random)).collect();
    let (mut out, mut scratch) = (vec![0; size], vec![0; scratch_len(code, size)]);
    let bytes: Vec<u8> = readings.iter().flat_map(|reading| reading.to_le_bytes()).collect();
    let must = decoder::decode(code as u8, rate as u8, size, &bytes, &out, &scratch).out;
    accepted(decode_into(code, rate, size, &readings, &mut out, &mut scratch));
    assert!(out == must, "{code:?} {rate:?}: the words differ");
    move || {
        accepted(decode_into(
            code,
            rate,
            size,
            black_box(&readings),
            &mut out,
            &mut scratch,
        ));
    }
}

fn accepted<T>(answer: Result<T, Refusal>) {
    black_box(answer.expect("the input is within the limits"));
}

fn row(name: &str, size: usize, second: f64, first: f64) {
    let (second, first) = (second / size as f64, first / size as f64);
    println!(
        "{name:<12} {size:>6} {second:>8.3} {first:>8.3} {:>7.3}",
        second / first
    );
}
