//! What one call of each door costs, from the shortest word to the longest that is accepted: the proved code by itself, so
//! that two builds of it can be held to each other. A higher limit must not make a short call dearer.

use crate::clock::times_alone;
use crate::decoder::noisy;
use crate::signed::byte;
use expected::{Random, decoder, encoder, signed};
use relay_coder::{Code, INFO_LIMIT, Rate, doors, encode, scratch_len};
use std::hint::black_box;

const SEED: u64 = 1998;
const SIZES: [usize; 5] = [1, 100, 1000, 4096, INFO_LIMIT];
const CODES: [(&str, Code); 2] = [("K5", Code::K5), ("K7", Code::DvbK7)];
const RATE: Rate = Rate::R1_2;
const ROUNDS: usize = 101;

pub fn run() {
    println!(
        "each door by itself, rate 1/2: ns per call, least and median of {ROUNDS} rounds; buffers are lent, and not cleared \
         between calls"
    );
    println!("{:<16} {:>6} {:>12} {:>12}", "entry", "info", "least", "median");
    for size in SIZES {
        plain(size);
    }
    for (name, code) in CODES {
        for entry in [encoding, length, readings, signed_readings] {
            for size in SIZES {
                entry(name, code, size);
            }
        }
    }
}

fn row(name: &str, size: usize, mut call: impl FnMut() -> u64) {
    let times = times_alone(ROUNDS, || {
        black_box(call());
    });
    println!("{name:<16} {size:>6} {:>12.1} {:>12.1}", times.least, times.median);
}

fn plain(size: usize) {
    let bits = Random::new(SEED).bits(size);
    let mut out = vec![0; 2 * size];
    let must = encoder::conv_encode(&bits, &out);
    row("conv_encode", size, || doors::conv_encode(black_box(&bits), &mut out));
    assert!(out == must.out, "conv_encode, {size}: the outputs differ");
}

fn encoding(name: &str, code: Code, size: usize) {
    let info = Random::new(SEED).bits(size);
    let mut out = vec![0; 2 * (size + 6)];
    let must = encoder::encode(code as u8, RATE as u8, &info, &out);
    row(&format!("encode {name}"), size, || {
        doors::encode(code as u8, RATE as u8, black_box(&info), &mut out)
    });
    assert!(out == must.out, "encode {name}, {size}: the outputs differ");
}

fn length(name: &str, code: Code, size: usize) {
    let call = || doors::coded_len(code as u8, RATE as u8, black_box(size));
    assert!(call() == encoder::coded_len(code as u8, RATE as u8, size));
    row(&format!("coded_len {name}"), size, call);
}

fn readings(name: &str, code: Code, size: usize) {
    let bytes: Vec<u8> = heard(code, size).iter().flat_map(|x| x.to_le_bytes()).collect();
    let (mut out, mut scratch) = (vec![0; size], vec![0; scratch_len(code, size)]);
    let must = decoder::decode(code as u8, RATE as u8, size, &bytes, &out, &scratch);
    row(&format!("decode {name}"), size, || {
        doors::decode(code as u8, RATE as u8, size, black_box(&bytes), &mut out, &mut scratch)
    });
    assert!(out == must.out, "decode {name}, {size}: the words differ");
}

fn signed_readings(name: &str, code: Code, size: usize) {
    let list: Vec<i8> = heard(code, size).into_iter().map(byte).collect();
    let (mut out, mut scratch) = (vec![0; size], vec![0; scratch_len(code, size)]);
    let must = signed::decode(code as u8, RATE as u8, size, &list, &out, &scratch);
    row(&format!("decode_signed {name}"), size, || {
        doors::decode_signed(code as u8, RATE as u8, size, black_box(&list), &mut out, &mut scratch)
    });
    assert!(out == must.out, "decode_signed {name}, {size}: the words differ");
}

/// A random codeword as it is received through noise.
fn heard(code: Code, size: usize) -> Vec<f32> {
    let random = &mut Random::new(SEED);
    let coded = encode(code, RATE, &random.bits(size)).expect("the input is within the limits");
    coded.iter().map(|bit| noisy(*bit, random)).collect()
}
