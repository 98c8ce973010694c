//! The streaming decoder, by value and in place.

use crate::clock::medians;
use crate::symbols::noise;
use expected::Random;
use expected::symbols::phasors_of;
use oracle::codec::conv_encode;
use oracle::codec::psk31::{DQPSK_EXP, StreamingViterbi};
use std::hint::black_box;
use timed::Streaming;

const SEED: u64 = 1998;
const SYMBOLS: usize = 100_000;

pub fn run() {
    println!(
        "streaming decoder: ns per symbol, a fresh one for each run; the bits are written to a lent buffer in all three"
    );
    println!(
        "{:<12} {:>7} {:>8} {:>8} {:>7}",
        "entry", "symbols", "proved", "Rust", "ratio"
    );
    let random = &mut Random::new(SEED);
    let sent = phasors_of(&conv_encode(&random.bits(SYMBOLS)));
    let soft: Vec<f32> = sent.iter().map(|component| component + noise(random)).collect();
    row("by value", &soft, |soft, out| timed::stream(soft, out) as usize);
    row("in place", &soft, in_place);
}

fn row(name: &str, soft: &[f32], proved: impl Fn(&[f32], &mut [u8]) -> usize) {
    let (mut ours, mut theirs) = (vec![0; SYMBOLS], vec![0; SYMBOLS]);
    let (proved_ns, rust_ns) = medians(
        || {
            black_box(proved(black_box(soft), &mut ours));
        },
        || {
            black_box(rust(black_box(soft), &mut theirs));
        },
    );
    assert!(proved(soft, &mut ours) == rust(soft, &mut theirs), "the counts differ");
    assert!(ours == theirs, "the bits differ");
    let (proved_ns, rust_ns) = (proved_ns / SYMBOLS as f64, rust_ns / SYMBOLS as f64);
    println!(
        "{name:<12} {SYMBOLS:>7} {proved_ns:>8.3} {rust_ns:>8.3} {:>7.3}",
        proved_ns / rust_ns
    );
}

fn in_place(soft: &[f32], out: &mut [u8]) -> usize {
    let mut decoder = Streaming::fresh();
    let mut written = 0;
    for symbol in soft.chunks_exact(2) {
        let heard = decoder.feed(symbol[0], symbol[1]);
        if heard < 2 {
            out[written] = heard as u8;
            written += 1;
        }
    }
    written
}

fn rust(soft: &[f32], out: &mut [u8]) -> usize {
    let mut decoder = StreamingViterbi::new(&DQPSK_EXP);
    let mut written = 0;
    for symbol in soft.chunks_exact(2) {
        if let Some(bit) = decoder.feed_symbol(symbol[0], symbol[1]) {
            out[written] = bit;
            written += 1;
        }
    }
    written
}
