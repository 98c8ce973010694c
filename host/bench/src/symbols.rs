//! The block decoder of symbols.

use crate::clock::medians;
use expected::Random;
use expected::symbols::phasors_of;
use oracle::codec::psk31::{conv_encode, viterbi_decode};
use relay_coder::INFO_LIMIT;
use std::hint::black_box;

const SEED: u64 = 1998;
const SIZES: [usize; 3] = [1000, 4096, INFO_LIMIT];

pub fn run() {
    println!(
        "block decoder of symbols: the proved code writes to lent buffers, not cleared between calls; the Rust allocates \
         its own"
    );
    println!(
        "{:<12} {:>6} {:>8} {:>8} {:>7}",
        "entry", "info", "proved", "Rust", "ratio"
    );
    for size in SIZES {
        let random = &mut Random::new(SEED);
        let sent = phasors_of(&conv_encode(&random.bits(size)));
        let soft: Vec<f32> = sent.iter().map(|component| component + noise(random)).collect();
        let (mut out, mut scratch) = (vec![0; size], vec![0; 16 * size]);
        let mut proved = || timed::viterbi_decode(black_box(&soft), &mut out, &mut scratch);
        let rust = || viterbi_decode(black_box(&soft));
        let (ours, theirs) = medians(
            || {
                black_box(proved());
            },
            || {
                black_box(rust());
            },
        );
        assert!(proved() == size as u64, "the proved code refuses");
        assert!(out == rust(), "the words differ");
        let (ours, theirs) = (ours / size as f64, theirs / size as f64);
        println!(
            "{:<12} {size:>6} {ours:>8.3} {theirs:>8.3} {:>7.3}",
            "symbols",
            ours / theirs
        );
    }
}

/// Leaves a tenth of the coded bits on the wrong side.
pub fn noise(random: &mut Random) -> f32 {
    random.below(1801) as f32 / 1000.0 - 0.9
}
