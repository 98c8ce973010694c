//! What streaming decoders are fed with, and forged records to feed.

use expected::Random;
use expected::streaming::{Record, Symbol, sent};
use expected::symbols::MARK;

/// Kinds of forged metrics.
pub const KINDS: usize = 6;

/// The least number above 0.
const LEAST: f32 = 1e-45;

/// Counters as they come about, their ends, and beyond them.
const COUNTS: [u8; 12] = [0, 1, 31, 32, 33, 34, 35, 65, 66, 67, 68, 255];
const TURNS: [u8; 10] = [0, 1, 126, 127, 128, 129, 223, 224, 254, 255];

/// A random codeword with noise.
pub fn noisy(count: usize, random: &mut Random) -> Vec<Symbol> {
    let clean = sent(&random.bits(count));
    clean
        .into_iter()
        .map(|symbol| symbol.map(|component| component + noise(random)))
        .collect()
}

/// Up to 1.
pub fn noise(random: &mut Random) -> f32 {
    random.below(2001) as f32 / 1000.0 - 1.0
}

/// A record that no stream need lead to: metrics of one of the kinds, and any history and counters.
pub fn forged(kind: usize, random: &mut Random) -> Record {
    let mut record = Record::fresh();
    record.metrics = record.metrics.map(|_| metric(kind, random));
    let history = record.history.as_flattened_mut();
    history.copy_from_slice(&random.bytes(history.len()));
    record.count = counter(&COUNTS, random);
    record.turn = counter(&TURNS, random);
    record
}

fn metric(kind: usize, random: &mut Random) -> f32 {
    let (below, above) = (f32::from_bits(MARK.to_bits() - 1), f32::from_bits(MARK.to_bits() + 1));
    let unreachable = [MARK, above, f32::MAX, f32::INFINITY, f32::NAN];
    let about_zero = [0.0, -0.0, LEAST, -LEAST, 1e-38, -1e-38, 1.0, -1.0];
    let huge = [below, MARK / 2.0, 1e30, 1_073_741_824.0];
    let low = [-MARK, f32::MIN, f32::NEG_INFINITY, -1e30];
    match kind {
        // Any bits.
        0 => f32::from_bits(random.number() as u32),
        // No state is reachable.
        1 => one_of(&unreachable, random),
        2 => one_of(&about_zero, random),
        // Normalisation subtracts, and rounds.
        3 => one_of(&huge, random) + random.below(100) as f32,
        // As in a stream, with ties, and some states unreachable.
        4 => [random.below(4) as f32, MARK][random.below(5) / 4],
        _ => {
            let lists: [&[f32]; 4] = [&unreachable, &about_zero, &huge, &low];
            one_of(lists[random.below(4)], random)
        }
    }
}

fn one_of(list: &[f32], random: &mut Random) -> f32 {
    list[random.below(list.len())]
}

/// One of a list, or as often any.
fn counter(list: &[u8], random: &mut Random) -> u8 {
    [list[random.below(list.len())], random.number() as u8][random.below(2)]
}
