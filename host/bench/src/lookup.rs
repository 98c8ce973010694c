//! The Varicode lookup, one call for each value: the words of a notice, and values that are no words.

use crate::clock::medians;
use oracle::codec::varicode::{varicode_decode, varicode_encode};
use std::hint::black_box;

/// A medicine list and a family notice in one, as a hut sends them.
const NOTICE: &[u8] = b"Upper hut to valley clinic, 16 Nov, 0710.\n\
    Needed by noon: 12 insulin pens (100 units/ml), 40 tablets metformin 500 mg, 2 salbutamol inhalers.\n\
    To the family at the mill: mother and child are well, both stay here until the pass is clear.\n\
    Road closed above the bridge; send all with the morning party. Please read back.\n";

type Value = (u16, u8);
type Answers = Vec<Option<u8>>;

pub fn run() {
    println!(
        "Varicode lookup: ns per value, each with its own length, a call for each; the answers go to a lent buffer"
    );
    println!(
        "{:<12} {:>6} {:>8} {:>8} {:>7}",
        "values", "number", "proved", "Rust", "ratio"
    );
    let letters: Vec<Value> = NOTICE.iter().map(|&byte| varicode_encode(byte)).collect();
    row("a notice", &letters);
    row("no words", &no_words());
}

/// Every value of at most ten bits that is no word.
fn no_words() -> Vec<Value> {
    (0..1024u16)
        .map(|bits| (bits, (u16::BITS - bits.leading_zeros()) as u8))
        .filter(|&(bits, len)| varicode_decode(bits, len).is_none())
        .collect()
}

fn row(name: &str, values: &[Value]) {
    let count = values.len();
    let (mut ours, mut theirs): (Answers, Answers) = (vec![None; count], vec![None; count]);
    let (proved_ns, rust_ns) = medians(
        || look_up(values, &mut ours, timed::varicode_decode),
        || look_up(values, &mut theirs, varicode_decode),
    );
    assert!(ours == theirs, "{name}: the bytes differ");
    let (proved_ns, rust_ns) = (proved_ns / count as f64, rust_ns / count as f64);
    println!(
        "{name:<12} {count:>6} {proved_ns:>8.3} {rust_ns:>8.3} {:>7.3}",
        proved_ns / rust_ns
    );
}

/// One loop for each lookup, so that the Rust's is inlined into its own.
#[inline(always)]
fn look_up(values: &[Value], answers: &mut [Option<u8>], lookup: impl Fn(u16, u8) -> Option<u8>) {
    for (&(bits, len), answer) in black_box(values).iter().zip(answers) {
        *answer = lookup(bits, len);
    }
}
