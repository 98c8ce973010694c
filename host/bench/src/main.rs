//! Times the proved doors, and the proved code that has no door, against the oracle, or against each other where the
//! oracle has no such entry: one run, equal input, both optimised, one module for each area. What a call costs from the
//! shortest to the longest is timed by itself.

mod clock;
mod decoder;
mod encoder;
mod lookup;
mod short;
mod signed;
mod standard;
mod streaming;
mod symbols;

fn main() {
    println!(
        "ns per info bit, median of {} rounds, the two taking turns; input equal, outputs checked equal",
        clock::ROUNDS
    );
    encoder::run();
    decoder::run();
    standard::run();
    signed::run();
    symbols::run();
    streaming::run();
    lookup::run();
    short::run();
}
