//! Runs the proved doors, the program `relay`, and the program `answers` for what has no door, side by side with the
//! oracle, one module for each area. A line for each group says what was compared and how many cases, and `same` or
//! the first case that differs; the last line counts the groups.

mod answers;
mod damaged;
mod decoder;
mod encoder;
mod groups;
mod lent;
mod no_calls;
mod program;
mod signed;
mod streaming;
mod symbols;
mod varicode;

use expected::Random;
use groups::Groups;
use std::process::ExitCode;
use std::thread;

/// Repeats the random inputs; any other number serves as well.
const SEED: u64 = 0x4879_6F6C_6D75_7265;

/// The limit before request 2026-06. The counts about it were the last that were accepted and the first that was not.
const FORMER_LIMIT: usize = 4096;

/// What compares an area: it reports its groups, with random inputs of its own.
type Area = fn(&mut Groups, &mut Random);

const AREAS: [Area; 13] = [
    encoder::run,
    decoder::run,
    varicode::run_words,
    varicode::run_queues,
    varicode::run_joined,
    symbols::run,
    streaming::run,
    no_calls::run,
    damaged::run,
    program::run,
    varicode::pauses::run,
    varicode::pauses::run_texts,
    signed::run,
];

/// The areas run side by side, and are reported in order. A new one comes last: the others keep their random inputs so.
fn main() -> ExitCode {
    println!("compare: random inputs from seed {SEED:#x}");
    let mut groups = Groups::default();
    thread::scope(|scope| {
        let areas: Vec<_> = (SEED..)
            .zip(AREAS)
            .map(|(seed, area)| scope.spawn(move || compared(area, seed)))
            .collect();
        for area in areas {
            groups.add(area.join().expect("an area ends"));
        }
    });
    groups.finish()
}

fn compared(area: Area, seed: u64) -> Groups {
    let mut groups = Groups::default();
    area(&mut groups, &mut Random::new(seed));
    groups
}
