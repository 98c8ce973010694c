//! Inputs that the encoders accept when there is room.

use super::entry::Entry;
use crate::FORMER_LIMIT;
use crate::groups::Outcome;
use crate::lent::{FILLS, filled};
use expected::{INFO_LIMIT, Random};

/// Every word up to this many bits is tried.
pub const ALL_WORDS: usize = 12;

/// Every length up to this is tried: past each pattern's period (1, 2, 3, 5, 7) and each register's width several
/// times, and past 64.
pub const ALL_LENGTHS: usize = 72;

/// Longer ones: a round number, those about the former limit, and the last two that are accepted.
pub const LONG: [usize; 6] = [
    1000,
    FORMER_LIMIT - 1,
    FORMER_LIMIT,
    FORMER_LIMIT + 1,
    INFO_LIMIT - 1,
    INFO_LIMIT,
];

/// How many inputs each of those lengths gets, and how many get a random length.
const INPUTS: usize = 4;
const RANDOM_LENGTHS: usize = 100;

pub fn every_word(entry: Entry, random: &mut Random) -> Outcome {
    let mut cases = 0;
    for len in 0..=ALL_WORDS {
        for word in 0..1u32 << len {
            let info: Vec<u8> = (0..len).map(|at| (word >> at & 1) as u8).collect();
            cases += every_buffer(entry, &info, random)?;
        }
    }
    Ok(cases)
}

pub fn lengths(entry: Entry, random: &mut Random, input: impl Fn(&mut Random, usize) -> Vec<u8>) -> Outcome {
    let mut cases = 0;
    for len in (0..=ALL_LENGTHS).chain(LONG) {
        for _ in 0..INPUTS {
            let info = input(random, len);
            cases += every_buffer(entry, &info, random)?;
        }
    }
    Ok(cases)
}

pub fn random_lengths(entry: Entry, random: &mut Random) -> Outcome {
    let mut cases = 0;
    for _ in 0..RANDOM_LENGTHS {
        let len = random.below(INFO_LIMIT + 1);
        let info = random.bytes(len);
        cases += every_buffer(entry, &info, random)?;
    }
    Ok(cases)
}

/// Buffers one short, exact, one long and a hundred long, each filled both ways.
fn every_buffer(entry: Entry, info: &[u8], random: &mut Random) -> Outcome {
    let room = entry.room(info);
    let lens = [room.checked_sub(1), Some(room), Some(room + 1), Some(room + 100)];
    let mut cases = 0;
    for len in lens.into_iter().flatten() {
        for fill in FILLS {
            let before = filled(fill, len, random);
            entry.compare(info, &before, &entry.expected(info, &before))?;
            cases += 1;
        }
    }
    Ok(cases)
}
