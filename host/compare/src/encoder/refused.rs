//! Inputs that the encoders refuse, alone and several faults at once.

use super::entry::Entry;
use crate::groups::Outcome;
use crate::lent::{FILLS, Fill, filled};
use expected::{After, INFO_LIMIT, Random, refused};

/// The lowest number in a set of faults, whose member n is the bit n - 1.
pub fn lowest(faults: u32) -> u64 {
    u64::from(faults.trailing_zeros()) + 1
}

/// Whether a set of faults has the number.
pub fn has(faults: u32, number: u32) -> bool {
    faults >> (number - 1) & 1 == 1
}

/// Too many info bits are refused however much room there is.
pub fn too_long(entry: Entry, random: &mut Random) -> Outcome {
    let mut cases = 0;
    for len in [INFO_LIMIT + 1, INFO_LIMIT + 2, 20_000, 65_536 + 4] {
        let info = random.bits(len);
        for room in [0, 1, 2 * len, 2 * len + 100] {
            for fill in FILLS {
                compare_refused(entry, &info, &filled(fill, room, random), 3)?;
                cases += 1;
            }
        }
    }
    Ok(cases)
}

pub fn every_number(random: &mut Random) -> Outcome {
    let info = random.bits(10);
    for code in 0..=255 {
        for rate in 0..=255 {
            let entry = Entry::With { code, rate };
            let before = filled(Fill::Canary, 40, random);
            entry.compare(&info, &before, &entry.expected(&info, &before))?;
        }
    }
    Ok(256 * 256)
}

pub fn faults_of_encode(random: &mut Random) -> Outcome {
    let mut cases = 0;
    for faults in 1..16 {
        for code in if has(faults, 1) { [3, 4, 255] } else { [0, 1, 2] } {
            for rate in if has(faults, 2) { [5, 255] } else { [0, 4] } {
                cases += faulty(Entry::With { code, rate }, faults, random)?;
            }
        }
    }
    Ok(cases)
}

pub fn faults_of_plain(random: &mut Random) -> Outcome {
    let mut cases = 0;
    for faults in [0b0100, 0b1000, 0b1100] {
        cases += faulty(Entry::Plain, faults, random)?;
    }
    Ok(cases)
}

/// Calls with the faults 3 and 4 of the set as well; the lowest number of the set must come.
fn faulty(entry: Entry, faults: u32, random: &mut Random) -> Outcome {
    let mut cases = 0;
    for len in if has(faults, 3) {
        [INFO_LIMIT + 1, 40_000]
    } else {
        [1, INFO_LIMIT]
    } {
        let info = random.bytes(len);
        let room = if has(faults, 4) { 1 } else { 2 * (len + 6) };
        for fill in FILLS {
            compare_refused(entry, &info, &filled(fill, room, random), lowest(faults))?;
            cases += 1;
        }
    }
    Ok(cases)
}

fn compare_refused(entry: Entry, info: &[u8], before: &[u8], number: u64) -> Result<(), String> {
    entry.compare(
        info,
        before,
        &After {
            answer: refused(number),
            out: before.to_vec(),
        },
    )
}
