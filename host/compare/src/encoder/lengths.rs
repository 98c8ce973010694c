//! The coded length.

use super::entry::Entry;
use super::refused::{has, lowest};
use crate::groups::Outcome;
use expected::{CODES, INFO_LIMIT, RATES, encoder, refused};
use relay_coder::doors;

/// Held to the oracle's formula and to the length of its encoding.
pub fn accepted(code: u8, rate: u8) -> Outcome {
    let info = vec![0; INFO_LIMIT];
    let entry = Entry::With { code, rate };
    let mut cases = 0;
    for len in 0..=INFO_LIMIT {
        compare(code, rate, len, encoder::coded_len(code, rate, len))?;
        compare(code, rate, len, entry.room(&info[..len]) as u64)?;
        cases += 1;
    }
    Ok(cases)
}

/// Among them counts whose sum with the tail, or whose double, does not fit in 32 or 64 bits.
pub fn too_long() -> Outcome {
    let middles = [
        INFO_LIMIT + 9,
        1 << 16,
        1 << 31,
        1 << 32,
        (1 << 32) + INFO_LIMIT,
        1 << 62,
        1 << 63,
    ];
    let around = middles.into_iter().flat_map(|middle| middle - 8..=middle + 8);
    let mut cases = 0;
    for info in around.chain(usize::MAX - 16..=usize::MAX) {
        for (code, _) in CODES {
            for (rate, _) in RATES {
                compare(code, rate, info, refused(3))?;
                cases += 1;
            }
        }
    }
    Ok(cases)
}

pub fn every_number() -> Outcome {
    for code in 0..=255 {
        for rate in 0..=255 {
            compare(code, rate, 10, encoder::coded_len(code, rate, 10))?;
        }
    }
    Ok(256 * 256)
}

pub fn faults() -> Outcome {
    let mut cases = 0;
    for faults in 1..8 {
        for code in if has(faults, 1) { [3, 4, 255] } else { [0, 1, 2] } {
            for rate in if has(faults, 2) { [5, 255] } else { [0, 4] } {
                for info in if has(faults, 3) {
                    [INFO_LIMIT + 1, usize::MAX]
                } else {
                    [0, INFO_LIMIT]
                } {
                    compare(code, rate, info, refused(lowest(faults)))?;
                    cases += 1;
                }
            }
        }
    }
    Ok(cases)
}

fn compare(code: u8, rate: u8, info: usize, expected: u64) -> Result<(), String> {
    let got = doors::coded_len(code, rate, info);
    if got == expected {
        return Ok(());
    }
    Err(format!(
        "  coded_len code {code} rate {rate} info {info}\n  expected {expected:#x}\n  got      {got:#x}"
    ))
}
