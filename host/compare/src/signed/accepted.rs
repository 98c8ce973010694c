//! Signed bytes that the decoder accepts.

use crate::FORMER_LIMIT;
use crate::decoder::accepted::{Kind, every_buffer, list_lens};
use crate::groups::Outcome;
use expected::encoder::{coded_len, encode};
use expected::{INFO_LIMIT, Random};

/// Every list of these is tried, up to a few.
pub const VALUES: [i8; 5] = [-127, -1, 0, 1, 127];

/// Every info count up to this is tried, and longer ones, those about the former limit and the last two that are
/// accepted among them.
pub const LENGTHS: usize = 72;
pub const LONG: [usize; 6] = [
    1000,
    FORMER_LIMIT - 1,
    FORMER_LIMIT,
    FORMER_LIMIT + 1,
    INFO_LIMIT - 1,
    INFO_LIMIT,
];

pub const KINDS: [Kind<i8>; 3] = [
    Kind {
        name: "-1 to 1, which tie",
        reading: |random| random.below(3) as i8 - 1,
    },
    Kind {
        name: "-127 to 127",
        reading: any,
    },
    Kind {
        name: "the largest, of either sign, and 0",
        reading: |random| [-127, 0, 127][random.below(3)],
    },
];

/// Any byte but -128.
pub fn any(random: &mut Random) -> i8 {
    (random.below(255) as i16 - 127) as i8
}

pub fn lengths(code: u8, rate: u8, kind: Kind<i8>, random: &mut Random) -> Outcome {
    let mut cases = 0;
    for info in (0..=LENGTHS).chain(LONG) {
        for len in list_lens(coded_len(code, rate, info) as usize) {
            let list: Vec<i8> = (0..len).map(|_| (kind.reading)(random)).collect();
            cases += every_buffer(code, rate, info, &list, random)?;
        }
    }
    Ok(cases)
}

/// Readings about 1 and -1 as a receiver rounds them to bytes.
pub fn quantised(readings: &[f32]) -> Vec<i8> {
    let byte = |reading: &f32| (reading * 60.0).round().clamp(-127.0, 127.0) as i8;
    readings.iter().map(byte).collect()
}

/// As many info bits and readings as there can be, of the largest size: of one sign, of both in turn, for a random
/// codeword, and against one, which takes the sums of its first states as low as any can be.
pub fn extremes(code: u8, rate: u8, random: &mut Random) -> Outcome {
    let coded = coded_len(code, rate, INFO_LIMIT) as usize;
    let sent = encode(code, rate, &random.bits(INFO_LIMIT), &vec![0; coded]).out;
    let turns = [vec![1], vec![0], vec![1, 0], vec![0, 1]];
    let turns = turns.map(|turn| turn.into_iter().cycle().take(coded).collect());
    let against = sent.iter().map(|bit| 1 - bit).collect();
    let mut cases = 0;
    for bits in turns.into_iter().chain([sent, against]) {
        let list: Vec<i8> = bits.iter().map(|bit: &u8| if *bit == 0 { 127 } else { -127 }).collect();
        cases += every_buffer(code, rate, INFO_LIMIT, &list, random)?;
    }
    Ok(cases)
}
