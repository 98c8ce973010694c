//! Readings that the decoder accepts.

use super::call::{Call, Reading, bytes};
use crate::FORMER_LIMIT;
use crate::groups::Outcome;
use crate::lent::{Fill, filled};
use expected::decoder::survivors;
use expected::encoder::{coded_len, encode};
use expected::{INFO_LIMIT, Random};

/// Every list of these, up to so many, is tried with each of the smallest info counts; what is missing reads 0.
pub const VALUES: [f32; 6] = [-2.0, -1.0, -0.0, 0.0, 1.0, 2.0];
pub const ALL_LISTS: u32 = 5;
pub const ALL_INFO: usize = 2;

/// Every info count up to this is tried: past each pattern's period and each register's width several times.
pub const LENGTHS: usize = 40;

/// Longer ones, those about the former limit and the last two that are accepted among them.
pub const LONG: [usize; 6] = [
    500,
    FORMER_LIMIT - 1,
    FORMER_LIMIT,
    FORMER_LIMIT + 1,
    INFO_LIMIT - 1,
    INFO_LIMIT,
];

/// How long codewords in noise are: so many random lengths up to this, and each of the long ones.
pub const NOISY_LENGTHS: usize = 300;
const NOISY: usize = 20;

/// How readings are chosen.
#[derive(Clone, Copy)]
pub struct Kind<V> {
    pub name: &'static str,
    pub reading: fn(&mut Random) -> V,
}

pub const KINDS: [Kind<f32>; 4] = [
    Kind {
        name: "whole",
        reading: |random| random.below(7) as f32 - 3.0,
    },
    Kind {
        name: "fractional",
        reading: |random| random.below(2001) as f32 / 800.0 - 1.25,
    },
    Kind {
        name: "huge, whose sums overflow, and tiny",
        reading: |random| {
            const EXTREME: [f32; 10] = [
                3e38,
                -3e38,
                f32::MAX,
                f32::MIN,
                f32::MIN / 2.0,
                1e-45,
                -1e-45,
                1e-38,
                0.0,
                -0.0,
            ];
            EXTREME[random.below(EXTREME.len())]
        },
    },
    Kind {
        name: "any finite",
        reading: |random| loop {
            let any = f32::from_bits(random.number() as u32);
            if any.is_finite() {
                break any;
            }
        },
    },
];

/// Lists of such values, which cross as `crossing` says.
pub fn every_list<V: Copy, R: Reading>(code: u8, rate: u8, values: &[V], crossing: fn(&[V]) -> Vec<R>) -> Outcome {
    let mut cases = 0;
    for info in 0..=ALL_INFO {
        let (out, scratch) = (vec![0xA5; info + 1], vec![0xA5; survivors(code, info) + 1]);
        for len in 0..=ALL_LISTS {
            for number in 0..values.len().pow(len) {
                let digit = |at| number / values.len().pow(at) % values.len();
                let list: Vec<V> = (0..len).map(|at| values[digit(at)]).collect();
                let readings = &crossing(&list);
                Call {
                    code,
                    rate,
                    info,
                    readings,
                }
                .compare(&out, &scratch)?;
                cases += 1;
            }
        }
    }
    Ok(cases)
}

pub fn lengths(code: u8, rate: u8, kind: Kind<f32>, random: &mut Random) -> Outcome {
    let mut cases = 0;
    for info in (0..=LENGTHS).chain(LONG) {
        let coded = coded_len(code, rate, info) as usize;
        for len in list_lens(coded) {
            let list: Vec<f32> = (0..len).map(|_| (kind.reading)(random)).collect();
            cases += every_buffer(code, rate, info, &bytes(&list), random)?;
        }
        // A last piece of one to three bytes is surplus.
        let mut cut: Vec<u8> = bytes(&(0..coded).map(|_| (kind.reading)(random)).collect::<Vec<f32>>());
        cut.truncate((4 * coded).saturating_sub(1 + random.below(3)));
        cases += every_buffer(code, rate, info, &cut, random)?;
    }
    Ok(cases)
}

/// Lists of none to surplus readings, where so many are used.
pub fn list_lens(coded: usize) -> [usize; 7] {
    [0, 1, coded / 2, coded - 1, coded, coded + 1, coded + 50]
}

/// Codewords sent through noise, from none to more than can be mended; what is heard crosses as `crossing` says.
pub fn noisy<R: Reading>(code: u8, rate: u8, crossing: fn(&[f32]) -> Vec<R>, random: &mut Random) -> Outcome {
    let mut cases = 0;
    for spread in [0.0, 0.5, 1.0, 2.0, 4.0] {
        let random_lengths: Vec<usize> = (0..NOISY).map(|_| 1 + random.below(NOISY_LENGTHS)).collect();
        for info in random_lengths.into_iter().chain(LONG) {
            let word = random.bits(info);
            let coded = coded_len(code, rate, info) as usize;
            let sent = encode(code, rate, &word, &vec![0; coded]).out;
            let list: Vec<f32> = sent
                .iter()
                .map(|bit| 1.0 - 2.0 * f32::from(*bit) + spread * (random.below(2001) as f32 / 1000.0 - 1.0))
                .collect();
            cases += every_buffer(code, rate, info, &crossing(&list), random)?;
        }
    }
    Ok(cases)
}

/// Both buffers long, and both exact, filled with random bytes. The exact ones are the fronts of the long ones, and what
/// must come of them is the front of what must come of those: so the model, which takes longest, runs once for both.
pub fn every_buffer<R: Reading>(code: u8, rate: u8, info: usize, readings: &[R], random: &mut Random) -> Outcome {
    let call = Call {
        code,
        rate,
        info,
        readings,
    };
    let (room, rows) = (info, survivors(code, info));
    let out = filled(Fill::Varying, room + 30, random);
    let scratch = filled(Fill::Varying, rows + 30, random);
    let mut must = R::expected(&call, &out, &scratch);
    call.hold(&out, &scratch, &must)?;
    must.out.truncate(room);
    must.scratch.truncate(rows);
    call.hold(&out[..room], &scratch[..rows], &must)?;
    Ok(2)
}
