//! Inputs that the decoder refuses, alone and several faults at once.

use super::call::{Call, Reading, bytes};
use crate::encoder::refused::{has, lowest};
use crate::groups::Outcome;
use crate::lent::{FILLS, Fill, filled};
use expected::decoder::{AfterBlock, survivors};
use expected::encoder::coded_len;
use expected::{INFO_LIMIT, Random, refused};

const BAD: [f32; 4] = [f32::NAN, f32::INFINITY, f32::NEG_INFINITY, -f32::NAN];

/// One bad reading at each place up to a few beyond the coded length, and a second one behind it.
pub fn bad_readings(code: u8, rate: u8, random: &mut Random) -> Outcome {
    let mut cases = 0;
    for info in [0, 1, 9] {
        let coded = coded_len(code, rate, info) as usize;
        for place in 0..coded + 3 {
            for bad in BAD {
                let mut list = vec![1.0; coded + 3];
                list[place] = bad;
                let last = place + random.below(list.len() - place);
                list[last] = bad;
                let readings = &bytes(&list);
                let out = filled(Fill::Varying, info, random);
                let scratch = filled(Fill::Varying, survivors(code, info), random);
                let call = Call {
                    code,
                    rate,
                    info,
                    readings,
                };
                call.compare(&out, &scratch)?;
                if place < coded {
                    let answer = refused(6) + place as u64;
                    call.expect(&out.clone(), &scratch.clone(), &AfterBlock { answer, out, scratch })?;
                }
                cases += 1;
            }
        }
    }
    Ok(cases)
}

pub fn every_number<R: Reading>(readings: &[R], random: &mut Random) -> Outcome {
    for code in 0..=255 {
        for rate in 0..=255 {
            let out = filled(Fill::Canary, 10, random);
            let scratch = filled(Fill::Canary, survivors(1, 10), random);
            Call {
                code,
                rate,
                info: 10,
                readings,
            }
            .compare(&out, &scratch)?;
        }
    }
    Ok(256 * 256)
}

/// What a fault of the readings is: lists that have none and that have it, and the number that it gives.
pub struct Fault<R> {
    pub good: Vec<R>,
    pub bad: Vec<R>,
    pub number: u64,
}

/// One bad reading in the longest block: at the last place that is used, and at the first that is not.
pub fn last_of_longest<R: Reading>(code: u8, rate: u8, of_readings: &Fault<R>, random: &mut Random) -> Outcome {
    let coded = coded_len(code, rate, INFO_LIMIT) as usize;
    let out = filled(Fill::Varying, INFO_LIMIT, random);
    let scratch = filled(Fill::Varying, survivors(code, INFO_LIMIT), random);
    for place in [coded - 1, coded] {
        let readings = &[of_readings.good.repeat(place), of_readings.bad.clone()].concat();
        let call = Call {
            code,
            rate,
            info: INFO_LIMIT,
            readings,
        };
        call.compare(&out, &scratch)?;
        if place < coded {
            let unchanged = AfterBlock {
                answer: refused(of_readings.number) + place as u64,
                out: out.clone(),
                scratch: scratch.clone(),
            };
            call.expect(&out, &scratch, &unchanged)?;
        }
    }
    Ok(2)
}

/// Every set of the faults 1 to 5 and one of the readings, which has the place of 6 in a set; the lowest number of the
/// set must come, and no byte may change.
pub fn faults<R: Reading>(of_readings: &Fault<R>, random: &mut Random) -> Outcome {
    let mut cases = 0;
    for faults in 1..64 {
        for code in if has(faults, 1) { [3, 4, 255] } else { [0, 1, 2] } {
            for rate in if has(faults, 2) { [5, 255] } else { [0, 4] } {
                for info in if has(faults, 3) {
                    [INFO_LIMIT + 1, usize::MAX]
                } else {
                    [1, INFO_LIMIT]
                } {
                    cases += faulty(of_readings, faults, code, rate, info, random)?;
                }
            }
        }
    }
    Ok(cases)
}

fn faulty<R: Reading>(
    of_readings: &Fault<R>,
    faults: u32,
    code: u8,
    rate: u8,
    info: usize,
    random: &mut Random,
) -> Outcome {
    let need = info.min(INFO_LIMIT);
    let room = if has(faults, 4) { need - 1 } else { need };
    let rows = survivors(code, need);
    let space = if has(faults, 5) { rows - 1 } else { rows };
    let readings = if has(faults, 6) {
        &of_readings.bad
    } else {
        &of_readings.good
    };
    let number = match lowest(faults) {
        6 => of_readings.number,
        number => number,
    };
    for fill in FILLS {
        let (out, scratch) = (filled(fill, room, random), filled(fill, space, random));
        let must = AfterBlock {
            answer: refused(number),
            out: out.clone(),
            scratch: scratch.clone(),
        };
        Call {
            code,
            rate,
            info,
            readings,
        }
        .expect(&out, &scratch, &must)?;
    }
    Ok(2)
}
