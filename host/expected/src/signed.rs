//! The block decoder of readings that are signed bytes, which the oracle does not have: by the words of request 2026-05,
//! in whole numbers that no sum overflows, and with a state that is not reached told apart from every number. Where a
//! reading belongs is as for f32s.

use crate::decoder::{AfterBlock, Run, TRELLISES, Trellis, received, with_room};
use crate::refused;

/// A state's sum; none where it is not reached.
type Sum = Option<i64>;

/// `relay_decode_signed`, for buffers as they are before the call.
pub fn decode(code: u8, rate: u8, info: usize, readings: &[i8], out: &[u8], scratch: &[u8]) -> AfterBlock {
    AfterBlock::of(
        accepted(code, rate, info, readings, out.len(), scratch.len()),
        out,
        scratch,
    )
}

/// What is decoded, or the answer that refuses.
fn accepted(code: u8, rate: u8, info: usize, readings: &[i8], room: usize, scratch: usize) -> Result<Run, u64> {
    let coded = with_room(code, rate, info, room, scratch)?.coded_len(info);
    if let Some(place) = first_bad(readings, coded) {
        return Err(refused(12) + place as u64);
    }
    let readings: Vec<i64> = readings.iter().copied().map(i64::from).collect();
    Ok(run(
        &TRELLISES[usize::from(code)],
        &received(code, rate, &readings, info),
        info,
    ))
}

/// The place of the first byte that refusal 12 is for. Beyond the coded length none is looked at.
fn first_bad(readings: &[i8], coded: usize) -> Option<usize> {
    readings.iter().take(coded).position(|reading| *reading == -128)
}

fn run(trellis: &Trellis, pairs: &[[i64; 2]], info: usize) -> Run {
    let mut sums: Vec<Sum> = vec![None; 1 << trellis.width];
    sums[0] = Some(0);
    let mut survivors = Vec::new();
    for pair in pairs {
        let (next, from): (Vec<Sum>, Vec<u8>) = step(trellis, &sums, pair).into_iter().unzip();
        sums = next;
        survivors.extend(from);
    }
    let score = sums[0].expect("zeros lead to state 0");
    Run {
        word: trellis.way_back(&survivors, info),
        score: i32::try_from(score).expect("a score has 32 bits") as u32,
        survivors,
    }
}

/// The sum of each state after a step, and the state that it came from: 0 where no candidate won.
fn step(trellis: &Trellis, sums: &[Sum], pair: &[i64; 2]) -> Vec<(Sum, u8)> {
    let mut next = vec![(None, 0); sums.len()];
    for (state, sum) in sums.iter().enumerate() {
        let Some(sum) = sum else { continue };
        for input in [0, 1] {
            let window = input << trellis.width | state;
            let sent = trellis.coded(window).into_iter().zip(pair);
            let gain: i64 = sent
                .map(|(bit, reading)| if bit == 0 { *reading } else { -*reading })
                .sum();
            let (best, from) = &mut next[window >> 1];
            if best.is_none_or(|best| sum + gain > best) {
                (*best, *from) = (Some(sum + gain), state as u8);
            }
        }
    }
    next
}

#[cfg(test)]
mod tests {
    use super::*;
    use crate::decoder::{self, survivors};
    use crate::{CODES, RATES, Random};

    fn after(info: usize, readings: &[i8]) -> AfterBlock {
        decode(0, 0, info, readings, &[9; 4], &[9; 200])
    }

    #[test]
    fn the_bench_sheet_in_signed_bytes() {
        assert_eq!(after(1, &[-1]).out, [1, 9, 9, 9]);
        assert_eq!(after(1, &[-1]).answer, 1);
        assert_eq!(after(1, &[-1, 1]).out, [0, 9, 9, 9]);
        assert_eq!(after(3, &[]).out, [0, 0, 0, 9]);
        assert_eq!(after(0, &[-127]).answer, u64::from(-127i32 as u32));
    }

    #[test]
    fn the_first_used_minus_128_is_refused() {
        let mut eleven = [1; 11];
        eleven[10] = -128;
        assert_eq!(after(1, &eleven).answer, 10);
        eleven[9] = -128;
        assert_eq!(after(1, &eleven), refusal(12 << 32 | 9));
        eleven[4] = -128;
        assert_eq!(after(1, &eleven), refusal(12 << 32 | 4));
        assert_eq!(decode(0, 0, 1, &eleven, &[9; 4], &[9; 79]).answer, 5 << 32);
    }

    fn refusal(answer: u64) -> AfterBlock {
        AfterBlock {
            answer,
            out: vec![9; 4],
            scratch: vec![9; 200],
        }
    }

    #[test]
    fn what_lies_beyond_stays() {
        let after = after(1, &[]);
        assert_eq!(after.scratch[5 * 16..], [9; 120]);
        // Only state 0 is there before the first step.
        assert_eq!(after.scratch[..16], [0; 16]);
    }

    #[test]
    fn it_is_what_the_model_of_f32s_gives() {
        let random = &mut Random::new(5);
        for (code, _) in CODES {
            for (rate, _) in RATES {
                for info in 0..20 {
                    let most = [1, 3, 127][info % 3];
                    let mut reading = || (random.below(2 * most + 1) as i32 - most as i32) as i8;
                    let readings: Vec<i8> = (0..3 * info).map(|_| reading()).collect();
                    let bytes: Vec<u8> = readings
                        .iter()
                        .flat_map(|reading| f32::from(*reading).to_le_bytes())
                        .collect();
                    let (out, scratch) = (vec![9; info + 2], vec![9; survivors(code, info) + 2]);
                    let mut whole = decode(code, rate, info, &readings, &out, &scratch);
                    whole.answer = u64::from((whole.answer as u32 as i32 as f32).to_bits());
                    assert_eq!(whole, decoder::decode(code, rate, info, &bytes, &out, &scratch));
                }
            }
        }
    }
}
