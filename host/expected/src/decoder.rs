//! The block decoder of readings. The word is the oracle's; the survivors and the score, which the oracle keeps to
//! itself, are those of its arithmetic run again here, by 01's rules and from none of the proved code. For code number 2
//! the standard says where each reading belongs, and the oracle decodes at rate 1/2.

use crate::encoder::{Selected, selected};
use crate::{INFO_LIMIT, refused, standard};
use oracle::fec::conv::viterbi_decode_soft_with;

/// The door's answer, and the whole of both lent buffers after the call.
#[derive(Debug, Clone, PartialEq, Eq)]
pub struct AfterBlock {
    pub answer: u64,
    pub out: Vec<u8>,
    pub scratch: Vec<u8>,
}

impl AfterBlock {
    /// What a call on buffers as they are before it comes to: what was decoded in front, or the answer that refuses and
    /// no byte changed.
    pub(crate) fn of(decoded: Result<Run, u64>, out: &[u8], scratch: &[u8]) -> AfterBlock {
        let (mut out, mut scratch) = (out.to_vec(), scratch.to_vec());
        let answer = match decoded {
            Ok(run) => {
                out[..run.word.len()].copy_from_slice(&run.word);
                scratch[..run.survivors.len()].copy_from_slice(&run.survivors);
                u64::from(run.score)
            }
            Err(answer) => answer,
        };
        AfterBlock { answer, out, scratch }
    }
}

/// `relay_decode`, for buffers as they are before the call.
pub fn decode(code: u8, rate: u8, info: usize, bytes: &[u8], out: &[u8], scratch: &[u8]) -> AfterBlock {
    AfterBlock::of(
        accepted(code, rate, info, bytes, out.len(), scratch.len()),
        out,
        scratch,
    )
}

/// What is decoded, or the answer that refuses.
fn accepted(code: u8, rate: u8, info: usize, bytes: &[u8], room: usize, scratch: usize) -> Result<Run, u64> {
    let selected = with_room(code, rate, info, room, scratch)?;
    let readings: Vec<f32> = readings_of(bytes);
    let coded = selected.coded_len(info);
    if let Some(place) = readings.iter().take(coded).position(|reading| !reading.is_finite()) {
        return Err(refused(6) + place as u64);
    }
    let pairs = received(code, rate, &readings, info);
    let word = match selected {
        Selected::Oracle(oracle_code, oracle_rate) => {
            viterbi_decode_soft_with(oracle_code, &readings, info, oracle_rate)
        }
        Selected::Standard(_) => standard::decode(&pairs, info),
    };
    let run = TRELLISES[usize::from(code)].run(&pairs, info);
    assert_eq!(run.word, word, "the arithmetic run again is not the oracle's");
    Ok(run)
}

/// What is selected, or the answer that gives the first of the refusals 1 to 5 that is due.
pub(crate) fn with_room(code: u8, rate: u8, info: usize, room: usize, scratch: usize) -> Result<Selected, u64> {
    let selected = selected(code, rate, info).map_err(refused)?;
    debug_assert!(info <= INFO_LIMIT);
    if room < info {
        return Err(refused(4));
    }
    if scratch < survivors(code, info) {
        return Err(refused(5));
    }
    Ok(selected)
}

/// Four bytes each, low first; a last piece under four bytes is surplus.
pub fn readings_of(bytes: &[u8]) -> Vec<f32> {
    let pieces = bytes.chunks_exact(4);
    pieces
        .map(|four| f32::from_le_bytes(four.try_into().unwrap()))
        .collect()
}

pub(crate) struct Trellis {
    pub width: usize,
    taps: [u32; 2],
}

const K5: Trellis = Trellis {
    width: 4,
    taps: [0b10101, 0b10011],
};

const K7: Trellis = Trellis {
    width: 6,
    taps: [0o171, 0o133],
};

/// By the numbers of the codes.
pub(crate) const TRELLISES: [Trellis; 3] = [K5, K7, K7];

/// The width K - 1 of a code's register; K5's where the number is no code's.
pub fn width(code: u8) -> usize {
    TRELLISES.get(usize::from(code)).unwrap_or(&K5).width
}

/// How many survivor bytes a decoding leaves, by 01: steps times states.
pub fn survivors(code: u8, info: usize) -> usize {
    (info + width(code)) << width(code)
}

/// The rows of the oracle's keep patterns, G0's and G1's, by the numbers of their rates.
const PATTERNS: [[&str; 2]; 5] = [
    ["1", "1"],
    ["11", "10"],
    ["110", "101"],
    ["11010", "10101"],
    ["1111010", "1000101"],
];

/// The readings put back to where they were sent, G0's and G1's of each step; 0 where none is.
pub(crate) fn received<R: Copy + Default>(code: u8, rate: u8, readings: &[R], info: usize) -> Vec<[R; 2]> {
    match code {
        2 => standard::received(rate, readings, info),
        _ => by_pattern(&PATTERNS[usize::from(rate)], readings, info + width(code)),
    }
}

fn by_pattern<R: Copy + Default>(pattern: &[&str; 2], readings: &[R], steps: usize) -> Vec<[R; 2]> {
    let mut readings = readings.iter();
    let mut place = |row: &str, step: usize| match row.as_bytes()[step % row.len()] {
        b'1' => readings.next().copied().unwrap_or_default(),
        _ => R::default(),
    };
    (0..steps).map(|step| pattern.map(|row| place(row, step))).collect()
}

/// What a decoding comes to.
pub(crate) struct Run {
    pub word: Vec<u8>,
    /// The score's 32 bits.
    pub score: u32,
    pub survivors: Vec<u8>,
}

impl Trellis {
    fn run(&self, pairs: &[[f32; 2]], info: usize) -> Run {
        let mark = f32::MIN / 2.0;
        let states = 1 << self.width;
        let mut metrics = vec![mark; states];
        metrics[0] = 0.0;
        let mut survivors = Vec::new();
        for &[a, b] in pairs {
            let mut next = vec![(mark, 0); states];
            for state in (0..states).filter(|state| metrics[*state] > mark) {
                for input in [0, 1] {
                    let window = input << self.width | state;
                    let gain = match self.coded(window) {
                        [0, 0] => a + b,
                        [0, _] => a - b,
                        [_, 0] => -a + b,
                        _ => -a - b,
                    };
                    let candidate = metrics[state] + gain;
                    let new = &mut next[window >> 1];
                    if candidate > new.0 {
                        *new = (candidate, state as u8);
                    }
                }
            }
            metrics = next.iter().map(|new| new.0).collect();
            survivors.extend(next.iter().map(|new| new.1));
        }
        Run {
            word: self.way_back(&survivors, info),
            score: metrics[0].to_bits(),
            survivors,
        }
    }

    /// The coded bits of a window: the input bit, and the state behind it.
    pub fn coded(&self, window: usize) -> [u32; 2] {
        self.taps.map(|taps| (taps & window as u32).count_ones() % 2)
    }

    /// The word that the survivors lead back to from state 0.
    pub fn way_back(&self, survivors: &[u8], info: usize) -> Vec<u8> {
        let mut state = 0;
        let mut inputs: Vec<u8> = survivors
            .chunks(1 << self.width)
            .rev()
            .map(|row| {
                let input = (state >> (self.width - 1)) as u8;
                state = usize::from(row[state]);
                input
            })
            .collect();
        inputs.reverse();
        inputs.truncate(info);
        inputs
    }
}

#[cfg(test)]
mod tests {
    use super::*;

    fn after(info: usize, readings: &[f32]) -> AfterBlock {
        let bytes: Vec<u8> = readings.iter().flat_map(|reading| reading.to_le_bytes()).collect();
        decode(0, 0, info, &bytes, &[9; 4], &[9; 200])
    }

    #[test]
    fn the_bench_sheet() {
        assert_eq!(after(1, &[-1.0]).out, [1, 9, 9, 9]);
        assert_eq!(after(1, &[-1.0]).answer, 0x3F80_0000);
        assert_eq!(after(1, &[-1.0, 1.0]).out, [0, 9, 9, 9]);
        assert_eq!(after(3, &[]).out, [0, 0, 0, 9]);
        let mut eleven = [0.0; 11];
        eleven[10] = f32::NAN;
        assert_eq!(after(1, &eleven).answer, 0);
        eleven[9] = f32::NAN;
        assert_eq!(after(1, &eleven).answer, 6 << 32 | 9);
    }

    #[test]
    fn what_lies_beyond_stays() {
        let after = after(1, &[]);
        assert_eq!(after.scratch[5 * 16..], [9; 120]);
        // Only state 0 is there before the first step.
        assert_eq!(after.scratch[..16], [0; 16]);
    }
}
