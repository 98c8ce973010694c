//! The block decoders of symbols. The word is the oracle's; the survivors, which the oracle keeps to itself, are those of
//! its arithmetic run again here, by 01's rules and from none of the proved code.

use crate::decoder::AfterBlock;
use crate::{INFO_LIMIT, refused};
use oracle::codec::psk31;

/// The largest size of a component.
const MOST: f32 = 1024.0;
pub(crate) const STATES: usize = 16;
/// A state is reachable when its metric is below this.
pub const MARK: f32 = f32::MAX / 2.0;
const TAPS: [u32; 2] = [0b10101, 0b10011];
const PHASORS: [(f32, f32); 4] = [(1.0, 0.0), (0.0, -1.0), (0.0, 1.0), (-1.0, 0.0)];

/// `viterbi_decode`, for buffers as they are before the call.
pub fn decode(soft: &[f32], out: &[u8], scratch: &[u8]) -> AfterBlock {
    let used = &soft[..soft.len() / 2 * 2];
    let why = no_room(used.len() / 2, out, scratch).or(first_bad(used).map(|place| refused(7) + place as u64));
    after(why, used, psk31::viterbi_decode, out, scratch)
}

/// `viterbi_decode_hard`, for buffers as they are before the call.
pub fn decode_hard(bits: &[u8], out: &[u8], scratch: &[u8]) -> AfterBlock {
    let hard = |_: &[f32]| psk31::viterbi_decode_hard(bits);
    after(
        no_room(bits.len() / 2, out, scratch),
        &phasors_of(bits),
        hard,
        out,
        scratch,
    )
}

/// The phasors of coded bits, re and im in turn; only the lowest bit of each byte counts.
pub fn phasors_of(bits: &[u8]) -> Vec<f32> {
    let pairs = bits.chunks_exact(2);
    let points = pairs.map(|pair| PHASORS[usize::from(pair[0] % 2 * 2 + pair[1] % 2)]);
    points.flat_map(|(re, im)| [re, im]).collect()
}

/// The place of the first component that refusal 7 is for.
pub(crate) fn first_bad(components: &[f32]) -> Option<usize> {
    components.iter().position(|x| x.is_nan() || x.abs() > MOST)
}

/// The first of the refusals 3, 4 and 5 that is due.
fn no_room(count: usize, out: &[u8], scratch: &[u8]) -> Option<u64> {
    let short = [count > INFO_LIMIT, out.len() < count, scratch.len() < STATES * count];
    short.iter().position(|due| *due).map(|at| refused(3 + at as u64))
}

fn after(why: Option<u64>, soft: &[f32], word: impl Fn(&[f32]) -> Vec<u8>, out: &[u8], scratch: &[u8]) -> AfterBlock {
    let (mut out, mut scratch) = (out.to_vec(), scratch.to_vec());
    let answer = why.unwrap_or_else(|| {
        let (rerun, survivors) = run(soft);
        assert_eq!(rerun, word(soft), "the arithmetic run again is not the oracle's");
        out[..rerun.len()].copy_from_slice(&rerun);
        scratch[..survivors.len()].copy_from_slice(&survivors);
        rerun.len() as u64
    });
    AfterBlock { answer, out, scratch }
}

/// The word and the survivors.
fn run(soft: &[f32]) -> (Vec<u8>, Vec<u8>) {
    let mut metrics = started();
    let mut survivors = Vec::new();
    for symbol in soft.chunks_exact(2) {
        let next = step(&metrics, symbol[0], symbol[1]);
        metrics = next.map(|new| new.0);
        survivors.extend(next.map(|new| new.1.unwrap_or(0)));
    }
    let mut state = first_least(&metrics);
    let mut word: Vec<u8> = survivors
        .chunks(STATES)
        .rev()
        .map(|row| {
            let input = (state >> 3) as u8;
            state = usize::from(row[state]);
            input
        })
        .collect();
    word.reverse();
    (word, survivors)
}

/// The metrics before the first symbol.
pub(crate) fn started() -> [f32; STATES] {
    let mut metrics = [MARK; STATES];
    metrics[0] = 0.0;
    metrics
}

/// The metric of each state after a symbol, and its survivor where a candidate won.
pub(crate) fn step(metrics: &[f32; STATES], re: f32, im: f32) -> [(f32, Option<u8>); STATES] {
    let mut next = [(MARK, None); STATES];
    for state in (0..STATES).filter(|state| metrics[*state] < MARK) {
        for input in [0, 1] {
            let window = input << 4 | state;
            let [first, second] = TAPS.map(|taps| (taps & window as u32).count_ones() % 2);
            let (e, f) = PHASORS[(2 * first + second) as usize];
            let candidate = metrics[state] + ((re - e) * (re - e) + (im - f) * (im - f));
            let new = &mut next[window >> 1];
            if candidate < new.0 {
                *new = (candidate, Some(state as u8));
            }
        }
    }
    next
}

/// The first state with the least metric; the search starts at state 0.
pub(crate) fn first_least(metrics: &[f32; STATES]) -> usize {
    let smaller = |least, state| if metrics[state] < metrics[least] { state } else { least };
    (1..STATES).fold(0, smaller)
}

#[cfg(test)]
mod tests {
    use super::*;

    #[test]
    fn the_bench_sheet() {
        let next = f32::from_bits(MOST.to_bits() + 1);
        assert_eq!(decode(&[MOST, -MOST], &[9], &[9; 16]).answer, 1);
        assert_eq!(decode(&[0.0, next], &[9], &[9; 16]).answer, 7 << 32 | 1);
        assert_eq!(decode(&[0.0, 0.0, next], &[9], &[9; 16]).answer, 1);
    }

    #[test]
    fn a_clean_word_comes_back() {
        let word = [1, 0, 1, 1, 0, 0, 1];
        assert_eq!(
            decode_hard(&psk31::conv_encode(&word), &[9; 8], &[9; 200]).out[..7],
            word
        );
    }
}
