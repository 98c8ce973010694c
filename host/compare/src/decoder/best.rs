//! Demand 3 by trying every word: the word that the door gives has the best score, is the first among equals by the
//! tie rule, carries that score, and stays when readings move towards it. Codewords are the oracle's, and for number 2
//! those of the standard's sequences.

use super::call::bytes;
use crate::groups::Outcome;
use expected::decoder::{survivors, width};
use expected::encoder::{coded_len, encode};
use expected::{CODES, RATES, Random};
use relay_coder::{Refusal, doors};

/// Every word up to this many bits is tried against the door's.
pub const ALL_BITS: usize = 10;

/// How many lists of readings each length gets.
const LISTS: usize = 400;

/// A word, its codeword, and the states that it passes through, last step first.
struct Word {
    bits: Vec<u8>,
    sent: Vec<u8>,
    states: Vec<u32>,
}

/// A door that is tried, on whole readings.
pub struct Tried {
    pub entry: &'static str,
    /// How large the readings of a list are at most.
    pub largest: fn(&mut Random) -> i32,
    /// The word and the score that the door gives, by code, rate, info count and readings.
    pub door: fn(u8, u8, usize, &[i32]) -> Heard,
}

/// A word and its score, or the refusal of what should be accepted.
pub type Heard = Result<(Vec<u8>, f64), Refusal>;

/// The decoder of f32s.
pub const FLOATS: Tried = Tried {
    entry: "decode",
    largest: |random| random.below(4) as i32,
    door: floats,
};

pub fn every_word(tried: &Tried, random: &mut Random) -> Outcome {
    let mut cases = 0;
    for (code, _) in CODES {
        for (rate, _) in RATES {
            for info in 0..=ALL_BITS {
                let words = words(code, rate, info);
                for _ in 0..LISTS {
                    let most = (tried.largest)(random);
                    let readings = readings(most, coded_len(code, rate, info) as usize, random);
                    let door = |readings: &[i32]| (tried.door)(code, rate, info, readings);
                    compare(door, &words, &readings, random).map_err(|why| {
                        let entry = tried.entry;
                        format!("  {entry} code {code} rate {rate} info {info}, readings {readings:?}\n  {why}")
                    })?;
                    cases += 1;
                }
            }
        }
    }
    Ok(cases)
}

fn words(code: u8, rate: u8, info: usize) -> Vec<Word> {
    let room = coded_len(code, rate, info) as usize;
    let words = (0..1u32 << info).map(|word| (0..info).map(|at| (word >> at & 1) as u8).collect());
    words
        .map(|bits: Vec<u8>| Word {
            sent: encode(code, rate, &bits, &vec![0; room]).out,
            states: states(code, &bits),
            bits,
        })
        .collect()
}

fn states(code: u8, bits: &[u8]) -> Vec<u32> {
    let width = width(code);
    let mut state = 0;
    let mut passed: Vec<u32> = bits
        .iter()
        .chain(&vec![0; width])
        .map(|bit| {
            state = state >> 1 | u32::from(*bit) << (width - 1);
            state
        })
        .collect();
    passed.reverse();
    passed
}

/// Whole numbers, of which those of few values make many words tie; as many as are used, fewer, or more.
fn readings(most: i32, coded: usize, random: &mut Random) -> Vec<i32> {
    let len = match random.below(4) {
        0 => random.below(coded + 1),
        1 => coded + random.below(4),
        _ => coded,
    };
    (0..len)
        .map(|_| random.below(2 * most as usize + 1) as i32 - most)
        .collect()
}

/// Over the kept places the reading where the codeword has 0, and its negative where it has 1.
fn score(word: &Word, readings: &[i32]) -> i32 {
    let places = word.sent.iter().zip(readings);
    places
        .map(|(bit, reading)| if *bit == 0 { *reading } else { -*reading })
        .sum()
}

fn best<'a>(words: &'a [Word], readings: &[i32]) -> &'a Word {
    let scored = words.iter().map(|word| (-score(word, readings), &word.states, word));
    scored
        .min_by(|one, other| (one.0, one.1).cmp(&(other.0, other.1)))
        .map(|(_, _, word)| word)
        .expect("there is a word")
}

fn compare(
    door: impl Fn(&[i32]) -> Heard,
    words: &[Word],
    readings: &[i32],
    random: &mut Random,
) -> Result<(), String> {
    let best = best(words, readings);
    let door = |readings: &[i32]| door(readings).map_err(|refusal| refusal.to_string());
    let (bits, got) = door(readings)?;
    if bits != best.bits {
        return Err(format!("the best word is {:?}, the door gives {bits:?}", best.bits));
    }
    let must = f64::from(score(best, readings));
    if got != must {
        return Err(format!("its score is {must}, the door says {got}"));
    }
    let moved = towards(best, readings, random);
    let (bits, _) = door(&moved)?;
    if bits != best.bits {
        return Err(format!("moved towards {:?}, {moved:?} give {bits:?}", best.bits));
    }
    Ok(())
}

/// Some readings raised where the word codes 0 and lowered where it codes 1, missing ones among them; none beyond what
/// a signed byte holds.
fn towards(word: &Word, readings: &[i32], random: &mut Random) -> Vec<i32> {
    let missing = word.sent.len().saturating_sub(readings.len());
    let mut moved = readings.to_vec();
    moved.extend(vec![0; missing]);
    for (reading, bit) in moved.iter_mut().zip(&word.sent) {
        let by = random.below(3) as i32;
        *reading = (*reading + if *bit == 0 { by } else { -by }).clamp(-127, 127);
    }
    moved
}

/// A zero reading is of either sign.
fn floats(code: u8, rate: u8, info: usize, readings: &[i32]) -> Heard {
    let list: Vec<f32> = readings
        .iter()
        .enumerate()
        .map(|(at, reading)| {
            if *reading == 0 && at % 2 == 0 {
                -0.0
            } else {
                *reading as f32
            }
        })
        .collect();
    let (mut out, mut scratch) = (vec![0; info], vec![0; survivors(code, info)]);
    let answer = doors::decode(code, rate, info, &bytes(&list), &mut out, &mut scratch);
    let score = relay_coder::score(answer)?;
    Ok((out, f64::from(score)))
}
