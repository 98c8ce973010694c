//! Texts through the proved writer, more zeros put into their gaps, and all that through the proved reader for pauses:
//! exactly the text must come out.

use super::super::joined::{LONGEST, come_out, letters, reader_line, text, written};
use crate::groups::Outcome;
use expected::Random;
use expected::varicode::BITS;
use list::varicode::{ReaderLine, WriterLine};

const TEXTS: usize = 300;

/// So many texts go through the program at once.
const AT_ONCE: usize = 100;

/// A text's gaps get up to so many zeros more.
const MORE: [usize; 7] = [0, 1, 2, 3, 10, 30, 100];

/// The longest texts, with so many zeros between all letters, after each of these openings, or none.
pub const EQUAL: [usize; 3] = [3, 4, 100];
const OPENINGS: [Option<u64>; 6] = [None, Some(0), Some(1), Some(2), Some(255), Some(256)];

/// Any opening or none, and any pauses.
pub fn outcome(random: &mut Random) -> Outcome {
    for turn in 0..TEXTS / AT_ONCE {
        let texts: Vec<Vec<u8>> = (0..AT_ONCE).map(|at| text(turn * AT_ONCE + at, random)).collect();
        through(&texts, any_opening, any_pauses, random)?;
    }
    Ok(TEXTS as u64)
}

/// The same pause between all letters.
pub fn equal_pauses(random: &mut Random) -> Outcome {
    for opening in OPENINGS {
        let texts: Vec<Vec<u8>> = EQUAL.map(|_| letters(LONGEST, random)).to_vec();
        for (zeros, text) in EQUAL.into_iter().zip(texts) {
            through(
                &[text],
                |_| opened(opening),
                |bits, _| stretched(bits, || zeros - 2),
                random,
            )?;
        }
    }
    Ok((OPENINGS.len() * EQUAL.len()) as u64)
}

/// Whether each text comes out, after the opening that is made for it, and with its bits stretched.
fn through(
    texts: &[Vec<u8>],
    open: impl Fn(&mut Random) -> WriterLine,
    stretch: impl Fn(&[u8], &mut Random) -> Vec<u8>,
    random: &mut Random,
) -> Result<(), String> {
    let bits = written(texts, open, random)?;
    let lines = bits.iter().map(|bits| {
        let bits = stretch(bits, random);
        reader_line(ReaderLine::for_pauses(), bits.chunk_by(|a, b| a == b), random)
    });
    come_out(texts, lines.collect())
}

fn opened(opening: Option<u64>) -> WriterLine {
    opening.map_or(WriterLine::new(), |zeros| WriterLine::new().open(zeros))
}

fn any_opening(random: &mut Random) -> WriterLine {
    let zeros = random.below(BITS + 1) as u64;
    opened((random.below(4) > 0).then_some(zeros))
}

fn any_pauses(bits: &[u8], random: &mut Random) -> Vec<u8> {
    let most = MORE[random.below(MORE.len())];
    stretched(bits, || random.below(most + 1))
}

/// The bits with so many zeros more at the end of each run of two zeros or more: no word has one, so it is a gap or an
/// opening.
fn stretched(bits: &[u8], mut more: impl FnMut() -> usize) -> Vec<u8> {
    let mut out = Vec::new();
    for run in bits.chunk_by(|a, b| a == b) {
        out.extend(run);
        if run.starts_with(&[0, 0]) {
            out.extend(vec![0; more()]);
        }
    }
    out
}

#[cfg(test)]
mod tests {
    use super::*;

    #[test]
    fn gaps_and_openings_of_two_zeros_are_stretched_and_nothing_else() {
        let mut zeros = 0..;
        let out = stretched(&[0, 1, 0, 1, 0, 0, 1, 1, 0, 0, 1, 0, 0], || zeros.next().unwrap());
        assert_eq!(out, [0, 1, 0, 1, 0, 0, 1, 1, 0, 0, 0, 1, 0, 0, 0, 0]);
        assert_eq!(stretched(&[0, 0, 0, 1], || 2), [0, 0, 0, 0, 0, 1]);
        assert_eq!(stretched(&[], || 2), []);
    }

    #[test]
    fn openings_are_odd_and_even_and_missing() {
        let random = &mut Random::new(1);
        let starts: Vec<String> = (0..3000).map(|_| any_opening(random).line().call).collect();
        for opening in [" o0", " o1", " o2", " off", " o100", " 1"] {
            assert!(starts.iter().any(|call| call.ends_with(opening)), "{opening}");
        }
    }

    #[test]
    fn pauses_are_of_up_to_a_hundred_zeros_more() {
        let random = &mut Random::new(1);
        let gaps = [1, 0, 0].repeat(20);
        let longest = (0..2000).map(|_| any_pauses(&gaps, random));
        let longest = longest.map(|bits| bits.chunk_by(|a, b| a == b).map(<[u8]>::len).max());
        let longest: Vec<Option<usize>> = longest.collect();
        assert!([2, 3, 4, 102].iter().all(|zeros| longest.contains(&Some(*zeros))));
        assert_eq!(longest.iter().max(), Some(&Some(102)));
    }
}
