//! Random lines of the reader for pauses.

use super::super::reader::take_some;
use expected::Random;
use expected::varicode::spelled;
use list::line::Line;
use list::varicode::ReaderLine;

const LINES: usize = 250;
const PIECES: usize = 200;

/// A word that is too long has so many bits.
const TOO_LONG: std::ops::RangeInclusive<usize> = 11..=40;

/// Bits, whole words and such as are too long with pauses behind them, bits above 1; a line takes out seldom, so that
/// its queue fills up, or often.
pub fn random_lines(random: &mut Random) -> Vec<Line> {
    (0..LINES).map(|_| random_line(random)).collect()
}

fn random_line(random: &mut Random) -> Line {
    let taken = random.below(12);
    let pieces = (0..PIECES).fold(ReaderLine::for_pauses(), |line, _| {
        take_some(random_piece(line, random), taken, random)
    });
    pieces.take_all().line()
}

fn random_piece(line: ReaderLine, random: &mut Random) -> ReaderLine {
    match random.below(8) {
        0 => random.bits(10).into_iter().fold(line, ReaderLine::put),
        1 => line.put(2 + random.below(254) as u8),
        2 => too_long(random)
            .into_iter()
            .fold(line, ReaderLine::put)
            .put_times(0, pause(random)),
        _ => line.word(random.below(128) as u8).put_times(0, pause(random)),
    }
}

/// Two zeros at least, mostly few, and up to 121.
fn pause(random: &mut Random) -> usize {
    2 + match random.below(4) {
        0 => 0,
        1 => random.below(3),
        2 => random.below(20),
        _ => random.below(120),
    }
}

/// Bits of which no two zeros are side by side, more than any word has; of every other one the last ten are a word's.
fn too_long(random: &mut Random) -> Vec<u8> {
    let ten: Vec<Vec<u8>> = (0..128).map(spelled).filter(|word| word.len() == 10).collect();
    let end = [vec![1], ten[random.below(ten.len())].clone()][random.below(2)].clone();
    let len = TOO_LONG.start() + random.below(TOO_LONG.count());
    let mut word = vec![1];
    while word.len() + end.len() < len {
        let joins = random.below(2) as u8;
        word.push(if word.ends_with(&[0]) { 1 } else { joins });
    }
    word.extend(end);
    word
}

#[cfg(test)]
mod tests {
    use super::*;

    #[test]
    fn random_lines_are_refused_and_go_on_and_have_long_pauses() {
        let lines = random_lines(&mut Random::new(1));
        for what in [
            " 800000000 ",
            " 900000000 ",
            " 900000000 900000000 ",
            " 900000000 20 ",
            " 100 0 ",
        ] {
            assert!(lines.iter().any(|line| line.answer.contains(what)), "{what}");
        }
        for pause in ["(00*8)", "(00*64)", "(00*79)"] {
            assert!(lines.iter().any(|line| line.call.contains(pause)), "{pause}");
        }
    }

    #[test]
    fn words_that_are_too_long_have_no_gap_and_any_length_and_end_as_words_do() {
        let random = &mut Random::new(2);
        let words: Vec<Vec<u8>> = (0..2000).map(|_| too_long(random)).collect();
        for word in &words {
            assert!(TOO_LONG.contains(&word.len()) && word.windows(2).all(|two| two != [0, 0]));
            assert_eq!((word.first(), word.last()), (Some(&1), Some(&1)));
        }
        for len in TOO_LONG {
            assert!(words.iter().any(|word| word.len() == len), "{len}");
        }
        for byte in (0..128).filter(|byte| spelled(*byte).len() == 10) {
            assert!(words.iter().any(|word| word.ends_with(&spelled(byte))), "{byte}");
        }
    }
}
