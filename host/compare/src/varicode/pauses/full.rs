//! Lines of the reader for pauses whose queue is full when a word ends.

use expected::varicode::CHARS;
use list::line::Line;
use list::varicode::ReaderLine;

/// The zero that ends a word is refused so often.
const REFUSED: [usize; 4] = [1, 2, 3, 100];

/// For every word.
pub fn lines() -> Vec<Line> {
    (0..128).flat_map(lines_of).collect()
}

fn lines_of(byte: u8) -> Vec<Line> {
    let mut lines: Vec<Line> = REFUSED.map(|refused| ended(byte, refused)).to_vec();
    lines.extend([twice(byte), gone_on(byte), gone_on_at_once(byte)]);
    lines
}

/// Refused zeros, the zero that ends the word once there is room, and zeros behind it, which are skipped.
fn ended(byte: u8, refused: usize) -> Line {
    let line = at_the_gap(byte).put_times(0, refused).take(1);
    line.put(0).put_times(0, refused).take_all().line()
}

/// The queue is full again, and the word comes again.
fn twice(byte: u8) -> Line {
    let line = at_the_gap(byte).put(0).put(2).take(1).put(0);
    let line = line.put_times(0, 3).word(byte).put_times(0, 4);
    line.take(2)
        .put(0)
        .put_times(0, 2)
        .word(byte)
        .put_times(0, 2)
        .take_all()
        .line()
}

/// A 1 after refused zeros joins, and the word that it makes is ended when there is room.
fn gone_on(byte: u8) -> Line {
    let line = at_the_gap(byte).put_times(0, 2).put(1).put(0);
    line.take(1).put(0).put_times(0, 2).take_all().line()
}

/// The same, ended while there is none: refused where it is a word, else skipped.
fn gone_on_at_once(byte: u8) -> Line {
    let line = at_the_gap(byte).put(0).put(1).put_times(0, 3);
    line.take(1).put_times(0, 2).take_all().line()
}

/// A full queue that begins at a place of its own in the array, zeros, the word, and the first zero of its gap.
fn at_the_gap(byte: u8) -> ReaderLine {
    let before = usize::from(byte) % CHARS;
    let round = spaces(ReaderLine::for_pauses(), before).take(before);
    spaces(round, CHARS).put_times(0, 1 + before).word(byte).put(0)
}

fn spaces(line: ReaderLine, count: usize) -> ReaderLine {
    (0..count).fold(line, |line, _| line.word(b' ').put_times(0, 2))
}

#[cfg(test)]
mod tests {
    use super::*;

    /// How often a line is refused with 9, and its last character that is taken out.
    fn told(line: Line) -> (usize, u8) {
        let answers: Vec<&str> = line.answer.split(' ').collect();
        let refused = answers.iter().filter(|answer| **answer == "900000000").count();
        // Before the record's seven fields stands "nothing".
        let [last, "100"] = answers[answers.len() - 9..answers.len() - 7] else {
            panic!("the queue is not emptied: {}", line.answer)
        };
        (refused, u8::from_str_radix(last, 16).expect("a character"))
    }

    #[test]
    fn a_word_is_refused_so_often_and_comes_then() {
        for byte in 0..128 {
            for refused in REFUSED {
                assert_eq!(told(ended(byte, refused)), (refused, byte));
            }
            assert_eq!(told(twice(byte)), (4, byte));
        }
    }

    #[test]
    fn what_a_1_joins_is_another_word_or_none() {
        // 1 0 1 is a t, 11 0 1 an i; 1010101011 0 1 is too long, and the space before it comes last.
        assert_eq!(
            [b' ', b'e', 0].map(|byte| told(gone_on(byte))),
            [(2, b't'), (2, b'i'), (2, b' ')]
        );
        assert_eq!(told(gone_on_at_once(b' ')), (3, b't'));
        assert_eq!(told(gone_on_at_once(0)), (1, b' '));
    }
}
