//! The reader for pauses by the words of request 2026-01, apart from any record: a word is a list of bits, as long as
//! it comes, and is looked up among the 128 as they are spelled. Refusals 8 and 9 are decided here, too.

use super::{DONE, spelled};
use std::collections::{HashMap, VecDeque};
use std::sync::LazyLock;

/// So many characters are kept until they are taken out.
const ROOM: usize = 64;

/// Each word's character. None of them has more than ten bits, so that a longer one gives nothing.
static WORDS: LazyLock<HashMap<Vec<u8>, u8>> = LazyLock::new(|| (0..128).map(|byte| (spelled(byte), byte)).collect());

#[derive(Default)]
pub struct PauseReader {
    /// The word from its first 1 on, and behind it the first zero of a gap; empty while nothing is heard.
    heard: Vec<u8>,
    chars: VecDeque<u8>,
}

impl PauseReader {
    /// How many characters are not taken out yet.
    pub fn held(&self) -> usize {
        self.chars.len()
    }

    /// A received bit: done, or the refusal's number.
    pub fn put(&mut self, bit: u8) -> u8 {
        match bit {
            0 if self.heard.is_empty() => DONE,
            0 if self.heard.ends_with(&[0]) => self.end(),
            0 | 1 => self.join(bit),
            _ => 8,
        }
    }

    /// The next character, taken out.
    pub fn take(&mut self) -> Option<u8> {
        self.chars.pop_front()
    }

    fn join(&mut self, bit: u8) -> u8 {
        self.heard.push(bit);
        DONE
    }

    /// The second zero of a gap, whose first is no part of the word.
    fn end(&mut self) -> u8 {
        let (_, word) = self.heard.split_last().expect("a zero is heard");
        if let Some(char) = WORDS.get(word) {
            if self.chars.len() == ROOM {
                return 9;
            }
            self.chars.push_back(*char);
        }
        self.heard.clear();
        DONE
    }
}

/// Of the model, and of the record that stands beside it in a fresh reader for pauses.
#[cfg(test)]
mod tests {
    use super::super::CHARS;
    use super::super::reader::{Beside, Reader};
    use super::*;

    /// What comes of digits 0 and 1, all accepted: for each its character, or '-' for none. Spaces are left out.
    fn heard(mut reader: Reader, digits: &str) -> String {
        let bits = digits.bytes().filter(|digit| *digit != b' ').map(|digit| digit - b'0');
        let after = |bit| {
            assert_eq!(reader.put(bit), DONE);
            reader.take().map_or('-', char::from)
        };
        bits.map(after).collect()
    }

    fn read(digits: &str) -> String {
        heard(Reader::for_pauses(), digits)
    }

    /// What the old reader and the one for pauses make of digits, without the places.
    fn both(digits: &str) -> [String; 2] {
        [Reader::new(), Reader::for_pauses()].map(|reader| heard(reader, digits).replace('-', ""))
    }

    /// One whose queue is full of spaces.
    fn full() -> Reader {
        let mut reader = Reader::for_pauses();
        for _ in 0..CHARS {
            assert_eq!([1, 0, 0].map(|bit| reader.put(bit)), [DONE; 3]);
        }
        reader
    }

    /// The last character inside, with all taken out.
    fn last(mut reader: Reader) -> Option<u8> {
        std::iter::from_fn(|| reader.take()).last()
    }

    #[test]
    fn every_word_has_one_to_ten_bits_ones_at_its_ends_and_no_gap_inside() {
        assert_eq!(WORDS.len(), 128);
        for word in WORDS.keys() {
            assert!(word.len() <= 10 && word.windows(2).all(|two| two != [0, 0]));
            assert_eq!((word.first(), word.last()), (Some(&1), Some(&1)));
        }
    }

    #[test]
    fn the_requests_example() {
        assert_eq!(read("0 11 00"), "----e");
        assert_eq!(both("0 11 00"), ["", "e"]);
        assert_eq!(both("11 00"), ["e", "e"]);
    }

    #[test]
    fn two_zeros_or_more_end_a_word_and_the_second_brings_its_character() {
        assert_eq!(read("11 000 11 00"), "---e----e");
        assert_eq!(read("11 0000 11"), "---e----");
        let hundred = format!("11 {} 101 00", "0".repeat(100));
        assert_eq!(read(&hundred), format!("---e{}t", "-".repeat(102)));
        assert_eq!(both("1 000 1 00"), [" ", "  "]);
    }

    #[test]
    fn zeros_before_a_word_are_skipped_be_they_odd_or_even() {
        for opening in 0..=300 {
            let (zeros, nothing) = ("0".repeat(opening), "-".repeat(opening));
            assert_eq!(read(&zeros), nothing);
            assert_eq!(read(&format!("{zeros} 11 00")), format!("{nothing}---e"));
        }
    }

    #[test]
    fn what_is_no_word_and_a_word_over_ten_bits_give_nothing_in_either_reader() {
        for before in ["1", "101", "11", "1101", "101010", "1111111", &"1".repeat(30)] {
            for word in ["1010101011", "1011011011", "1110110101"] {
                assert_eq!(both(&format!("{before}{word} 00 11 00")), ["e", "e"]);
            }
        }
        for ones in 10..=40 {
            assert_eq!(both(&format!("{} 00 11 00", "1".repeat(ones))), ["e", "e"]);
        }
    }

    #[test]
    fn a_full_queue_refuses_the_ending_zero_until_there_is_room() {
        let mut reader = full();
        let answers = [0, 1, 1, 0, 0, 0, 2].map(|bit| reader.put(bit));
        assert_eq!(answers, [DONE, DONE, DONE, DONE, 9, 9, 8]);
        assert_eq!((reader.take(), reader.held()), (Some(b' '), CHARS - 1));
        assert_eq!((reader.put(0), reader.held()), (DONE, CHARS));
        assert_eq!((reader.put(0), reader.held()), (DONE, CHARS));
        assert_eq!(last(reader), Some(b'e'));
    }

    #[test]
    fn a_1_after_a_refused_zero_joins() {
        let mut reader = full();
        assert_eq!([1, 0, 0, 1, 0].map(|bit| reader.put(bit)), [DONE, DONE, 9, DONE, DONE]);
        assert_eq!((reader.take(), reader.put(0)), (Some(b' '), DONE));
        assert_eq!(last(reader), Some(b't'));
    }

    #[test]
    fn what_gives_nothing_needs_no_room() {
        let mut reader = full();
        for bit in [&[0; 3][..], &[1; 11], &[0; 5]].concat() {
            assert_eq!((reader.put(bit), reader.held()), (DONE, CHARS));
        }
    }

    /// A fresh record for pauses, or not, beside a model that has heard some bits.
    fn apart(pauses: bool, bits: &[u8]) -> Reader {
        let mut model = PauseReader::default();
        bits.iter().for_each(|bit| assert_eq!(model.put(*bit), DONE));
        Reader::fresh(pauses, Beside::Request(model))
    }

    #[test]
    #[should_panic(expected = "the request's answer")]
    fn a_record_that_skips_no_zero_is_found_out() {
        heard(apart(false, &[]), "0 11 00");
    }

    #[test]
    #[should_panic(expected = "the request's character")]
    fn a_record_that_brings_another_character_is_found_out() {
        heard(apart(true, &[1]), "1 00");
    }
}
