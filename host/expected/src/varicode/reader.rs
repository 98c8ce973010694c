//! The two readers, as their records have them: one goes by the oracle, the one for pauses by request 2026-01.

use super::pauses::PauseReader;
use super::{CHARS, DONE, Ring};
use oracle::codec::varicode::{VaricodeDecoder, varicode_decode};

/// The length counts up to this.
const LONGEST: u8 = 11;

/// A reader's record, any of them.
#[derive(Debug, Clone, PartialEq, Eq)]
pub struct ReaderRecord {
    /// Whether it is for pauses.
    pub pauses: bool,
    /// The bits of the word that it is in, how many up to [`LONGEST`], and whether the last was a zero.
    pub shift: u16,
    pub len: u8,
    pub zero: bool,
    pub chars: Ring<CHARS>,
}

/// What stands beside a reader's record, and must answer as that does.
pub(super) enum Beside {
    /// The oracle, whose own queue is emptied at each bit.
    Oracle(VaricodeDecoder),
    /// Of the reader for pauses, which the oracle does not have, the request's words.
    Request(PauseReader),
    /// A forged record goes by the rules alone.
    Nothing,
}

/// A reader with room for [`CHARS`].
pub struct Reader {
    record: ReaderRecord,
    beside: Beside,
}

impl Default for Reader {
    fn default() -> Reader {
        Reader::new()
    }
}

impl Reader {
    pub fn new() -> Reader {
        Reader::fresh(false, Beside::Oracle(VaricodeDecoder::new()))
    }

    /// Two zeros or more end a word, and zeros before one are skipped.
    pub fn for_pauses() -> Reader {
        Reader::fresh(true, Beside::Request(PauseReader::default()))
    }

    pub fn forged(record: ReaderRecord) -> Reader {
        let beside = Beside::Nothing;
        Reader { record, beside }
    }

    pub(super) fn fresh(pauses: bool, beside: Beside) -> Reader {
        let record = ReaderRecord {
            pauses,
            shift: 0,
            len: 0,
            zero: false,
            chars: Ring::empty(),
        };
        Reader { record, beside }
    }

    pub fn record(&self) -> &ReaderRecord {
        &self.record
    }

    /// How many characters are not taken out yet.
    pub fn held(&self) -> usize {
        self.record.chars.held()
    }

    /// A received bit.
    pub fn put(&mut self, bit: u8) -> u8 {
        let brought = self.brought(bit);
        let answer = match bit {
            2.. => 8,
            _ if brought.is_some() && self.held() == CHARS => 9,
            _ => DONE,
        };
        if answer == DONE {
            self.hear(bit);
            if let Some(char) = brought {
                self.record.chars.put(&[char]);
            }
        }
        self.put_beside(bit, answer, brought);
        answer
    }

    fn put_beside(&mut self, bit: u8, answer: u8, brought: Option<u8>) {
        let held = self.held();
        match &mut self.beside {
            Beside::Oracle(oracle) if answer == DONE => {
                oracle.push_bit(bit);
                assert_eq!(oracle.pop_char(), brought, "the oracle's character");
            }
            Beside::Request(model) => {
                let after = (model.put(bit), model.held());
                assert_eq!(
                    after,
                    (answer, held),
                    "the request's answer, and how many characters it has then"
                );
            }
            Beside::Oracle(_) | Beside::Nothing => (),
        }
    }

    /// The next character, taken out.
    pub fn take(&mut self) -> Option<u8> {
        let char = self.record.chars.take();
        if let Beside::Request(model) = &mut self.beside {
            assert_eq!(model.take(), char, "the request's character");
        }
        char
    }

    /// A zero after a remembered zero ends the word; for pauses also one while nothing is heard: that ends the empty
    /// word, which is none, and so is skipped.
    fn ends(&self, bit: u8) -> bool {
        bit == 0 && (self.record.zero || self.record.pauses && self.len() == 0)
    }

    /// A length out of range is read modulo one more than its largest value.
    fn len(&self) -> u8 {
        self.record.len % (LONGEST + 1)
    }

    /// The character of the word that a bit ends, without the word's trailing zero.
    fn brought(&self, bit: u8) -> Option<u8> {
        let looked_up = || varicode_decode(self.record.shift >> 1, self.len().saturating_sub(1));
        self.ends(bit).then(looked_up).flatten()
    }

    fn hear(&mut self, bit: u8) {
        if self.ends(bit) {
            (self.record.shift, self.record.len, self.record.zero) = (0, 0, false);
        } else {
            self.record.shift = self.record.shift << 1 | u16::from(bit);
            self.record.len = (self.len() + 1).min(LONGEST);
            self.record.zero = bit == 0;
        }
    }
}

#[cfg(test)]
mod tests {
    use super::*;

    fn read(bits: &str) -> Vec<u8> {
        let mut reader = Reader::new();
        for bit in bits.bytes().filter(|bit| *bit != b' ') {
            assert_eq!(reader.put(bit - b'0'), DONE);
        }
        std::iter::from_fn(|| reader.take()).collect()
    }

    #[test]
    fn the_reader_is_as_the_bench_sheet_says() {
        assert_eq!(read("11 00"), b"e");
        assert_eq!(read("0 11 00"), b"");
        assert_eq!(read("00 11 00"), b"e");
        assert_eq!(read("0 1010101011 00"), b"\0");
    }

    #[test]
    fn a_full_queue_of_characters_refuses_the_bit_that_ends_a_word_alone() {
        let mut reader = Reader::new();
        for _ in 0..CHARS {
            assert_eq!([1, 0, 0].map(|bit| reader.put(bit)), [DONE; 3]);
        }
        assert_eq!([1, 0, 0, 0, 2].map(|bit| reader.put(bit)), [DONE, DONE, 9, 9, 8]);
        assert_eq!((reader.take(), reader.put(0), reader.held()), (Some(b' '), DONE, 64));
    }

    #[test]
    fn a_forged_readers_length_is_read_modulo() {
        let chars = Ring {
            slots: [9; CHARS],
            head: 64,
            count: 65 + 64,
        };
        let record = ReaderRecord {
            pauses: false,
            shift: 0b110,
            len: 12 + 3,
            zero: true,
            chars,
        };
        let mut reader = Reader::forged(record.clone());
        assert_eq!((reader.put(2), reader.put(0)), (8, 9));
        assert_eq!(*reader.record(), record);
        assert_eq!((reader.take(), reader.record().len, reader.put(0)), (Some(9), 15, DONE));
        assert_eq!((reader.record().chars.slots[0], reader.record().len), (b'e', 0));
    }

    /// A forged record for pauses that has heard nothing, by its length, whatever else is in it.
    fn nothing_heard(len: u8, chars: Ring<CHARS>) -> ReaderRecord {
        ReaderRecord {
            pauses: true,
            shift: 0xABCD,
            len,
            zero: true,
            chars,
        }
    }

    #[test]
    fn a_forged_reader_for_pauses_skips_zeros_where_its_length_is_read_as_0() {
        let chars = Ring {
            slots: [9; CHARS],
            head: 100,
            count: 64,
        };
        for (len, zero) in [(0, true), (12, false), (240, true), (252, false)] {
            let record = ReaderRecord {
                zero,
                ..nothing_heard(len, chars.clone())
            };
            let mut reader = Reader::forged(record);
            assert_eq!((reader.put(2), reader.put(0)), (8, DONE));
            let after = reader.record();
            assert_eq!(
                (after.shift, after.len, after.zero, &after.chars),
                (0, 0, false, &chars)
            );
        }
    }

    #[test]
    fn a_1_joins_what_a_forged_reader_for_pauses_holds() {
        let mut reader = Reader::forged(nothing_heard(24, Ring::empty()));
        assert_eq!(reader.put(1), DONE);
        let after = reader.record();
        assert_eq!((after.shift, after.len, after.zero), (0x579B, 1, false));
    }

    #[test]
    fn a_forged_reader_for_pauses_ends_a_word_as_the_old_one_does() {
        for pauses in [false, true] {
            let record = ReaderRecord {
                pauses,
                shift: 0b110,
                len: 12 + 3,
                ..nothing_heard(0, Ring::empty())
            };
            let mut reader = Reader::forged(record);
            assert_eq!(
                (reader.put(0), reader.take(), reader.record().pauses),
                (DONE, Some(b'e'), pauses)
            );
        }
    }
}
