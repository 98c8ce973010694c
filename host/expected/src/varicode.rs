//! Varicode: the words, the writer and the two readers. The oracle's queues grow without end; that a call's bits or
//! character fit in the port's, and what is left of a record, is decided here, by 01's words. The reader for pauses,
//! which the oracle does not have, is by request 2026-01; that the writer refuses bytes of 128 and above, which the
//! oracle writes as byte 0, by request 2026-03.

mod pauses;
mod reader;
mod ring;

use oracle::codec::varicode::{VaricodeEncoder, varicode_decode, varicode_encode};
pub use reader::{Reader, ReaderRecord};
pub use ring::Ring;

/// How many bits the writer's queue holds, and how many characters a reader's.
pub const BITS: usize = 256;
pub const CHARS: usize = 64;

/// What a call that puts something answers where it is accepted; else it answers the refusal's number.
pub const DONE: u8 = 0;

/// A byte's word and its length.
pub fn word(byte: u8) -> (u16, u8) {
    varicode_encode(byte)
}

/// The bits of a byte's word, the first one first.
pub fn spelled(byte: u8) -> Vec<u8> {
    let (bits, len) = word(byte);
    (0..len).rev().map(|at| (bits >> at & 1) as u8).collect()
}

/// Every value that is a word of this length, with its byte, in rising order.
pub fn hits(len: u8) -> Vec<(u16, u8)> {
    (0..=u16::MAX)
        .filter_map(|bits| varicode_decode(bits, len).map(|byte| (bits, byte)))
        .collect()
}

/// A writer's record, any of them.
#[derive(Debug, Clone, PartialEq, Eq)]
pub struct WriterRecord {
    pub bits: Ring<BITS>,
    /// Whether no byte was written since the start or the last opening.
    pub first: bool,
}

/// A writer with room for [`BITS`]. One that is reached from a fresh one has the oracle beside it, whose bits must be the
/// same; a forged one, which the oracle cannot have, goes by 01's rules alone.
pub struct Writer {
    record: WriterRecord,
    oracle: Option<VaricodeEncoder>,
}

impl Default for Writer {
    fn default() -> Writer {
        Writer::new()
    }
}

impl Writer {
    pub fn new() -> Writer {
        Writer {
            record: WriterRecord {
                bits: Ring::empty(),
                first: true,
            },
            oracle: Some(VaricodeEncoder::new()),
        }
    }

    pub fn forged(record: WriterRecord) -> Writer {
        Writer { record, oracle: None }
    }

    pub fn record(&self) -> &WriterRecord {
        &self.record
    }

    /// How many bits are not taken out yet.
    pub fn held(&self) -> usize {
        self.record.bits.held()
    }

    /// An opening of `n` zeros.
    pub fn open(&mut self, n: u64) -> u8 {
        if !self.fits(0, n) {
            return 9;
        }
        if let Some(oracle) = &mut self.oracle {
            oracle.push_preamble(n as usize);
        }
        self.record.first = true;
        self.puts(0, &vec![0; n as usize])
    }

    /// A byte. Of 128 or above it is refused before room is looked at, and the oracle, which would take it, is not called.
    pub fn byte(&mut self, byte: u8) -> u8 {
        if byte >= 128 {
            return 11;
        }
        let word = spelled(byte);
        let gap = self.gap();
        if !self.fits(gap, word.len() as u64) {
            return 9;
        }
        if let Some(oracle) = &mut self.oracle {
            oracle.push_byte(byte);
        }
        self.record.first = false;
        self.puts(gap, &word)
    }

    /// A closing of `n` ones.
    pub fn close(&mut self, n: u64) -> u8 {
        let gap = self.gap();
        if !self.fits(gap, n) {
            return 9;
        }
        if let Some(oracle) = &mut self.oracle {
            oracle.push_postamble(n as usize);
        }
        self.puts(gap, &vec![1; n as usize])
    }

    /// The next bit, taken out.
    pub fn take(&mut self) -> Option<u8> {
        let bit = self.record.bits.take();
        if let Some(oracle) = &mut self.oracle {
            assert_eq!(oracle.next_bit(), bit, "the oracle's bit");
        }
        bit
    }

    /// How many zeros come before a word or a closing.
    fn gap(&self) -> usize {
        if self.record.first { 0 } else { 2 }
    }

    fn fits(&self, gap: usize, n: u64) -> bool {
        (self.held() + gap) as u128 + u128::from(n) <= BITS as u128
    }

    fn puts(&mut self, gap: usize, bits: &[u8]) -> u8 {
        self.record.bits.put(&vec![0; gap]);
        self.record.bits.put(bits);
        DONE
    }
}

#[cfg(test)]
mod tests {
    use super::*;

    fn taken(writer: &mut Writer) -> String {
        std::iter::from_fn(|| writer.take())
            .map(|bit| char::from(b'0' + bit))
            .collect()
    }

    #[test]
    fn hi_is_as_the_bench_sheet_says() {
        let mut writer = Writer::new();
        assert_eq!((writer.byte(b'h'), writer.byte(b'i')), (DONE, DONE));
        assert_eq!(taken(&mut writer), "101011001101");
    }

    #[test]
    fn a_full_queue_of_bits_refuses_and_changes_nothing() {
        let mut writer = Writer::new();
        assert_eq!(writer.open(u64::MAX), 9);
        assert_eq!((writer.open(256), writer.open(1), writer.byte(b' ')), (DONE, 9, 9));
        assert_eq!((writer.open(0), writer.close(0), writer.held()), (DONE, DONE, 256));
        assert_eq!((writer.take(), writer.byte(b' '), writer.close(0)), (Some(0), DONE, 9));
        assert_eq!(taken(&mut writer), format!("{}1", "0".repeat(255)));
    }

    #[test]
    fn accented_letters_are_refused_with_or_without_room_and_leave_no_trace() {
        let mut writer = Writer::new();
        let said: Vec<u8> = "été".bytes().map(|byte| writer.byte(byte)).collect();
        assert_eq!(said, [11, 11, DONE, 11, 11]);
        assert_eq!(taken(&mut writer), "101");
        assert_eq!((writer.open(256), writer.byte(127), writer.byte(128)), (DONE, 9, 11));
    }

    #[test]
    fn forged_heads_and_counts_are_read_modulo() {
        let bits = Ring {
            slots: std::array::from_fn(|at| at as u8),
            head: 256 + 254,
            count: 257 + 3,
        };
        let mut writer = Writer::forged(WriterRecord { bits, first: false });
        assert_eq!([(); 4].map(|()| writer.take()), [Some(254), Some(255), Some(0), None]);
        assert_eq!((writer.record().bits.head, writer.record().bits.count), (1, 0));
    }

    #[test]
    fn what_is_refused_and_an_empty_queue_leave_a_forged_record_as_it_came() {
        let (head, count) = (u64::MAX, 257 * 5);
        let bits = Ring {
            slots: [7; BITS],
            head,
            count,
        };
        let mut writer = Writer::forged(WriterRecord { bits, first: true });
        let before = writer.record().clone();
        assert_eq!((writer.take(), writer.open(257), writer.close(u64::MAX)), (None, 9, 9));
        assert_eq!(*writer.record(), before);
        assert_eq!((writer.close(0), writer.record().bits.head), (DONE, 255));
    }
}
