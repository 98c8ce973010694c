//! The streaming decoder of symbols, by 01's rules and from none of the proved code. A record that is reached from a
//! fresh one has the oracle beside it, whose answers must be the same; a forged one, which the oracle cannot have, goes
//! by the rules alone.

use crate::symbols::{MARK, STATES, first_bad, first_least, phasors_of, started, step};
use crate::{After, refused};
use oracle::codec::conv_encode;
use oracle::codec::psk31::{DQPSK_EXP, StreamingViterbi};

/// So many symbols late a bit comes.
pub const LAG: usize = 32;
const ROWS: usize = 128;
/// What every reachable metric of a record that is reached from a fresh one stays below: 2^30.
const BOUND: f32 = (1 << 30) as f32;
/// Spells every NaN, since no rule tells one from another.
const NAN: u32 = 0x7FC0_0000;

/// A symbol's components, re and im.
pub type Symbol = [f32; 2];

/// The symbols of bits: the phasors of the plain K5 codeword. A stream has no limit, so neither has this.
pub fn sent(bits: &[u8]) -> Vec<Symbol> {
    let components = phasors_of(&conv_encode(bits));
    components.chunks_exact(2).map(|pair| [pair[0], pair[1]]).collect()
}

/// What a symbol answers; a refusal is number 7.
#[derive(Debug, Clone, Copy, PartialEq, Eq)]
pub enum Heard {
    Bit(u8),
    Nothing,
    Refused { place: u8 },
}

impl Heard {
    pub fn bit(self) -> Option<u8> {
        match self {
            Heard::Bit(bit) => Some(bit),
            _ => None,
        }
    }
}

/// The record that the core passes by value, any of them.
#[derive(Debug, Clone)]
pub struct Record {
    pub metrics: [f32; STATES],
    pub history: [[u8; STATES]; ROWS],
    /// The symbols so far, up to one more than the lag.
    pub count: u8,
    /// The symbols so far mod 256.
    pub turn: u8,
}

impl Record {
    pub fn fresh() -> Record {
        Record {
            metrics: started(),
            history: [[0; STATES]; ROWS],
            count: 0,
            turn: 0,
        }
    }

    /// The metrics' bytes, low first, then the history and the counters.
    pub fn bytes(&self) -> Vec<u8> {
        let spelt = |metric: &f32| if metric.is_nan() { NAN } else { metric.to_bits() }.to_le_bytes();
        let mut bytes: Vec<u8> = self.metrics.iter().flat_map(spelt).collect();
        bytes.extend(self.history.as_flattened());
        bytes.extend([self.count, self.turn]);
        bytes
    }

    /// `feed_symbol`; a refusal leaves the record as it came.
    pub fn feed(&mut self, symbol: Symbol) -> Heard {
        if let Some(place) = first_bad(&symbol) {
            return Heard::Refused { place: place as u8 };
        }
        self.advance(symbol);
        if usize::from(self.count) <= LAG {
            Heard::Nothing
        } else {
            Heard::Bit(self.bit_behind())
        }
    }

    /// `flush`, for an `out` as it is before the call.
    pub fn flush(&mut self, out: &[u8]) -> After {
        if out.len() < LAG {
            return After::refusal(4, out);
        }
        let bits: Vec<u8> = (0..LAG).filter_map(|_| self.feed([0.0, 0.0]).bit()).collect();
        After::written(&bits, out)
    }

    fn advance(&mut self, [re, im]: Symbol) {
        let next = step(&self.metrics, re, im);
        self.metrics = next.map(|new| new.0);
        let row = &mut self.history[usize::from(self.turn) % ROWS];
        for (entry, (_, survivor)) in row.iter_mut().zip(next) {
            *entry = survivor.unwrap_or(*entry);
        }
        if self.turn == 255 {
            self.normalise();
        }
        let largest = LAG as u8 + 1;
        self.count = (self.count % (largest + 1) + 1).min(largest);
        self.turn = self.turn.wrapping_add(1);
    }

    fn normalise(&mut self) {
        let least = self.reachable().fold(MARK, f32::min);
        if least > 0.0 {
            for metric in self.metrics.iter_mut().filter(|metric| **metric < MARK) {
                *metric -= least;
            }
        }
    }

    fn reachable(&self) -> impl Iterator<Item = f32> {
        self.metrics.into_iter().filter(|metric| *metric < MARK)
    }

    /// The top bit of the state that lies the lag behind the first least one. The last symbol's row is the one before
    /// that which is written next.
    fn bit_behind(&self) -> u8 {
        let last = usize::from(self.turn) + ROWS - 1;
        let rows = (0..LAG).map(|back| self.history[(last - back) % ROWS]);
        let state = rows.fold(first_least(&self.metrics), |state, row| {
            usize::from(row[state]) % STATES
        });
        (state >> 3) as u8
    }

    fn assert_bounded(&self) {
        for metric in self.reachable() {
            assert!((0.0..BOUND).contains(&metric), "a reachable metric is {metric}");
        }
    }
}

/// A record in use, and the oracle beside it where it is reached from a fresh one.
pub struct Decoder {
    record: Record,
    oracle: Option<StreamingViterbi>,
}

impl Decoder {
    pub fn fresh() -> Decoder {
        Decoder {
            record: Record::fresh(),
            oracle: Some(StreamingViterbi::new(&DQPSK_EXP)),
        }
    }

    pub fn forged(record: Record) -> Decoder {
        Decoder { record, oracle: None }
    }

    pub fn record(&self) -> &Record {
        &self.record
    }

    /// `feed_symbol`. What is refused the oracle does not get.
    pub fn feed(&mut self, symbol: Symbol) -> Heard {
        let heard = self.record.feed(symbol);
        if let (Some(oracle), Heard::Bit(_) | Heard::Nothing) = (&mut self.oracle, heard) {
            let bit = oracle.feed_symbol(symbol[0], symbol[1]);
            assert_eq!(heard.bit(), bit, "what the model hears is not the oracle's");
            self.record.assert_bounded();
        }
        heard
    }

    /// `flush`, for an `out` as it is before the call.
    pub fn flush(&mut self, out: &[u8]) -> After {
        let mut on_the_way = self.record.clone();
        let after = self.record.flush(out);
        if let (Some(oracle), true) = (&mut self.oracle, after.answer < refused(1)) {
            let written = After::written(&oracle.flush(), out);
            assert_eq!(after, written, "what the model flushes is not the oracle's");
            for _ in 0..LAG {
                on_the_way.feed([0.0, 0.0]);
                on_the_way.assert_bounded();
            }
        }
        after
    }
}

#[cfg(test)]
mod tests {
    use super::*;
    use crate::Random;

    const COUNTS: [usize; 13] = [0, 1, 31, 32, 33, 127, 128, 129, 255, 256, 257, 513, 3000];

    /// The record and the oracle, each by itself, from a fresh start: the stream, two flushes, the stream again and
    /// a flush.
    fn same_as_the_oracle(symbols: &[Symbol]) {
        let (mut record, mut oracle) = (Record::fresh(), StreamingViterbi::new(&DQPSK_EXP));
        for flushes in [2, 1] {
            for (at, [re, im]) in symbols.iter().enumerate() {
                let heard = record.feed([*re, *im]);
                assert!(!matches!(heard, Heard::Refused { .. }), "symbol {at} is refused");
                assert_eq!(heard.bit(), oracle.feed_symbol(*re, *im), "symbol {at}");
            }
            for _ in 0..flushes {
                assert_eq!(record.flush(&[9; 40]), After::written(&oracle.flush(), &[9; 40]));
            }
        }
    }

    fn each_count(component: impl Fn(&mut Random) -> f32) {
        let random = &mut Random::new(1);
        for count in COUNTS {
            let symbols: Vec<Symbol> = (0..count).map(|_| [component(random), component(random)]).collect();
            same_as_the_oracle(&symbols);
        }
    }

    #[test]
    fn random_streams_are_the_oracles() {
        each_count(|random| random.below(2001) as f32 / 800.0 - 1.25);
    }

    #[test]
    fn streams_with_many_ties_are_the_oracles() {
        each_count(|random| random.below(3) as f32 - 1.0);
        each_count(|_| 0.0);
        each_count(|_| -1.0);
    }

    #[test]
    fn streams_at_the_limit_are_the_oracles() {
        each_count(|random| [1024.0, -1024.0][random.below(2)]);
        each_count(|_| 1024.0);
    }

    #[test]
    fn streams_of_every_size_are_the_oracles() {
        each_count(|random| {
            let size = 2f32.powi(random.below(161) as i32 - 150);
            [size, -size][random.below(2)]
        });
    }

    #[test]
    fn a_clean_word_comes_back_late() {
        let word = Random::new(2).bits(300);
        let mut decoder = Decoder::fresh();
        let mut heard: Vec<u8> = sent(&word)
            .into_iter()
            .filter_map(|symbol| decoder.feed(symbol).bit())
            .collect();
        assert_eq!(heard.len(), 300 - LAG);
        heard.extend(decoder.flush(&[9; LAG]).out);
        assert_eq!(heard, word);
    }

    #[test]
    fn a_flush_writes_as_many_bits_as_there_were_symbols() {
        for (count, written) in [(0, 0), (1, 1), (31, 31), (32, 32), (40, 32)] {
            let mut decoder = Decoder::fresh();
            for _ in 0..count {
                decoder.feed([0.5, -1.0]);
            }
            let before = decoder.record().bytes();
            assert_eq!(decoder.flush(&[9; LAG - 1]), After::refusal(4, &[9; LAG - 1]));
            assert_eq!(decoder.record().bytes(), before);
            let after = decoder.flush(&[9; 40]);
            assert_eq!(after.answer, written as u64);
            assert!(after.out[written..].iter().all(|byte| *byte == 9));
            assert_eq!(decoder.flush(&[9; 40]).answer, 32);
        }
    }

    #[test]
    fn a_refusal_keeps_the_record() {
        let mut decoder = Decoder::fresh();
        for _ in 0..40 {
            assert!(!matches!(decoder.feed([1024.0, -1024.0]), Heard::Refused { .. }));
        }
        let before = decoder.record().bytes();
        let next = f32::from_bits(1024f32.to_bits() + 1);
        for bad in [f32::NAN, f32::INFINITY, f32::NEG_INFINITY, next, -next] {
            assert_eq!(decoder.feed([bad, 0.0]), Heard::Refused { place: 0 });
            assert_eq!(decoder.feed([0.0, bad]), Heard::Refused { place: 1 });
            assert_eq!(decoder.feed([bad, bad]), Heard::Refused { place: 0 });
        }
        assert_eq!(decoder.record().bytes(), before);
    }

    #[test]
    fn a_record_as_bytes() {
        let bytes = Record::fresh().bytes();
        assert_eq!(bytes.len(), 2114);
        assert_eq!(
            bytes[..12],
            [0, 0, 0, 0, 0xFF, 0xFF, 0xFF, 0x7E, 0xFF, 0xFF, 0xFF, 0x7E]
        );
        assert!(bytes[64..].iter().all(|byte| *byte == 0));
        let mut record = Record::fresh();
        record.metrics[15] = -f32::NAN;
        record.history[127][15] = 7;
        (record.count, record.turn) = (3, 4);
        assert_eq!(record.bytes()[60..64], [0, 0, 0xC0, 0x7F]);
        assert_eq!(record.bytes()[2111..], [7, 3, 4]);
    }

    /// No state can be reached, and every entry leads to the last state.
    fn forged(count: u8, turn: u8) -> Record {
        Record {
            metrics: [f32::NAN; STATES],
            history: [[0xFF; STATES]; ROWS],
            count,
            turn,
        }
    }

    #[test]
    fn forged_counters_are_read_modulo() {
        for (count, heard, after) in [
            (31, Heard::Nothing, 32),
            (32, Heard::Bit(1), 33),
            (33, Heard::Bit(1), 33),
            (34, Heard::Nothing, 1),
            (66, Heard::Bit(1), 33),
            (67, Heard::Bit(1), 33),
            (68, Heard::Nothing, 1),
            (255, Heard::Nothing, 18),
        ] {
            let mut record = forged(count, 255);
            assert_eq!(record.feed([0.0, 0.0]), heard);
            assert_eq!((record.count, record.turn), (after, 0));
            assert_eq!(
                (record.metrics, record.history),
                ([MARK; STATES], [[0xFF; STATES]; ROWS])
            );
        }
        assert_eq!(forged(255, 0).flush(&[9; 32]).answer, 17);
    }

    #[test]
    fn forged_survivors_are_read_modulo() {
        for (survivor, bit) in [(0x78, 1), (0x77, 0), (0x10, 0), (0x18, 1)] {
            let mut record = forged(33, 0);
            record.history = [[survivor; STATES]; ROWS];
            assert_eq!(record.feed([0.0, 0.0]), Heard::Bit(bit));
        }
    }

    #[test]
    fn an_entry_that_no_candidate_wins_keeps_its_content() {
        let mut record = forged(0, 130);
        record.metrics[5] = f32::NEG_INFINITY;
        record.feed([1.0, 0.0]);
        let mut row = [0xFF; STATES];
        (row[2], row[10]) = (5, 5);
        assert_eq!((record.history[2], record.history[3]), (row, [0xFF; STATES]));
        assert_eq!(record.metrics[10], f32::NEG_INFINITY);
        assert_eq!(record.metrics[11], MARK);
    }

    #[test]
    fn only_a_least_metric_above_0_is_subtracted() {
        for (metric, turn, after) in [
            (5.0, 254, 6.0),
            (5.0, 255, 0.0),
            (-1.0, 255, 0.0),
            (-5.0, 255, -4.0),
            (MARK, 255, MARK),
            (f32::from_bits(MARK.to_bits() - 1), 255, 0.0),
        ] {
            let mut record = forged(0, turn);
            record.metrics = [metric; STATES];
            record.feed([0.0, 0.0]);
            assert_eq!(record.metrics, [after; STATES], "{metric} at {turn}");
        }
    }
}
