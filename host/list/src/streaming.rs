//! The lines of the streaming decoder. Each has the whole record before and after, so that one line can begin where
//! another ended.

pub mod inputs;

use crate::line::{Line, bytes, lent, number};
use expected::refused;
use expected::streaming::{Decoder, Heard, Record, Symbol};

/// So many symbols at most are on one line, which keeps it well within the room that `answers` has for a line.
const ON_A_LINE: usize = 2000;

/// `n`: a fresh record.
pub fn fresh_line() -> Line {
    Line {
        call: "n".to_string(),
        answer: format!("n {}", record(&Record::fresh())),
    }
}

/// `t`: the record before, the components' bytes; an answer for each symbol, the record after. A longer stream goes over
/// several lines.
pub fn feed_lines(decoder: &mut Decoder, symbols: &[Symbol]) -> Vec<Line> {
    symbols
        .chunks(ON_A_LINE)
        .map(|symbols| feed_line(decoder, symbols))
        .collect()
}

fn feed_line(decoder: &mut Decoder, symbols: &[Symbol]) -> Line {
    let before = record(decoder.record());
    let given: Vec<u8> = symbols.iter().flatten().flat_map(|x| x.to_le_bytes()).collect();
    let answers: String = symbols
        .iter()
        .map(|symbol| format!(" {:x}", answer(decoder.feed(*symbol))))
        .collect();
    let after = record(decoder.record());
    Line {
        call: format!("t {before} {}", bytes(&given)),
        answer: format!("t{answers} {after}"),
    }
}

/// A bit as it is, 2 for nothing, or refusal 7 and its place as a door says them.
fn answer(heard: Heard) -> u64 {
    match heard {
        Heard::Bit(bit) => u64::from(bit),
        Heard::Nothing => 2,
        Heard::Refused { place } => refused(7) + u64::from(place),
    }
}

/// `u`: a flush. The record before, the length of out; the answer, out after the call, the record after.
pub fn flush_line(decoder: &mut Decoder, room: usize) -> Line {
    let before = record(decoder.record());
    let flushed = decoder.flush(&lent(room));
    let after = record(decoder.record());
    Line {
        call: format!("u {before} {room:x}"),
        answer: format!("u {} {} {after}", number(flushed.answer), bytes(&flushed.out)),
    }
}

/// The metrics' bytes, the history, the two counters.
fn record(record: &Record) -> String {
    spelt(&record.bytes())
}

/// A record's bytes, of which the first 64 are the metrics' and the last two the counters.
pub fn spelt(record: &[u8]) -> String {
    let (metrics, rest) = record.split_at(64);
    let (history, counters) = rest.split_at(rest.len() - 2);
    let (metrics, history) = (bytes(metrics), bytes(history));
    format!("{metrics} {history} {:02x} {:02x}", counters[0], counters[1])
}

#[cfg(test)]
mod tests {
    use super::*;

    #[test]
    fn symbols_and_their_answers() {
        let mut decoder = Decoder::fresh();
        let fresh = record(&Record::fresh());
        let lines = feed_lines(&mut decoder, &[[f32::NAN, 0.0], [1.0, f32::INFINITY]]);
        assert_eq!(lines[0].call, format!("t {fresh} 0000c07f000000000000803f0000807f"));
        assert_eq!(lines[0].answer, format!("t 700000000 700000001 {fresh}"));
        let lines = feed_lines(&mut decoder, &[[1.0, 0.0]; 33]);
        assert!(lines[0].answer.starts_with(&format!("t{} 0 ", " 2".repeat(32))));
        assert!(lines[0].answer.ends_with(" 21 21"));
    }

    #[test]
    fn a_long_stream_goes_over_several_lines() {
        let lines = feed_lines(&mut Decoder::fresh(), &[[0.3, 0.1]; 2 * ON_A_LINE + 1]);
        assert_eq!(lines.len(), 3);
        let before = lines[2].call.rsplit_once(' ').map(|(record, _)| &record[2..]).unwrap();
        assert!(lines[1].answer.ends_with(before));
        assert!(lines.iter().all(|line| line.call.len() < 131_072));
    }

    #[test]
    fn a_flush_and_its_answer() {
        let mut decoder = Decoder::fresh();
        let fresh = record(&Record::fresh());
        let line = flush_line(&mut decoder, 0);
        assert_eq!(
            (line.call, line.answer),
            (format!("u {fresh} 0"), format!("u 0000000400000000 - {fresh}"))
        );
        let line = flush_line(&mut decoder, 32);
        assert!(line.answer.starts_with("u 0000000000000000 (a5*20) "));
        let line = flush_line(&mut decoder, 33);
        assert!(line.answer.starts_with("u 0000000000000020 (00*20)a5 "));
    }
}
