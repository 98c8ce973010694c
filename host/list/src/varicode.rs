//! The lines of Varicode. A writer's or a reader's line grows step by step: each step is run on what is expected, and its
//! answers are written.

use crate::line::{Line, bytes, run};
use expected::varicode::{Reader, ReaderRecord, Ring, Writer, WriterRecord, hits, spelled, word};
use std::fmt::Write;

/// What a queue that is empty answers: no byte.
const NOTHING: u64 = 0x100;

/// `v`: a byte; its word and its word's length.
pub fn word_line(byte: u8) -> Line {
    let (bits, len) = word(byte);
    Line {
        call: format!("v {byte:02x}"),
        answer: format!("v {bits:04x} {len:02x}"),
    }
}

/// `d`: a length; every value that is a word of it, with its byte.
pub fn lookup_line(len: u8) -> Line {
    let hits = hits(len).into_iter();
    let said: String = hits.map(|(bits, byte)| format!(" {bits:04x} {byte:02x}")).collect();
    Line {
        call: format!("d {len:02x}"),
        answer: format!("d{said}"),
    }
}

/// `m`: a fresh writer's record, a fresh reader's, and that of a fresh reader for pauses.
pub fn fresh_line() -> Line {
    let writer = written(Writer::new().record());
    let [reader, for_pauses] = [Reader::new(), Reader::for_pauses()].map(|reader| read(reader.record()));
    Line {
        call: "m".to_string(),
        answer: format!("m {writer} {reader} {for_pauses}"),
    }
}

/// A writer's record: the slots, the head, the count, whether no byte was written.
fn written(record: &WriterRecord) -> String {
    format!("{} {}", ring(&record.bits), u8::from(record.first))
}

/// A reader's record: whether it is for pauses, the word's bits, its length, whether the last was a zero, the slots,
/// the head, the count.
fn read(record: &ReaderRecord) -> String {
    let (pauses, zero) = (u8::from(record.pauses), u8::from(record.zero));
    let (shift, len) = (record.shift, record.len);
    format!("{pauses} {shift:04x} {len:02x} {zero} {}", ring(&record.chars))
}

fn ring<const N: usize>(ring: &Ring<N>) -> String {
    format!("{} {:x} {:x}", bytes(&ring.slots), ring.head, ring.count)
}

/// A call that puts something: 0, or its refusal's number and place 0 as a door says them.
fn put(answer: u8) -> u64 {
    expected::refused(u64::from(answer))
}

fn taken(answer: Option<u8>) -> u64 {
    answer.map_or(NOTHING, u64::from)
}

/// The steps of a line and their answers. Bytes that follow each other are one step.
#[derive(Clone, Default)]
struct Steps {
    calls: String,
    answers: String,
    /// The letter of the last step, where that goes on with more bytes.
    on: Option<char>,
}

impl Steps {
    fn number(&mut self, letter: char, n: u64) {
        self.calls += &format!(" {letter}{n:x}");
        self.on = None;
    }

    /// Takes out so many times; none is no step.
    fn take(&mut self, letter: char, count: usize, mut next: impl FnMut() -> Option<u8>) {
        if count > 0 {
            self.number(letter, count as u64);
            (0..count).for_each(|_| self.answer(taken(next())));
        }
    }

    /// A byte so many times.
    fn byte(&mut self, letter: char, byte: u8, times: usize) {
        if self.on != Some(letter) {
            self.calls += &format!(" {letter}");
            self.on = Some(letter);
        }
        self.calls += &run(byte, times);
    }

    fn answer(&mut self, answer: u64) {
        write!(self.answers, " {answer:x}").expect("a string takes all");
    }

    /// The record before, the steps; the answers, the record after.
    fn line(&self, letter: char, before: &str, after: &str) -> Line {
        Line {
            call: format!("{letter} {before}{}", self.calls),
            answer: format!("{letter}{} {after}", self.answers),
        }
    }
}

/// `w`: a writer's record and what is done with it; the answers, and the record.
pub struct WriterLine {
    before: String,
    writer: Writer,
    steps: Steps,
}

impl Default for WriterLine {
    fn default() -> WriterLine {
        WriterLine::new()
    }
}

impl WriterLine {
    pub fn new() -> WriterLine {
        WriterLine::of(Writer::new())
    }

    pub fn forged(record: WriterRecord) -> WriterLine {
        WriterLine::of(Writer::forged(record))
    }

    fn of(writer: Writer) -> WriterLine {
        WriterLine {
            before: written(writer.record()),
            writer,
            steps: Steps::default(),
        }
    }

    /// How many bits are not taken out yet.
    pub fn held(&self) -> usize {
        self.writer.held()
    }

    pub fn open(mut self, n: u64) -> WriterLine {
        self.steps.number('o', n);
        self.steps.answer(put(self.writer.open(n)));
        self
    }

    pub fn byte(mut self, byte: u8) -> WriterLine {
        self.steps.byte('b', byte, 1);
        self.steps.answer(put(self.writer.byte(byte)));
        self
    }

    pub fn text(self, bytes: impl IntoIterator<Item = u8>) -> WriterLine {
        bytes.into_iter().fold(self, WriterLine::byte)
    }

    pub fn close(mut self, n: u64) -> WriterLine {
        self.steps.number('c', n);
        self.steps.answer(put(self.writer.close(n)));
        self
    }

    /// Takes so many bits out; where there are fewer, nothing comes.
    pub fn take(mut self, count: usize) -> WriterLine {
        self.steps.take('t', count, || self.writer.take());
        self
    }

    /// Takes every bit out, and once more.
    pub fn take_all(self) -> WriterLine {
        let count = self.held() + 1;
        self.take(count)
    }

    pub fn line(self) -> Line {
        self.steps.line('w', &self.before, &written(self.writer.record()))
    }
}

/// `r`: a reader's record and what is done with it; the answers, and the record.
pub struct ReaderLine {
    before: String,
    reader: Reader,
    steps: Steps,
}

impl Default for ReaderLine {
    fn default() -> ReaderLine {
        ReaderLine::new()
    }
}

impl ReaderLine {
    pub fn new() -> ReaderLine {
        ReaderLine::of(Reader::new())
    }

    pub fn for_pauses() -> ReaderLine {
        ReaderLine::of(Reader::for_pauses())
    }

    pub fn forged(record: ReaderRecord) -> ReaderLine {
        ReaderLine::of(Reader::forged(record))
    }

    fn of(reader: Reader) -> ReaderLine {
        ReaderLine {
            before: read(reader.record()),
            reader,
            steps: Steps::default(),
        }
    }

    /// How many characters are not taken out yet.
    pub fn held(&self) -> usize {
        self.reader.held()
    }

    pub fn put(self, bit: u8) -> ReaderLine {
        self.put_times(bit, 1)
    }

    /// The same bit once or more, written as a run where it is often.
    pub fn put_times(mut self, bit: u8, times: usize) -> ReaderLine {
        self.steps.byte('i', bit, times);
        (0..times).for_each(|_| self.steps.answer(put(self.reader.put(bit))));
        self
    }

    /// A byte's word, without a gap.
    pub fn word(self, byte: u8) -> ReaderLine {
        spelled(byte).into_iter().fold(self, ReaderLine::put)
    }

    /// Digits 0 and 1; spaces are left out.
    pub fn bits(self, digits: &str) -> ReaderLine {
        digits
            .bytes()
            .filter(|digit| *digit != b' ')
            .fold(self, |line, digit| line.put(digit - b'0'))
    }

    /// Takes so many characters out; where there are fewer, nothing comes.
    pub fn take(mut self, count: usize) -> ReaderLine {
        self.steps.take('p', count, || self.reader.take());
        self
    }

    /// Takes every character out, and once more.
    pub fn take_all(self) -> ReaderLine {
        let count = self.held() + 1;
        self.take(count)
    }

    pub fn line(self) -> Line {
        self.steps.line('r', &self.before, &read(self.reader.record()))
    }
}

pub mod inputs;

#[cfg(test)]
mod tests {
    use super::*;

    fn pair(line: Line) -> (String, String) {
        (line.call, line.answer)
    }

    fn strings(call: &str, answer: &str) -> (String, String) {
        (call.to_string(), answer.to_string())
    }

    #[test]
    fn words_and_lookups() {
        assert_eq!(pair(word_line(b'e')), strings("v 65", "v 0003 02"));
        assert_eq!(pair(word_line(200)), strings("v c8", "v 02ab 0a"));
        assert_eq!(pair(lookup_line(0)), strings("d 00", "d"));
        assert_eq!(pair(lookup_line(3)), strings("d 03", "d 0005 74 0007 6f"));
    }

    #[test]
    fn a_writer_and_a_reader() {
        assert_eq!(
            pair(WriterLine::new().text(*b"e ").open(257).take_all().line()),
            strings(
                "w (00*100) 0 0 1 b6520 o101 t6",
                "w 0 0 900000000 1 1 0 0 1 100 0101000001(00*fb) 5 0 0"
            )
        );
        assert_eq!(
            pair(ReaderLine::new().bits("11 00").put(2).take_all().line()),
            strings(
                "r 0 0000 00 0 (00*40) 0 0 i0101000002 p2",
                "r 0 0 0 0 800000000 65 100 0 0000 00 0 65(00*3f) 1 0"
            )
        );
    }

    #[test]
    fn a_reader_for_pauses() {
        assert_eq!(
            pair(
                ReaderLine::for_pauses()
                    .bits("0 11 0")
                    .put(0)
                    .put_times(0, 9)
                    .word(b't')
                    .take_all()
                    .line()
            ),
            strings(
                "r 1 0000 00 0 (00*40) 0 0 i0001010000(00*9)010001 p2",
                "r 0 0 0 0 0 0 0 0 0 0 0 0 0 0 0 0 0 65 100 1 0005 03 0 65(00*3f) 1 0"
            )
        );
    }
}
