//! Texts through the proved writer, and the very bits that it answers through the proved reader: the text must come out.
//! The reader for pauses goes the same way, from other openings and with other bits between.

use crate::answers::{answered, answers_to};
use crate::groups::Outcome;
use expected::Random;
use expected::varicode::{BITS, CHARS, Ring};
use list::line::{Line, bytes_of};
use list::varicode::{ReaderLine, WriterLine};

pub const TEXTS: usize = 10_000;
pub const LONGEST: usize = 2000;

/// So many texts of any bytes.
pub const ANY_TEXTS: usize = 1000;

/// So many texts go through the program at once.
const AT_ONCE: usize = 500;

/// The fields of a record that stand before a line's steps, and after its answers.
const WRITER_FIELDS: usize = 4;
pub const READER_FIELDS: usize = 7;

/// What a byte of 128 or above answers.
const HIGH_BYTE: usize = 11 << 32;

/// A word and its gap have so many bits at most.
const WORD: usize = 12;

pub fn outcome(random: &mut Random) -> Outcome {
    for turn in 0..TEXTS / AT_ONCE {
        let texts: Vec<Vec<u8>> = (0..AT_ONCE).map(|at| text(turn * AT_ONCE + at, random)).collect();
        relayed(&texts, &texts, random)?;
    }
    Ok(TEXTS as u64)
}

/// Of any bytes those that are refused leave no trace: the others come out as if they had not been there.
pub fn outcome_of_any_bytes(random: &mut Random) -> Outcome {
    for _ in 0..ANY_TEXTS / AT_ONCE {
        let texts: Vec<Vec<u8>> = (0..AT_ONCE).map(|_| any_text(random)).collect();
        let low = |text: &Vec<u8>| text.iter().copied().filter(|byte| *byte < 128).collect();
        relayed(&texts, &texts.iter().map(low).collect::<Vec<Vec<u8>>>(), random)?;
    }
    Ok(ANY_TEXTS as u64)
}

/// Texts through the writer, after an even opening, and through 01's reader: what is wanted of each must come out.
fn relayed(texts: &[Vec<u8>], wanted: &[Vec<u8>], random: &mut Random) -> Result<(), String> {
    let written = written(texts, even_opening, random)?;
    let lines = written
        .iter()
        .map(|bits| reader_line(ReaderLine::new(), bits.chunks(1), random));
    come_out(wanted, lines.collect())
}

/// The bits of each text, by the proved writer's answers, after the opening that is made for it.
pub fn written(
    texts: &[Vec<u8>],
    open: impl Fn(&mut Random) -> WriterLine,
    random: &mut Random,
) -> Result<Vec<Vec<u8>>, String> {
    let lines = texts.iter().map(|text| writer_line(text, &open, random));
    let answered = answered_lines(lines.collect())?;
    let bits = |(line, answer): &(Line, String)| taken(&line.call, WRITER_FIELDS, answer, "t");
    Ok(answered.iter().map(bits).collect())
}

/// Whether each text comes out of its line of a reader, by the proved reader's answers.
pub fn come_out(texts: &[Vec<u8>], lines: Vec<Line>) -> Result<(), String> {
    for (text, (line, answer)) in texts.iter().zip(answered_lines(lines)?) {
        let mut out = taken(&line.call, READER_FIELDS, &answer, "p");
        out.extend(left(&answer));
        if out != *text {
            return Err(format!("  the text {text:02x?}\n  comes out as {out:02x?}"));
        }
    }
    Ok(())
}

/// Bytes below 128: the first few texts are of lengths about the reader's queue and the longest, the others of any.
pub fn text(at: usize, random: &mut Random) -> Vec<u8> {
    let set = [0, 1, 2, CHARS - 1, CHARS, CHARS + 1, LONGEST - 1, LONGEST];
    let most = random.below(LONGEST + 1);
    let any = random.below(most + 1);
    let len = set.get(at).copied().unwrap_or(any);
    letters(len, random)
}

pub fn letters(len: usize, random: &mut Random) -> Vec<u8> {
    (0..len).map(|_| random.below(128) as u8).collect()
}

/// Any bytes, in some texts mostly below 128.
fn any_text(random: &mut Random) -> Vec<u8> {
    let len = random.below(LONGEST / 4);
    let seldom = 1 + random.below(20);
    let mut text = random.bytes(len);
    for byte in &mut text {
        if random.below(seldom) > 0 {
            *byte %= 128;
        }
    }
    text
}

fn even_opening(random: &mut Random) -> WriterLine {
    WriterLine::new().open(2 * random.below(BITS / 2 + 1) as u64)
}

/// An opening, the text and a closing, all of which fit, with bits taken out between them and at the end.
fn writer_line(text: &[u8], open: impl Fn(&mut Random) -> WriterLine, random: &mut Random) -> Line {
    let seldom = 2 + random.below(30);
    let mut line = open(random);
    for byte in text {
        while line.held() + WORD > BITS || random.below(seldom) == 0 {
            let count = random.below(line.held() + 1);
            line = line.take(count);
        }
        line = line.byte(*byte);
    }
    while line.held() + 2 > BITS {
        line = line.take(1 + random.below(BITS / 2));
    }
    let room = BITS - 2 - line.held();
    line = line.close(random.below(room + 1) as u64);
    let rest = line.held();
    line.take(rest).line()
}

/// Bits, as many as are equal at a time, with characters taken out between them, so that all fit.
pub fn reader_line<'a>(mut line: ReaderLine, equal: impl Iterator<Item = &'a [u8]>, random: &mut Random) -> Line {
    let seldom = 2 + random.below(1000);
    for bits in equal {
        while line.held() == CHARS || random.below(seldom) == 0 {
            let count = random.below(line.held() + 1);
            line = line.take(count);
        }
        line = line.put_times(bits[0], bits.len());
    }
    line.line()
}

/// Each line with the answer of the proved program, which is the one that is wanted.
pub fn answered_lines(lines: Vec<Line>) -> Result<Vec<(Line, String)>, String> {
    let got = answers_to(lines.iter().map(|line| line.call.as_str()))?;
    for (line, got) in lines.iter().zip(&got) {
        answered(line, got)?;
    }
    Ok(lines.into_iter().zip(got).collect())
}

/// What the steps of one letter took out, by the program's answer. No call was refused but for a byte of 128 or above,
/// and no queue was empty.
fn taken(call: &str, record: usize, answer: &str, letter: &str) -> Vec<u8> {
    let number = |digits| usize::from_str_radix(digits, 16).expect("a line is in hex");
    let mut answers = answer.split(' ').skip(1);
    let mut taken = Vec::new();
    for step in call.split(' ').skip(1 + record) {
        let (kind, rest) = step.split_at(1);
        let count = match kind {
            "o" | "c" => 1,
            "b" | "i" if rest.contains('(') => bytes_of(rest).len(),
            "b" | "i" => rest.len() / 2,
            _ => number(rest),
        };
        let said = answers.by_ref().take(count).map(number);
        if kind == letter {
            taken.extend(said.map(|byte| u8::try_from(byte).expect("something is taken out")));
        } else {
            let accepted = |answer| answer == 0 || kind == "b" && answer == HIGH_BYTE;
            said.for_each(|answer| assert!(accepted(answer), "every call is accepted, but for a high byte"));
        }
    }
    taken
}

/// The characters that are left inside, by the record at an answer's end.
fn left(answer: &str) -> Vec<u8> {
    let mut fields = answer.rsplit(' ');
    let mut number = || u64::from_str_radix(fields.next().expect("a record's field"), 16).expect("hex");
    let (count, head) = (number(), number());
    let slots: [u8; CHARS] = bytes_of(fields.next().expect("the slots"))
        .try_into()
        .expect("64 of them");
    Ring { slots, head, count }.inside()
}

#[cfg(test)]
mod tests {
    use super::*;

    #[test]
    fn what_is_taken_out_and_what_is_left_are_told_apart() {
        let start = ReaderLine::for_pauses().bits("11").put_times(0, 9).take(1);
        let line = start.bits("101 00 1 00").take(1).bits("1111 00").line();
        assert_eq!(taken(&line.call, READER_FIELDS, &line.answer, "p"), b"et");
        assert_eq!(left(&line.answer), b" n");
    }

    #[test]
    fn bits_are_put_in_whole_whatever_is_taken_out_between() {
        let random = &mut Random::new(1);
        let bits = [1, 0, 0].repeat(1000);
        for line in [
            reader_line(ReaderLine::new(), bits.chunks(1), random),
            reader_line(ReaderLine::for_pauses(), bits.chunk_by(|a, b| a == b), random),
        ] {
            let mut out = taken(&line.call, READER_FIELDS, &line.answer, "p");
            out.extend(left(&line.answer));
            assert_eq!(out, b" ".repeat(1000));
        }
    }
}
