//! Wanted answers that were made wrong, in each place in turn: the comparison must see every one.

use crate::answers::damage_is_seen;
use crate::groups::Groups;
use expected::Random;
use expected::streaming::{Decoder, LAG};
use list::decoder::{block_line, signed_line};
use list::line::Line;
use list::streaming::inputs::noisy;
use list::streaming::{feed_lines, flush_line, fresh_line};
use list::symbols::{hard_line, soft_line, survivors};
use list::varicode::{self, ReaderLine, WriterLine, lookup_line, word_line};

/// So many symbols bring some bits.
const COUNT: usize = 40;

pub fn run(groups: &mut Groups, random: &mut Random) {
    groups.report(
        "the comparison, which must see each wanted answer that is made wrong: every digit, a field more, a field less",
        damage_is_seen(&lines(random), damages),
    );
}

/// A line of each kind.
fn lines(random: &mut Random) -> Vec<Line> {
    let decoder = &mut Decoder::fresh();
    let mut lines = feed_lines(decoder, &noisy(COUNT, random));
    lines.extend([
        flush_line(decoder, LAG + 1),
        fresh_line(),
        word_line(b'e'),
        lookup_line(0),
        lookup_line(10),
        varicode::fresh_line(),
        WriterLine::new().text(*b"hi").byte(0xe9).open(300).take(12).line(),
        ReaderLine::new().bits("11 00").put(2).take(2).line(),
        ReaderLine::for_pauses().bits("0 11 000").put(2).take(2).line(),
        soft_line(&[0.5; 9], 5, survivors(4) + 1),
        hard_line(&[1; 8], 4, survivors(4)),
        block_line(0, 0, 1, &[0, 0, 0x80, 0xBF], 2, 81),
        signed_line(0, 0, 1, &[-1], 2, 81),
    ]);
    lines
}

/// The same call, with each digit of its answer another, with a field more and with the last field less.
fn damages(line: &Line) -> Vec<Line> {
    let digits = line.answer.bytes().enumerate().skip(1);
    let digits = digits.filter(|(_, digit)| digit.is_ascii_hexdigit());
    let mut answers: Vec<String> = digits.map(|(at, _)| turned(&line.answer, at)).collect();
    answers.push(format!("{} 0", line.answer));
    answers.extend(line.answer.rsplit_once(' ').map(|(less, _)| less.to_string()));
    let damaged = |answer| Line {
        call: line.call.clone(),
        answer,
    };
    answers.into_iter().map(damaged).collect()
}

fn turned(answer: &str, at: usize) -> String {
    let other = if &answer[at..=at] == "0" { "1" } else { "0" };
    format!("{}{other}{}", &answer[..at], &answer[at + 1..])
}
