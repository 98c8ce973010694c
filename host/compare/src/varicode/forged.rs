//! Lines of forged writers and readers, which the oracle cannot have: what is expected of them is by 01's rules alone.

use expected::Random;
use expected::varicode::{BITS, CHARS, ReaderRecord};
use list::line::Line;
use list::varicode::{ReaderLine, WriterLine, inputs};

const RECORDS: usize = 3000;

/// So many steps at most are taken from one record.
const STEPS: usize = 12;

/// Of each record one call alone, and several.
pub fn writers(random: &mut Random) -> Vec<Line> {
    let mut lines = Vec::new();
    for at in 0..RECORDS {
        let record = inputs::writer(random);
        lines.push(call(WriterLine::forged(record.clone()), at % 4, random).line());
        let steps = 1 + random.below(STEPS);
        let line = (0..steps).fold(WriterLine::forged(record), |line, _| {
            call(line, random.below(4), random)
        });
        lines.push(line.line());
    }
    lines
}

fn call(line: WriterLine, kind: usize, random: &mut Random) -> WriterLine {
    match kind {
        0 => line.open(amount(random)),
        1 => line.close(amount(random)),
        2 => line.byte(random.number() as u8),
        _ => line.take(1 + random.below(3) * random.below(BITS)),
    }
}

fn amount(random: &mut Random) -> u64 {
    match random.below(5) {
        0 => random.number(),
        1 => random.below(BITS + 2) as u64,
        _ => random.below(12) as u64,
    }
}

/// The same of a reader's records: zeros, which end words, ones, and bits above 1.
pub fn readers(forged: fn(&mut Random) -> ReaderRecord, random: &mut Random) -> Vec<Line> {
    let mut lines = Vec::new();
    for at in 0..RECORDS {
        let record = forged(random);
        lines.push(step(ReaderLine::forged(record.clone()), at % 4, random).line());
        let steps = 1 + random.below(STEPS);
        let line = (0..steps).fold(ReaderLine::forged(record), |line, _| {
            step(line, random.below(4), random)
        });
        lines.push(line.line());
    }
    lines
}

fn step(line: ReaderLine, kind: usize, random: &mut Random) -> ReaderLine {
    match kind {
        0 => line.put(0),
        1 => line.put(1),
        2 => line.put([0, 2 + random.below(254) as u8][random.below(2)]),
        _ => line.take(1 + random.below(3) * random.below(CHARS)),
    }
}

#[cfg(test)]
mod tests {
    use super::*;

    /// The record before and the answer of a line of one call.
    fn alone(line: &Line, record: usize) -> (String, &str, String) {
        let call: Vec<&str> = line.call.split(' ').collect();
        let answer: Vec<&str> = line.answer.split(' ').collect();
        (call[1..=record].join(" "), answer[1], answer[2..].join(" "))
    }

    #[test]
    fn what_is_refused_leaves_the_record_and_other_calls_are_accepted() {
        let random = &mut Random::new(1);
        for (lines, record) in [
            (writers(random), 4),
            (readers(inputs::reader, random), 7),
            (readers(inputs::reader_for_pauses, random), 7),
        ] {
            let single = lines
                .iter()
                .step_by(2)
                .filter(|line| line.call.split(' ').count() == record + 2);
            let told: Vec<_> = single.map(|line| (line, alone(line, record))).collect();
            let one_answer = |line: &Line| line.answer.split(' ').count() == record + 2;
            let refused = told
                .iter()
                .filter(|(line, said)| one_answer(line) && said.1.ends_with("00000000"));
            assert!(refused.clone().count() > RECORDS / 50);
            assert!(refused.into_iter().all(|(_, (before, _, after))| before == after));
            assert!(told.iter().filter(|(_, said)| said.1 == "0").count() > RECORDS / 10);
            assert!(told.iter().any(|(_, said)| said.1 == "100"));
        }
    }
}
