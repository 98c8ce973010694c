//! Lines that are no calls: the program must say so of each, by words that answer no call.

use crate::answers::output_of;
use crate::groups::{Groups, Outcome};
use expected::Random;
use list::line::Line;
use list::varicode::word_line;

/// What the program answers to what is no call, and to a line that is longer than its room.
const NO_CALL: &str = "no call";
const TOO_LONG: &str = "too long";

/// A line this long has room for none.
const LONG: usize = 266_240;

/// A letter that names nothing, fields that are missing, odd, too many, empty, in digits that are none or upper case, or
/// of more bytes than there is room for; pieces that are not closed or closed twice.
const LINES: [&str; 59] = [
    "x 00",
    "vv 65",
    "V 65",
    "v65",
    "v",
    "v ",
    "v 6",
    "v 656",
    "v 6g",
    "v 6A",
    "v 65 ",
    "v  65",
    "v 65 00",
    " v 65",
    "n 0",
    "n ",
    "m 1",
    "e 00 00 01",
    "e 00 00 0 a",
    "e 00 00 01 a 1",
    "e 00 00 01 -",
    "e 00 00  a",
    "e 00 00 01 8021",
    "e 00 00 (01*8021) a",
    "p 01*2 4",
    "p (01*2 4",
    "p (01*0) 4",
    "p (0101*1) 4",
    "p (*2) 4",
    "p (01) 4",
    "p ((01*2)*4) 8",
    "p (01*) 4",
    "p (01*2)) 4",
    "p 0(1*2) 4",
    "p (01*100000000) 4",
    "p -- 4",
    "l 00 00 12345678901234567",
    "l 00 00 -",
    "s 000080 1 10",
    "s 0000803f 1 4018b",
    "b 00 00 1 (00*40181) 1 50",
    "I 00 00 1 81 1 50",
    "i 00 00 1 81 1",
    "i 00 00 1 81 1 50 0",
    "i 00 00 1 8 1 50",
    "i 00 00 1 -7f 1 50",
    "i 00 00 1 (00*40181) 1 50",
    "i 00 00 1 81 8021 50",
    "i 00 00 1 81 1 40181",
    "w (00*ff) 0 0 1 t1",
    "w (00*100) 0 0 2 t1",
    "w (00*100) 0 0 1 z1",
    "r 0 0000 00 0 (00*40) 0 0 i",
    "r 0 0000 00 0 (00*40) 0 0 p1 ",
    "r 0000 00 0 (00*40) 0 0 p1",
    "r 2 0000 00 0 (00*40) 0 0 p1",
    "r 01 0000 00 0 (00*40) 0 0 p1",
    "r - 0000 00 0 (00*40) 0 0 p1",
    "r  0000 00 0 (00*40) 0 0 p1",
];

pub fn run(groups: &mut Groups, _: &mut Random) {
    groups.report(
        "answers, lines that are no calls or too long, each among calls, and a last line without a line feed",
        outcome(),
    );
}

fn outcome() -> Outcome {
    let call = word_line(b'e');
    let mut cases: Vec<Line> = LINES.map(|line| answered_by(line, NO_CALL)).to_vec();
    for len in [LONG, LONG + 1, 2 * LONG, 3 * LONG + 7] {
        cases.push(answered_by(&"v".repeat(len), TOO_LONG));
        cases.push(answered_by(&format!("v 65{}", " ".repeat(len - 4)), TOO_LONG));
    }
    cases.push(answered_by(&"v".repeat(LONG - 1), NO_CALL));
    cases.extend(["", "#", "# v 65"].map(|line| answered_by(line, "")));
    let between: Vec<&Line> = cases.iter().flat_map(|case| [case, &call]).collect();
    let (calls, answers): (Vec<&str>, Vec<&str>) = between.iter().map(|case| (&*case.call, &*case.answer)).unzip();
    let got = output_of(&calls.join("\n"))?;
    let wanted = answers.join("\n") + "\n";
    match got
        .lines()
        .zip(wanted.lines())
        .zip(&calls)
        .find(|((got, wanted), _)| got != wanted)
    {
        Some(((got, wanted), call)) => Err(format!(
            "  {} bytes: {:.80}\n  wanted {wanted}\n  got {got}",
            call.len(),
            call
        )),
        None if got == wanted => Ok(cases.len() as u64),
        None => Err("  the last line has no answer".to_string()),
    }
}

fn answered_by(call: &str, answer: &str) -> Line {
    Line {
        call: call.to_string(),
        answer: answer.to_string(),
    }
}
