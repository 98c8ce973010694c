//! What has no door is compared through the proved program `answers` (tools/native program answers), which is fed with
//! calls and prints what comes of each, line by line.

use crate::groups::Outcome;
use list::line::Line;
use std::io::{Read, Write};
use std::path::Path;
use std::process::{Command, Stdio};
use std::thread;

const PROGRAM: &str = concat!(env!("CARGO_MANIFEST_DIR"), "/../../target/native/answers");

/// Of a line this many bytes are shown, from a little before the first difference on.
const SHOWN: usize = 400;

/// Each line is a case, and the answer to its call must be the one that is wanted.
pub fn same(lines: &[Line]) -> Outcome {
    let got = answers_to(lines.iter().map(|line| line.call.as_str()))?;
    for (line, got) in lines.iter().zip(&got) {
        answered(line, got)?;
    }
    Ok(lines.len() as u64)
}

/// Each wrong answer to a line's call is a case, and every one must be found so.
pub fn damage_is_seen(lines: &[Line], wrong: impl Fn(&Line) -> Vec<Line>) -> Outcome {
    let got = answers_to(lines.iter().map(|line| line.call.as_str()))?;
    let mut cases = 0;
    for (line, got) in lines.iter().zip(&got) {
        answered(line, got)?;
        for wrong in wrong(line) {
            cases += 1;
            if answered(&wrong, got).is_ok() {
                return Err(format!("  not seen: {}\n  {}", wrong.call, wrong.answer));
            }
        }
    }
    Ok(cases)
}

/// Whether a call was answered as is wanted; else the call, the answer wanted and the answer got.
pub fn answered(line: &Line, got: &str) -> Result<(), String> {
    if line.answer == got {
        return Ok(());
    }
    let pairs = line.answer.bytes().zip(got.bytes());
    let from = pairs
        .take_while(|(wanted, got)| wanted == got)
        .count()
        .saturating_sub(20);
    Err(format!(
        "  call   {}\n  wanted {}\n  got    {}",
        shown(&line.call, 0),
        shown(&line.answer, from),
        shown(got, from)
    ))
}

fn shown(line: &str, from: usize) -> String {
    let end = line.len().min(from + SHOWN);
    let (before, after) = (if from > 0 { "…" } else { "" }, if end < line.len() { "…" } else { "" });
    format!(
        "{before}{}{after}",
        String::from_utf8_lossy(&line.as_bytes()[from..end])
    )
}

/// The line that answers each call.
pub fn answers_to<'a>(calls: impl Iterator<Item = &'a str>) -> Result<Vec<String>, String> {
    let calls: Vec<&str> = calls.collect();
    let output = output_of(&(calls.join("\n") + "\n"))?;
    let answers: Vec<String> = output.lines().map(str::to_string).collect();
    if answers.len() == calls.len() {
        Ok(answers)
    } else {
        Err(format!(
            "  {} calls have {} lines of answers",
            calls.len(),
            answers.len()
        ))
    }
}

/// All that the program prints.
pub fn output_of(input: &str) -> Result<String, String> {
    run(input).map_err(|why| format!("  {PROGRAM}: {why}"))
}

fn run(calls: &str) -> Result<String, String> {
    if !Path::new(PROGRAM).is_file() {
        return Err("is not there; run `tools/native program answers` at the top of the repository".to_string());
    }
    let mut program = Command::new(PROGRAM)
        .stdin(Stdio::piped())
        .stdout(Stdio::piped())
        .spawn()
        .map_err(|why| why.to_string())?;
    let (mut input, mut output) = (program.stdin.take().unwrap(), program.stdout.take().unwrap());
    let mut text = String::new();
    thread::scope(|scope| {
        let written = scope.spawn(move || input.write_all(calls.as_bytes()));
        output.read_to_string(&mut text).map_err(|why| why.to_string())?;
        written.join().unwrap().map_err(|why| why.to_string())
    })?;
    match program.wait() {
        Ok(status) if status.success() => Ok(text),
        Ok(status) => Err(status.to_string()),
        Err(why) => Err(why.to_string()),
    }
}

#[cfg(test)]
mod tests {
    use super::*;

    fn line(call: &str, answer: &str) -> Line {
        Line {
            call: call.to_string(),
            answer: answer.to_string(),
        }
    }

    #[test]
    fn a_difference_is_shown_with_its_call() {
        assert_eq!(answered(&line("v 65", "v 0003 02"), "v 0003 02"), Ok(()));
        let said = answered(&line("v 65", "v 0003 02"), "v 0003 03").unwrap_err();
        for part in ["call   v 65", "wanted v 0003 02", "got    v 0003 03"] {
            assert!(said.contains(part), "{said}");
        }
    }

    #[test]
    fn a_missing_or_a_longer_answer_is_a_difference() {
        for got in ["", "v 0003", "v 0003 02 "] {
            assert!(answered(&line("v 65", "v 0003 02"), got).is_err());
        }
    }
}
