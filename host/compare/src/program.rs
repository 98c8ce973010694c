//! The relay program (tools/native program relay), held to 01 and the oracle: its whole output for an input.

use crate::groups::{Groups, Outcome};
use crate::lent::hex;
use expected::{Random, program};
use std::io::{ErrorKind, Read, Write};
use std::process::{Command, Stdio};

const PROGRAM: &str = concat!(env!("CARGO_MANIFEST_DIR"), "/../../target/native/relay");

/// Lengths about each end of what is read, and beyond what the program reads at all.
const LENGTHS: [usize; 22] = [
    0, 1, 2, 3, 4, 5, 6, 7, 8, 9, 11, 12, 13, 8187, 8188, 8189, 8191, 8192, 8193, 8196, 10_000, 100_000,
];

/// Info counts about the program's limit, the decoder's former one and its own, and the largest.
const INFO: [u16; 15] = [
    0, 1, 2, 9, 10, 255, 256, 999, 1000, 1001, 4096, 4097, 16_384, 16_385, 65535,
];

const RANDOM: usize = 400;

pub fn run(groups: &mut Groups, random: &mut Random) {
    groups.report(
        &format!("relay, inputs of {LENGTHS:?} bytes"),
        each(LENGTHS.map(|len| sized(len, random))),
    );
    groups.report(
        &format!("relay, codes and rates known and not, info {INFO:?}"),
        each(heads(random)),
    );
    groups.report(
        "relay, random readings, whole, fractional, huge, bad",
        each((0..RANDOM).map(|_| any(random)).collect::<Vec<_>>()),
    );
}

fn each(inputs: impl IntoIterator<Item = Vec<u8>>) -> Outcome {
    let mut cases = 0;
    for input in inputs {
        let must = program::output(&input);
        let got = output_of(&input).map_err(|why| format!("  {PROGRAM}: {why}"))?;
        if got != must.as_bytes() {
            return Err(format!(
                "  input {}\n  expected {must:?}\n  got      {:?}",
                hex(&input),
                String::from_utf8_lossy(&got)
            ));
        }
        cases += 1;
    }
    Ok(cases)
}

/// An input that starts as one of K5 at rate 1/2 with one info bit, as far as it goes.
fn sized(len: usize, random: &mut Random) -> Vec<u8> {
    let mut input = vec![0, 0, 1, 0];
    while input.len() < len {
        input.extend((random.below(7) as f32 - 3.0).to_le_bytes());
    }
    input.truncate(len);
    input
}

fn heads(random: &mut Random) -> Vec<Vec<u8>> {
    let mut inputs = Vec::new();
    for code in [0, 1, 2, 3, 255] {
        for rate in [0, 1, 2, 3, 4, 5, 255] {
            for info in INFO {
                let [low, high] = info.to_le_bytes();
                let mut input = vec![code, rate, low, high];
                for _ in 0..random.below(40) {
                    input.extend((random.below(7) as f32 - 3.0).to_le_bytes());
                }
                inputs.push(input);
            }
        }
    }
    inputs
}

fn any(random: &mut Random) -> Vec<u8> {
    let [low, high] = (random.below(1010) as u16).to_le_bytes();
    let mut input = vec![random.below(3) as u8, random.below(5) as u8, low, high];
    let kind = random.below(4);
    for _ in 0..random.below(2048) {
        let reading = match kind {
            0 => random.below(7) as f32 - 3.0,
            1 => random.below(2001) as f32 / 800.0 - 1.25,
            2 => [3e38, -3e38, 1e-45, -0.0][random.below(4)],
            _ => f32::from_bits(random.number() as u32),
        };
        input.extend(reading.to_le_bytes());
    }
    input
}

fn output_of(input: &[u8]) -> Result<Vec<u8>, String> {
    let mut program = Command::new(PROGRAM)
        .stdin(Stdio::piped())
        .stdout(Stdio::piped())
        .spawn()
        .map_err(|why| format!("{why}; run `tools/native program relay` at the top of the repository"))?;
    let (mut stdin, mut stdout) = (program.stdin.take().unwrap(), program.stdout.take().unwrap());
    // The program reads no further than it needs, and then closes.
    match stdin.write_all(input) {
        Err(why) if why.kind() != ErrorKind::BrokenPipe => return Err(why.to_string()),
        _ => drop(stdin),
    }
    let mut output = Vec::new();
    stdout.read_to_end(&mut output).map_err(|why| why.to_string())?;
    match program.wait() {
        Ok(status) if status.success() => Ok(output),
        Ok(status) => Err(status.to_string()),
        Err(why) => Err(why.to_string()),
    }
}
