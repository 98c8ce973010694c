//! Prints the coded bits of an info word: `encode CODE RATE INFO`, with 01's numbers and a word of 0s and 1s.

use relay_coder::doors;
use std::env;
use std::process::ExitCode;

fn main() -> ExitCode {
    let words: Vec<String> = env::args().skip(1).collect();
    let [code, rate, info] = &words[..] else {
        eprintln!("encode CODE RATE INFO, as in: encode 0 0 1");
        return ExitCode::FAILURE;
    };
    let (Ok(code), Ok(rate)) = (code.parse(), rate.parse()) else {
        eprintln!("encode: code and rate are numbers from 0 to 255");
        return ExitCode::FAILURE;
    };
    if info.bytes().any(|digit| digit != b'0' && digit != b'1') {
        eprintln!("encode: an info word is made of 0s and 1s");
        return ExitCode::FAILURE;
    }
    let info: Vec<u8> = info.bytes().map(|digit| digit - b'0').collect();
    let mut out = vec![0; 2 * info.len() + 16];
    match relay_coder::count(doors::encode(code, rate, &info, &mut out)) {
        Ok(coded) => println!("{}", out[..coded].iter().map(|bit| bit.to_string()).collect::<String>()),
        Err(refusal) => println!("{refusal}"),
    }
    ExitCode::SUCCESS
}
