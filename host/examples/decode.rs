//! Encodes the word 1011, takes the coded bits for readings, decodes these and prints the word and its score.
//! `examples/c/decode.c` is the same in C.

use relay_coder::{Code, Rate, Refusal, decode, encode};

fn main() -> Result<(), Refusal> {
    let info = [1, 0, 1, 1];
    let coded = encode(Code::K5, Rate::R1_2, &info)?;
    let readings: Vec<f32> = coded.iter().map(|bit| if *bit == 0 { 1.0 } else { -1.0 }).collect();
    let word = decode(Code::K5, Rate::R1_2, info.len(), &readings)?;
    let bits: String = word.bits.iter().map(u8::to_string).collect();
    println!("word {bits} score {}", word.score);
    Ok(())
}
