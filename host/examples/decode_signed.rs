//! Encodes the word 1011, takes the coded bits for signed bytes, damages one, decodes these and prints the word and its
//! score. `examples/c/decode_signed.c` is the same in C.

use relay_coder::{Code, Rate, Refusal, decode_signed, encode};

fn main() -> Result<(), Refusal> {
    let info = [1, 0, 1, 1];
    let coded = encode(Code::K5, Rate::R1_2, &info)?;
    let mut readings: Vec<i8> = coded.iter().map(|bit| if *bit == 0 { 100 } else { -100 }).collect();
    readings[2] = -30;
    let word = decode_signed(Code::K5, Rate::R1_2, info.len(), &readings)?;
    let bits: String = word.bits.iter().map(u8::to_string).collect();
    println!("word {bits} score {}", word.score);
    Ok(())
}
