//! The relay program.

use crate::decoder::decode;

/// The most bytes of an input, and the most info bits that it may ask for.
const INPUT_LIMIT: usize = 8192;
const INFO_LIMIT: usize = 1000;

/// What the program writes for an input: refusal 10 first, then as the decoder refuses, with a limit of its own.
pub fn output(input: &[u8]) -> String {
    if input.len() < 4 || input.len() > INPUT_LIMIT || input.len() % 4 != 0 {
        return refused(10, 0);
    }
    let [code, rate, low, high] = [0, 1, 2, 3].map(|at| input[at]);
    let info = usize::from(u16::from_le_bytes([low, high]));
    // Over the program's limit the decoder is given a count over its own.
    let asked = if info > INFO_LIMIT { usize::MAX } else { info };
    let after = decode(
        code,
        rate,
        asked,
        &input[4..],
        &[0; INFO_LIMIT],
        &[0; (INFO_LIMIT + 6) << 6],
    );
    match after.answer >> 32 {
        0 if info == 0 => format!("word - score {:08X}\n", after.answer),
        0 => {
            let word: String = after.out[..info].iter().map(|bit| char::from(b'0' + bit)).collect();
            format!("word {word} score {:08X}\n", after.answer)
        }
        number => refused(number, after.answer & 0xFFFF_FFFF),
    }
}

fn refused(number: u64, place: u64) -> String {
    format!("refused {number} at {place}\n")
}

#[cfg(test)]
mod tests {
    use super::output;

    #[test]
    fn the_line_of_01() {
        assert_eq!(output(&[0, 0, 1, 0, 0, 0, 0x80, 0xBF]), "word 1 score 3F800000\n");
        assert_eq!(output(&[0, 0, 0, 0]), "word - score 00000000\n");
        assert_eq!(output(&[]), "refused 10 at 0\n");
        assert_eq!(output(&[3, 5, 0xFF, 0xFF]), "refused 1 at 0\n");
        assert_eq!(output(&[1, 4, 0xE9, 3]), "refused 3 at 0\n");
    }
}
