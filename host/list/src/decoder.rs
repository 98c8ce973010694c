//! The lines of the block decoders of readings, of f32s and of signed bytes.

use crate::line::{Line, bytes, lent, number, repeated};
use expected::decoder::{AfterBlock, decode};
use expected::signed;

/// `b`: code, rate, info count, the readings' bytes, the lengths of out and scratch; the answer, both after the call.
pub fn block_line(code: u8, rate: u8, info: usize, readings: &[u8], room: usize, scratch: usize) -> Line {
    let after = decode(code, rate, info, readings, &lent(room), &lent(scratch));
    line('b', code, rate, info, &bytes(readings), &after)
}

/// The same of readings that repeat a piece to so many bytes.
pub fn repeated_line(code: u8, rate: u8, info: usize, piece: &[u8], len: usize, room: usize, scratch: usize) -> Line {
    let readings: Vec<u8> = piece.iter().copied().cycle().take(len).collect();
    let after = decode(code, rate, info, &readings, &lent(room), &lent(scratch));
    line('b', code, rate, info, &repeated(piece, len), &after)
}

/// `i`: the same as `b` of signed bytes, one a reading, in two's complement.
pub fn signed_line(code: u8, rate: u8, info: usize, readings: &[i8], room: usize, scratch: usize) -> Line {
    let after = signed::decode(code, rate, info, readings, &lent(room), &lent(scratch));
    line('i', code, rate, info, &bytes(&unsigned(readings)), &after)
}

/// The same of a piece that is repeated to so many bytes.
pub fn repeated_signed_line(
    code: u8,
    rate: u8,
    info: usize,
    piece: &[i8],
    len: usize,
    room: usize,
    scratch: usize,
) -> Line {
    let readings: Vec<i8> = piece.iter().copied().cycle().take(len).collect();
    let after = signed::decode(code, rate, info, &readings, &lent(room), &lent(scratch));
    line('i', code, rate, info, &repeated(&unsigned(piece), len), &after)
}

fn unsigned(readings: &[i8]) -> Vec<u8> {
    readings.iter().map(|reading| *reading as u8).collect()
}

fn line(kind: char, code: u8, rate: u8, info: usize, readings: &str, after: &AfterBlock) -> Line {
    let (room, scratch) = (after.out.len(), after.scratch.len());
    Line {
        call: format!("{kind} {code:02x} {rate:02x} {info:x} {readings} {room:x} {scratch:x}"),
        answer: format!(
            "{kind} {} {} {}",
            number(after.answer),
            bytes(&after.out),
            bytes(&after.scratch)
        ),
    }
}

#[cfg(test)]
mod tests {
    use super::*;

    #[test]
    fn signed_readings_are_spelled_in_twos_complement() {
        let line = signed_line(0, 0, 0, &[-1, 127, -127], 1, 65);
        assert_eq!(line.call, "i 00 00 0 ff7f81 1 41");
        assert!(line.answer.starts_with("i 00000000ffffffff a5 (00*14)08"));
        let repeated = repeated_signed_line(0, 0, 0, &[-1, -128], 8, 0, 64);
        assert_eq!(repeated.call, "i 00 00 0 (ff80*8) 0 40");
        assert_eq!(repeated.answer, "i 0000000c00000001 - (a5*40)");
    }
}
