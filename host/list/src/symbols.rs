//! The lines of the block decoders of symbols.

use crate::line::{Line, bytes, lent, number};
use expected::decoder::AfterBlock;
use expected::symbols::{decode, decode_hard};

/// Survivors of so many symbols.
pub fn survivors(count: usize) -> usize {
    16 * count
}

/// `s`: the components' bytes, the lengths of out and scratch; the answer, both after the call.
pub fn soft_line(soft: &[f32], room: usize, scratch: usize) -> Line {
    let given: Vec<u8> = soft.iter().flat_map(|component| component.to_le_bytes()).collect();
    line('s', &given, &decode(soft, &lent(room), &lent(scratch)))
}

/// `h`: the same of hard bits.
pub fn hard_line(bits: &[u8], room: usize, scratch: usize) -> Line {
    line('h', bits, &decode_hard(bits, &lent(room), &lent(scratch)))
}

fn line(kind: char, given: &[u8], after: &AfterBlock) -> Line {
    let (room, scratch) = (after.out.len(), after.scratch.len());
    Line {
        call: format!("{kind} {} {room:x} {scratch:x}", bytes(given)),
        answer: format!(
            "{kind} {} {} {}",
            number(after.answer),
            bytes(&after.out),
            bytes(&after.scratch)
        ),
    }
}
