//! Buffers lent to a door, with all that a call could do to them in sight.

use expected::{After, Random};
use std::fmt::LowerHex;

/// A byte that no coded bit has.
const CANARY: u8 = 0xA5;

/// Bytes on either side of the lent part that no call may touch.
const GUARD: usize = 64;

/// What the lent bytes are before a call.
#[derive(Debug, Clone, Copy)]
pub enum Fill {
    /// One byte value that no coded bit has.
    Canary,
    /// Random bytes, so that a byte that is copied, cleared or set to any one value shows.
    Varying,
}

pub const FILLS: [Fill; 2] = [Fill::Canary, Fill::Varying];

/// Bytes to lend before a call.
pub fn filled(fill: Fill, len: usize, random: &mut Random) -> Vec<u8> {
    match fill {
        Fill::Canary => vec![CANARY; len],
        Fill::Varying => random.bytes(len),
    }
}

/// Lends a copy of `before`, between guards, to `call`; what came of it, or that a guard was touched.
pub fn lend(before: &[u8], call: impl FnOnce(&mut [u8]) -> u64) -> Result<After, String> {
    let mut room = vec![CANARY; before.len() + 2 * GUARD];
    let lent = GUARD..GUARD + before.len();
    room[lent.clone()].copy_from_slice(before);
    let answer = call(&mut room[lent.clone()]);
    let out = room[lent.clone()].to_vec();
    room[lent].fill(CANARY);
    match room.iter().position(|byte| *byte != CANARY) {
        None => Ok(After { answer, out }),
        Some(at) => Err(format!(
            "  a byte outside the buffer was written, at {}",
            at as isize - GUARD as isize
        )),
    }
}

/// Nothing if the two are the same, else where they first differ, and both in full.
pub fn same(expected: &After, got: &After) -> Result<(), String> {
    if expected == got {
        return Ok(());
    }
    let byte = expected.out.iter().zip(&got.out).position(|(a, b)| a != b);
    let place = byte.map_or("in the answer alone".to_string(), |at| format!("in out, first at {at}"));
    Err(format!(
        "  differs {place}\n  expected {}\n  got      {}",
        shown(expected),
        shown(got)
    ))
}

fn shown(after: &After) -> String {
    format!("answer {:#x}, out {}", after.answer, hex(&after.out))
}

/// Bytes as two hex digits each.
pub fn hex(bytes: &[impl LowerHex]) -> String {
    bytes.iter().map(|byte| format!("{byte:02x}")).collect()
}
