//! Forged records of writers and readers, and writers with hardly any room.

use super::WriterLine;
use expected::Random;
use expected::varicode::{BITS, CHARS, ReaderRecord, Ring, WriterRecord, word};

/// A writer's record that no calls need lead to.
pub fn writer(random: &mut Random) -> WriterRecord {
    WriterRecord {
        bits: ring::<BITS>(random),
        first: random.below(2) == 0,
    }
}

/// One that is read as full, whatever its head and count are.
pub fn full_writer(random: &mut Random) -> WriterRecord {
    let mut record = writer(random);
    record.bits.count = BITS as u64 + (BITS as u64 + 1) * random.below(1000) as u64;
    record
}

/// A writer with one place too few for a byte's word, and for the gap before it where there is text.
pub fn one_place_too_few(byte: u8, text: bool) -> WriterLine {
    let (_, len) = word(byte);
    let held = BITS + 1 - usize::from(len);
    if text {
        WriterLine::new().open(held as u64 - 3).byte(b' ')
    } else {
        WriterLine::new().open(held as u64)
    }
}

/// An old reader's, often at the end of a word.
pub fn reader(random: &mut Random) -> ReaderRecord {
    let (shift, len) = heard(random);
    ReaderRecord {
        pauses: false,
        shift,
        len,
        zero: random.below(3) > 0,
        chars: ring::<CHARS>(random),
    }
}

/// A reader's for pauses: the same, and now and then with a length that is read as 0.
pub fn reader_for_pauses(random: &mut Random) -> ReaderRecord {
    let mut record = ReaderRecord {
        pauses: true,
        ..reader(random)
    };
    if random.below(4) == 0 {
        record.len = 12 * random.below(22) as u8;
    }
    record
}

/// Any slots, of bits or of bytes, and any head and count.
fn ring<const N: usize>(random: &mut Random) -> Ring<N> {
    let bytes = if random.below(2) == 0 {
        random.bits(N)
    } else {
        random.bytes(N)
    };
    Ring {
        slots: bytes.try_into().expect("as many as there are slots"),
        head: counter(N as u64 - 1, random),
        count: counter(N as u64, random),
    }
}

/// Within its range, at its ends, a little beyond them, some rounds beyond, or any.
fn counter(largest: u64, random: &mut Random) -> u64 {
    let within = random.below(largest as usize + 1) as u64;
    match random.below(6) {
        0 => within,
        1 => [0, 1, largest - 1, largest][random.below(4)],
        2 => largest + 1 + random.below(3) as u64,
        3 => (largest + 1) * (1 + random.below(1000) as u64) + within,
        4 => u64::MAX - random.below(300) as u64,
        _ => random.number(),
    }
}

/// A word with its trailing zero, its length as it should be, read as that, or another; or any bits and length.
fn heard(random: &mut Random) -> (u16, u8) {
    let (bits, len) = word(random.below(128) as u8);
    let (ended, len) = (bits << 1, len + 1);
    let any = random.number() as u8;
    match random.below(5) {
        0 => (ended, len),
        1 => (ended, len + 12 * (1 + random.below(20) as u8)),
        2 => (ended, any),
        3 => (ended | (random.number() as u16) << len.min(15), len),
        _ => (random.number() as u16, any),
    }
}

#[cfg(test)]
mod tests {
    use super::*;

    #[test]
    fn forged_readers_for_pauses_have_heard_nothing_now_and_then_whatever_else_is_in_them() {
        let random = &mut Random::new(1);
        let records: Vec<ReaderRecord> = (0..1000).map(|_| reader_for_pauses(random)).collect();
        assert!(records.iter().all(|record| record.pauses));
        let nothing = records.iter().filter(|record| record.len % 12 == 0);
        assert!((200..400).contains(&nothing.clone().count()));
        for zero in [false, true] {
            let mut beyond = nothing.clone().filter(|record| record.len > 0 && record.shift > 0);
            assert!(beyond.any(|record| record.zero == zero));
        }
    }
}
