//! Varicode's part of the list.

use super::Stored;
use expected::Random;
use expected::varicode::{BITS, CHARS, ReaderRecord};
use list::varicode::{ReaderLine, WriterLine, fresh_line, inputs, lookup_line, word_line};

/// Every string of bits up to this many is listed.
const ALL_BITS: usize = 6;

/// So many forged records of each.
const FORGED: usize = 12;

pub fn add(list: &mut Stored, random: &mut Random) {
    list.comment("v: a byte's word. Byte; word, length.");
    (0..=u8::MAX).for_each(|byte| list.add(word_line(byte)));
    list.comment(
        "d: the bytes of all 65536 values at a length. Length; the values that are words, each with its byte.",
    );
    (0..=u8::MAX).for_each(|len| list.add(lookup_line(len)));
    list.comment(
        "m: a fresh writer, a fresh reader and one for pauses. Their records, as the lines w and r have them.",
    );
    list.add(fresh_line());
    list.comment(
        "w: a writer. Slots, head, count, whether no byte was written; o: opening, b: bytes, c: closing, t: so many",
    );
    list.comment("bits taken out. An answer for each call (0, a refusal, a bit, 100 for nothing), the record after.");
    gaps(list);
    full_of_bits(list);
    round_the_bits(list, random);
    list.comment(
        "r: a reader. Whether it is for pauses, bits, length, whether the last was a zero, slots, head, count; i: bits",
    );
    list.comment("put in, p: so many characters taken out. An answer for each call, the record after.");
    short_strings(list);
    words_read(list, ReaderLine::new);
    full_of_characters(list, ReaderLine::new);
    round_the_characters(list, random);
    list.comment("w and r: forged records, which the Rust cannot have: by document 01 alone.");
    forged(list, random);
}

/// The reader for pauses. It comes after what stood on the list before, which so has kept its random inputs.
pub fn add_for_pauses(list: &mut Stored, random: &mut Random) {
    list.comment("r: a reader for pauses, which the Rust does not have: by the words of request 2026-01 alone.");
    list.comment("Its example and the like, each character taken out as it comes; then pauses of up to 257 zeros.");
    pauses(list);
    list.comment("The words that the old reader read above, whole ones and too long ones.");
    words_read(list, ReaderLine::for_pauses);
    list.comment("Full queues: the zero that ends a word is refused, and does so once there is room.");
    full_of_characters(list, ReaderLine::for_pauses);
    full_at_the_ending_zero(list);
    list.comment("Forged records.");
    for _ in 0..FORGED / 2 {
        forged_reader(list, inputs::reader_for_pauses(random));
    }
}

/// Bytes of 128 and above to the writer. They come after what stood on the list before, which so has kept its random
/// inputs.
pub fn add_high_bytes(list: &mut Stored, random: &mut Random) {
    list.comment(
        "w: bytes of 128 and above, which the Rust writes as byte 0: by the words of request 2026-03 alone. First a",
    );
    list.comment("fresh writer, then words with accented letters in UTF-8, whose bytes are refused one by one.");
    list.add((128..=u8::MAX).fold(WriterLine::new(), WriterLine::byte).line());
    for word in ["é", "café", "Čeští", "naïve Übung"] {
        writer(list, WriterLine::new().text(word.bytes()).close(1));
    }
    list.comment("All 256 bytes to a full writer, with text in it or not: 11 comes before 9.");
    for full in [WriterLine::new().open(256), WriterLine::new().open(255).byte(b' ')] {
        list.add((0..=u8::MAX).fold(full, WriterLine::byte).line());
    }
    list.comment(
        "One place too few for the word that the lookup gives: of the longest words, and of bytes that have none.",
    );
    for byte in [0, 127, 128, 0xc3, 0xe9, 255] {
        list.add(inputs::one_place_too_few(byte, false).byte(byte).line());
        list.add(inputs::one_place_too_few(byte, true).byte(byte).line());
    }
    list.comment("Forged records.");
    for byte in [128, 0xc3, 255] {
        list.add(WriterLine::forged(inputs::writer(random)).byte(byte).line());
        list.add(
            WriterLine::forged(inputs::full_writer(random))
                .byte(127)
                .byte(byte)
                .line(),
        );
    }
}

fn writer(list: &mut Stored, line: WriterLine) {
    list.add(line.take_all().line());
}

fn reader(list: &mut Stored, line: ReaderLine) {
    list.add(line.take_all().line());
}

/// Where the two zeros stand, and where not.
fn gaps(list: &mut Stored) {
    let new = WriterLine::new;
    writer(list, new());
    writer(list, new().text(*b"hi"));
    writer(list, new().open(4).text(*b"hi").close(4));
    writer(list, new().text(*b"e").open(3).text(*b"e"));
    writer(list, new().text(*b"e").open(0).text(*b"e"));
    writer(list, new().text(*b"e").close(2).text(*b"t"));
    writer(list, new().text(*b"e").close(2).close(3));
    writer(list, new().text(*b"e").close(0).close(0));
    writer(list, new().close(3).text(*b"e").close(1));
    writer(list, new().text(*b"e").open(0).close(2).text(*b"e"));
    writer(list, new().text(*b"e").take(1).close(2).take(5).text(*b"t"));
    for n in [0, 1, 2, 3, 5, 31] {
        writer(list, new().open(n).text(*b"a").open(n).close(n));
    }
    writer(list, (0..=u8::MAX).fold(new(), |line, byte| line.byte(byte).take_all()));
}

/// The queue just full, one bit too many, and a refused call that must change nothing.
fn full_of_bits(list: &mut Stored) {
    let (new, full) = (WriterLine::new, BITS as u64);
    for n in [full + 1, 1 << 32, 1 << 63, u64::MAX - 1, u64::MAX] {
        writer(list, new().open(n).close(n).text(*b"e").open(n).close(n).text(*b"e"));
    }
    writer(list, new().open(full).open(1).open(0).text(*b" ").close(0).close(1));
    writer(list, new().close(full).close(1).text(*b" ").take(1).text(*b"  "));
    // A byte's gap and word fill the last five bits, or lack one.
    for room in [5, 4] {
        writer(list, new().open(full - 1 - room).text(*b" tet ").open(0).text(*b" "));
    }
    // A closing's gap alone does not fit, just fits, fits with one more.
    for room in 1..=3 {
        writer(
            list,
            new()
                .open(full - 1 - room)
                .text(*b" ")
                .close(0)
                .close(1)
                .close(u64::MAX - 1),
        );
    }
    // A refused opening does not forget the text before it.
    writer(list, new().text(*b"e").open(full).text(*b"e"));
    writer(list, new().open(full).take(1).text(*b" e").take(3).text(*b" e"));
}

/// Room freed by taking out is used again, round the array's end.
fn round_the_bits(list: &mut Stored, random: &mut Random) {
    let mut line = WriterLine::new();
    for turn in 0..4 {
        let text = random.bytes(24).into_iter().map(|byte| byte % 128);
        line = line.open(turn).text(text).close(5);
        let some = line.held() - 3;
        line = line.take(some);
    }
    writer(list, line);
    let turns = (0..3).fold(WriterLine::new().open(BITS as u64), |line, n| {
        line.take(100).text(*b"relay").close(150 + n).take(60).open(50)
    });
    writer(list, turns);
}

/// Every string, with two zeros behind it to end its word.
fn short_strings(list: &mut Stored) {
    for len in 0..=ALL_BITS {
        for word in 0..1u32 << len {
            let line = (0..len).fold(ReaderLine::new(), |line, at| line.put((word >> at & 1) as u8));
            reader(list, line.take_all().bits("00"));
        }
    }
}

/// The bench sheet's, words of every length about the longest, zeros before them, and bits above 1 between.
fn words_read(list: &mut Stored, new: fn() -> ReaderLine) {
    for bits in [
        "11 00",
        "0 11 00",
        "00 11 00",
        "000 11 00",
        "0000 11 00",
        "11 000 11 00",
        "11 0000 11 00",
        "1010101011 00",
        "0 1010101011 00",
        "00 1010101011 00",
        "010 1010101011 00",
        "1 1010101011 00",
        "101 1010101011 00 11 00",
        "101011 00 1101 00",
    ] {
        reader(list, new().bits(bits));
    }
    for ones in 8..=20 {
        reader(list, new().bits(&"1".repeat(ones)).bits("00 11 00"));
    }
    for ones in 1..=7 {
        let after = format!("{}0 1010101011 00 11 00", "1".repeat(ones));
        reader(list, new().bits(&after));
    }
    for bit in [2, 3, 128, 254, 255] {
        let line = new().put(bit).bits("1").put(bit).bits("10").put(bit).bits("0").put(bit);
        reader(list, line);
    }
}

fn filled(line: ReaderLine) -> ReaderLine {
    (0..CHARS).fold(line, |line, at| {
        line.bits(["1 00", "11 00", "101 00", "1111 00"][at % 4])
    })
}

/// The queue full, the bit that ends one word too many, and room freed.
fn full_of_characters(list: &mut Stored, new: fn() -> ReaderLine) {
    let full = || filled(new());
    reader(list, full());
    reader(
        list,
        full()
            .bits("11 0")
            .put(0)
            .put(0)
            .take(1)
            .bits("0 11 00")
            .take(1)
            .bits("0"),
    );
    reader(list, full().bits("11 0").put(0).bits("1").put(2).bits("00"));
    // What is no word, and zeros alone, need no room.
    reader(list, full().bits("1001 00 00 00 010 00"));
    // 8 comes before 9.
    reader(list, full().bits("11 0").put(2).put(0).put(255).take(1).put(2).put(0));
}

/// Room freed by taking out is used again, round the array's end.
fn round_the_characters(list: &mut Stored, random: &mut Random) {
    let mut line = filled(ReaderLine::new()).take(50);
    for _ in 0..120 {
        line = line.bits(["1 00", "11 00", "10111 00"][random.below(3)]);
        line = line.take(random.below(3));
    }
    reader(list, line);
}

/// Of each record everything that is inside taken out, and calls of every kind, some of which are refused.
fn forged(list: &mut Stored, random: &mut Random) {
    for _ in 0..FORGED {
        let record = inputs::writer(random);
        writer(list, WriterLine::forged(record.clone()));
        let line = WriterLine::forged(record).take(random.below(3)).text(*b"e");
        let line = line.open(random.below(BITS) as u64).close(random.below(BITS) as u64);
        list.add(line.text(*b"t").take(3).line());
        forged_reader(list, inputs::reader(random));
    }
}

fn forged_reader(list: &mut Stored, record: ReaderRecord) {
    reader(list, ReaderLine::forged(record.clone()));
    list.add(ReaderLine::forged(record).put(2).bits("0 11 00").take(2).line());
}

/// The request's example, zeros before and between words up to hundreds, and what is left at the end of the bits.
fn pauses(list: &mut Stored) {
    let new = ReaderLine::for_pauses;
    let taken = |line: ReaderLine, bit: char| line.put(u8::from(bit == '1')).take(1);
    for bits in [
        "01100",
        "00",
        "11000",
        "11000110",
        "110000110000",
        "1000100",
        "0101000100",
    ] {
        reader(list, bits.chars().fold(new(), taken));
    }
    for zeros in [1, 2, 3, 4, 7, 8, 31, 100, 257] {
        let opened = new().put_times(0, zeros).bits("11").put_times(0, zeros);
        reader(list, opened.bits("101").put_times(0, zeros).bits("1"));
    }
}

/// Zeros refused and one that brings the character once there is room, zeros behind it that bring nothing, and a 1
/// after a refused zero, which joins.
fn full_at_the_ending_zero(list: &mut Stored) {
    let full = || filled(ReaderLine::for_pauses());
    for refused in 1..=3 {
        let line = full().bits("000 10101 0").put_times(0, refused).take(1);
        reader(list, line.bits("0 000 11 0").take(1).bits("0 00"));
    }
    reader(list, full().bits("1 0 0 1 0").take(1).bits("0 0 1 0 0"));
    reader(list, full().bits("1010101010 0").take(1).bits("1 00 11 00"));
}
