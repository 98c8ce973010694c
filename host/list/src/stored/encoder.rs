//! The encoders' and the coded length's part of the list.

use super::{FORMER_LIMIT, Stored};
use expected::{RATES, Random, encoder};
use list::line::{Line, bytes, lent, number};

/// Every word up to this many bits is listed.
const ALL_WORDS: usize = 4;

/// Lengths past each pattern's period with either register's tail, and about 64.
const LENGTHS: [usize; 10] = [5, 6, 7, 8, 9, 13, 15, 63, 64, 65];

/// Codes and rates that select, and some that do not.
const CODE_NUMBERS: [u8; 4] = [0, 1, 3, 255];
const RATE_NUMBERS: [u8; 4] = [0, 4, 5, 255];

pub fn add(list: &mut Stored, random: &mut Random) {
    list.comment("e: encode. Code, rate, info, length of out; the answer, out after the call.");
    short_words(list, &[0, 1]);
    lengths(list, &[0, 1], random);
    refusals(list, &CODE_NUMBERS, random);
    former_limit(list, random);
    list.comment("p: plain conv_encode. Bits, length of out; the answer, out after the call.");
    plain(list, random);
    list.comment("l: coded length. Code, rate, info count; the answer.");
    coded_lengths(list, &[0, 1]);
    unknown_lengths(list, &CODE_NUMBERS);
}

/// Code number 2.
pub fn add_standard(list: &mut Stored, random: &mut Random) {
    list.comment("e and l of code number 2, K7 with the keep patterns of EN 300 744: answers by the standard.");
    short_words(list, &[2]);
    lengths(list, &[2], random);
    refusals(list, &[2], random);
    encode(list, 2, 2, &random.bytes(FORMER_LIMIT), room(2, 2, FORMER_LIMIT) + 3);
    encode(list, 2, 2, &random.bytes(FORMER_LIMIT + 1), room(2, 0, FORMER_LIMIT));
    coded_lengths(list, &[2]);
    unknown_lengths(list, &[2]);
}

pub(super) fn encode(list: &mut Stored, code: u8, rate: u8, info: &[u8], room: usize) {
    let after = encoder::encode(code, rate, info, &lent(room));
    list.add(Line {
        call: format!("e {code:02x} {rate:02x} {} {room:x}", bytes(info)),
        answer: format!("e {} {}", number(after.answer), bytes(&after.out)),
    });
}

pub(super) fn conv_encode(list: &mut Stored, bits: &[u8], room: usize) {
    let after = encoder::conv_encode(bits, &lent(room));
    list.add(Line {
        call: format!("p {} {room:x}", bytes(bits)),
        answer: format!("p {} {}", number(after.answer), bytes(&after.out)),
    });
}

pub(super) fn coded_len(list: &mut Stored, code: u8, rate: u8, info: usize) {
    list.add(Line {
        call: format!("l {code:02x} {rate:02x} {info:x}"),
        answer: format!("l {}", number(encoder::coded_len(code, rate, info))),
    });
}

/// How many coded bits so many info bits give.
pub(super) fn room(code: u8, rate: u8, info: usize) -> usize {
    encoder::coded_len(code, rate, info) as usize
}

fn each_rate(codes: &[u8], mut add: impl FnMut(u8, u8)) {
    for code in codes {
        for (rate, _) in RATES {
            add(*code, rate);
        }
    }
}

fn words() -> impl Iterator<Item = Vec<u8>> {
    (0..=ALL_WORDS).flat_map(|len| (0..1 << len).map(move |word| (0..len).map(|at| (word >> at & 1) as u8).collect()))
}

fn short_words(list: &mut Stored, codes: &[u8]) {
    each_rate(codes, |code, rate| {
        for info in words() {
            encode(list, code, rate, &info, room(code, rate, info.len()));
        }
    });
}

/// At each length the upper bits are set, and the buffer is exact, one short, or a few long.
fn lengths(list: &mut Stored, codes: &[u8], random: &mut Random) {
    each_rate(codes, |code, rate| {
        for (at, len) in LENGTHS.into_iter().enumerate() {
            let exact = room(code, rate, len);
            let rooms = [exact, exact - 1, exact + 1, exact + 5];
            encode(
                list,
                code,
                rate,
                &random.bytes(len),
                rooms[(at + usize::from(rate)) % rooms.len()],
            );
        }
    });
}

/// Codes, rates and rooms that are refused, alone and together.
fn refusals(list: &mut Stored, codes: &[u8], random: &mut Random) {
    for code in codes {
        for rate in RATE_NUMBERS {
            for room in [0, 12] {
                encode(list, *code, rate, &random.bits(3), room);
            }
        }
    }
}

/// At the former limit with bytes to spare, one over it with room enough, and one over it with faults.
fn former_limit(list: &mut Stored, random: &mut Random) {
    let info = random.bytes(FORMER_LIMIT + 1);
    encode(list, 1, 0, &info[..FORMER_LIMIT], room(1, 0, FORMER_LIMIT) + 3);
    encode(list, 1, 4, &info, room(1, 4, FORMER_LIMIT) + 2);
    encode(list, 0, 5, &info, 1);
    encode(list, 0, 3, &info, 1);
}

fn plain(list: &mut Stored, random: &mut Random) {
    for bits in words() {
        conv_encode(list, &bits, 2 * bits.len());
    }
    for len in LENGTHS {
        conv_encode(list, &random.bytes(len), 2 * len);
        conv_encode(list, &random.bytes(len), 2 * len - 1);
        conv_encode(list, &random.bytes(len), 2 * len + 5);
    }
    let bits = random.bytes(FORMER_LIMIT + 1);
    conv_encode(list, &bits[..FORMER_LIMIT], 2 * FORMER_LIMIT + 3);
    conv_encode(list, &bits, 2 * bits.len());
    conv_encode(list, &bits, 1);
}

fn coded_lengths(list: &mut Stored, codes: &[u8]) {
    each_rate(codes, |code, rate| {
        for info in [0, 1, 2, 3, 10, FORMER_LIMIT, FORMER_LIMIT + 1, usize::MAX] {
            coded_len(list, code, rate, info);
        }
    });
}

/// Rates that select and that do not, and counts within the limit and beyond.
fn unknown_lengths(list: &mut Stored, codes: &[u8]) {
    for code in codes {
        for rate in RATE_NUMBERS {
            coded_len(list, *code, rate, 7);
            coded_len(list, *code, rate, 1 << 32);
        }
    }
}
