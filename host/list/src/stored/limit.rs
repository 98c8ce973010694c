//! The limit of 16,384 info bits or symbols, which request 2026-06 gives: in each entry that has it calls at 4,097, which
//! the former limit refused, at the limit, and one beyond. They come after what stood on the list before, which so has kept
//! its random inputs.
//!
//! An answer has the whole of scratch, and where every state is reached no two survivors that are neighbours are equal:
//! half a million digits at the limit. So here a block is accepted only where few states are reached, and the others are
//! refused by a rule that comes after the limit's; the comparison has them accepted.

use super::decoder::bytes_of;
use super::encoder::{coded_len, conv_encode, encode, room};
use super::{FORMER_LIMIT, Stored};
use expected::decoder::survivors;
use expected::{CODES, INFO_LIMIT, RATES, Random, encoder};
use list::decoder::{block_line, repeated_line, repeated_signed_line, signed_line};
use list::line::lent;
use list::symbols::{self, hard_line, soft_line};

/// The first that the former limit refused, and the most.
const WITHIN: [usize; 2] = [FORMER_LIMIT + 1, INFO_LIMIT];
const BEYOND: usize = INFO_LIMIT + 1;

/// So many random bytes are at either end of info bits.
const END: usize = 24;

/// The word that readings repeat: these bits, and zeros up to a period.
const SENT: [u8; 4] = [1, 0, 1, 1];
const PERIOD: usize = 256;

/// Code, rate, info count, lengths of out and scratch: each has the faults above it too.
const FAULTS: [(u8, u8, usize, usize, usize); 5] = [
    (3, 5, BEYOND, 0, 0),
    (1, 5, BEYOND, 0, 0),
    (1, 4, BEYOND, 0, 0),
    (1, 4, INFO_LIMIT, 0, 0),
    (1, 4, INFO_LIMIT, INFO_LIMIT, 0),
];

/// As much scratch as the program `answers` has room for, which K7 needs at the former limit.
fn most_scratch() -> usize {
    survivors(1, FORMER_LIMIT)
}

pub fn add(list: &mut Stored, random: &mut Random) {
    list.comment(
        "The limit is 16,384 by request 2026-06: 4,097, 16,384 and 16,385 info bits or symbols, in each entry.",
    );
    encoders(list, random);
    lengths(list);
    list.comment(
        "Readings whose sums overflow leave one state reached, and few digits of survivors: so b is accepted by K5. K7",
    );
    list.comment(
        "needs more scratch than a line has room for. Of i, s and h there are refusals alone: an accepted block at the",
    );
    list.comment("limit leaves half a million digits.");
    readings(list);
    signed(list);
    soft_symbols(list);
    hard_symbols(list);
}

/// Between the ends are ones, which every code codes to ones.
fn info(len: usize, random: &mut Random) -> Vec<u8> {
    [random.bytes(END), vec![1; len - 2 * END], random.bytes(END)].concat()
}

/// Accepted with bytes to spare, refused for a byte that out lacks, and beyond the limit with room enough and without.
fn encoders(list: &mut Stored, random: &mut Random) {
    let beyond = info(BEYOND, random);
    for len in WITHIN {
        conv_encode(list, &info(len, random), 2 * len + 3);
        conv_encode(list, &info(len, random), 2 * len - 1);
    }
    conv_encode(list, &beyond, 2 * BEYOND);
    conv_encode(list, &beyond, 0);
    for (code, _) in CODES {
        for rate in [0, 4] {
            for len in WITHIN {
                let exact = room(code, rate, len);
                encode(list, code, rate, &info(len, random), exact + 3);
                encode(list, code, rate, &info(len, random), exact - 1);
            }
            encode(list, code, rate, &beyond, room(code, rate, INFO_LIMIT) + 2);
            encode(list, code, rate, &beyond, 0);
        }
    }
}

fn lengths(list: &mut Stored) {
    for (code, _) in CODES {
        for (rate, _) in RATES {
            for info in WITHIN.into_iter().chain([BEYOND]) {
                coded_len(list, code, rate, info);
            }
        }
    }
    coded_len(list, 2, 5, BEYOND);
    coded_len(list, 3, 5, BEYOND);
}

/// Accepted, refused for a byte that out or scratch lacks, for a NaN at the last place that is used, and beyond the limit.
fn readings(list: &mut Stored) {
    let (ones, nan) = (bytes_of(&[-1.0]), bytes_of(&[f32::NAN]));
    for info in WITHIN {
        let rows = survivors(0, info);
        list.add(repeated_line(0, 0, info, &largest(), 8 * info, info + 1, rows + 1));
        list.add(repeated_line(0, 0, info, &ones, 8 * info, info - 1, rows));
        list.add(repeated_line(0, 0, info, &ones, 8 * info, info, rows - 1));
        let last = bytes_of(&vec![0.0; room(0, 0, info) - 1]);
        list.add(block_line(0, 0, info, &[last, nan.clone()].concat(), info, rows));
        for code in [1, 2] {
            list.add(block_line(code, 0, info, &nan, info, most_scratch()));
        }
    }
    for (code, _) in CODES {
        list.add(repeated_line(
            code,
            0,
            BEYOND,
            &ones,
            8 * BEYOND,
            BEYOND,
            most_scratch(),
        ));
    }
    for (code, rate, info, room, scratch) in FAULTS {
        list.add(block_line(code, rate, info, &nan, room, scratch));
    }
}

/// The bytes of one period of a codeword, received as the largest numbers that there are. Where a way leaves it, both coded
/// bits differ, and the sum is no number: no other way is reached.
fn largest() -> Vec<u8> {
    let mut word = SENT.to_vec();
    word.resize(PERIOD, 0);
    let sent = encoder::conv_encode(&word, &lent(2 * PERIOD)).out;
    let heard: Vec<f32> = sent
        .iter()
        .map(|bit| if *bit == 0 { f32::MAX } else { f32::MIN })
        .collect();
    bytes_of(&heard)
}

/// Refused for a byte that out or scratch lacks, for a -128 at the last place that is used, and beyond the limit.
fn signed(list: &mut Stored) {
    let piece = [127, -127];
    for info in WITHIN {
        let (coded, rows) = (room(0, 0, info), survivors(0, info));
        list.add(repeated_signed_line(0, 0, info, &piece, coded, info - 1, rows));
        list.add(repeated_signed_line(0, 0, info, &piece, coded, info, rows - 1));
        let last = vec![127; coded - 1];
        list.add(signed_line(0, 0, info, &[last, vec![-128]].concat(), info, rows));
        for code in [1, 2] {
            list.add(repeated_signed_line(code, 0, info, &piece, coded, info, most_scratch()));
        }
    }
    for (code, _) in CODES {
        list.add(repeated_signed_line(
            code,
            0,
            BEYOND,
            &piece,
            2 * BEYOND,
            BEYOND,
            most_scratch(),
        ));
    }
    for (code, rate, info, room, scratch) in FAULTS {
        list.add(signed_line(code, rate, info, &[-128], room, scratch));
    }
}

/// Refused for a byte that out or scratch lacks, for a NaN as the last component, and beyond the limit.
fn soft_symbols(list: &mut Stored) {
    for count in WITHIN.into_iter().chain([BEYOND]) {
        let mut soft = vec![0.0; 2 * count];
        soft[2 * count - 1] = f32::NAN;
        let rows = symbols::survivors(count);
        for (room, scratch) in [(0, 0), (count - 1, rows), (count, rows - 1), (count, rows)] {
            list.add(soft_line(&soft, room, scratch));
        }
    }
}

/// Refused for a byte that out or scratch lacks, and beyond the limit.
fn hard_symbols(list: &mut Stored) {
    for count in WITHIN.into_iter().chain([BEYOND]) {
        let rows = symbols::survivors(count);
        for (room, scratch) in [(0, 0), (count - 1, rows), (count, rows - 1)] {
            list.add(hard_line(&vec![1; 2 * count], room, scratch));
        }
    }
    list.add(hard_line(&vec![1; 2 * BEYOND], BEYOND, symbols::survivors(BEYOND)));
}
