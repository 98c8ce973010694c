//! The part of the list about the block decoder of signed bytes. It comes after what stood on the list before, which so
//! has kept its random inputs.

use super::{FORMER_LIMIT, Stored};
use expected::decoder::survivors;
use expected::{CODES, RATES, Random, encoder};
use list::decoder::{repeated_signed_line, signed_line};

/// Readings of each kind: of few values, so that words tie, of all sizes, and the largest.
const SMALL: [i8; 3] = [-1, 0, 1];
const ANY: [i8; 8] = [-113, -64, -7, -1, 0, 2, 35, 120];
const LARGEST: [i8; 3] = [-127, 0, 127];

pub fn add(list: &mut Stored, random: &mut Random) {
    list.comment(
        "i: block decode of signed bytes, which the Rust does not have: by the words of request 2026-05 alone. The",
    );
    list.comment("fields are those of b; a reading is one byte, in two's complement.");
    bench_sheet(list);
    for (code, _) in CODES {
        for (rate, _) in RATES {
            kinds(list, code, rate, random);
            minus_128(list, code, rate);
        }
    }
    list.comment("Zeros, and readings that tie.");
    ties(list);
    list.comment("Each refusal, alone and with those above it: 12 comes last.");
    refusals(list);
    list.comment("At the limit before request 2026-06, all readings of the largest size.");
    former_limit(list);
}

fn block(list: &mut Stored, code: u8, rate: u8, info: usize, readings: &[i8], more: usize) {
    let (room, scratch) = (info + more, survivors(code, info) + more);
    list.add(signed_line(code, rate, info, readings, room, scratch));
}

fn coded_len(code: u8, rate: u8, info: usize) -> usize {
    encoder::coded_len(code, rate, info) as usize
}

/// The bench sheet's readings, and -128 where it has a NaN.
fn bench_sheet(list: &mut Stored) {
    block(list, 0, 0, 1, &[-1], 0);
    block(list, 0, 0, 1, &[-1, 1], 0);
    block(list, 0, 0, 3, &[], 0);
    let mut eleven = [1; 11];
    eleven[10] = -128;
    block(list, 0, 0, 1, &eleven, 0);
    eleven[9] = -128;
    block(list, 0, 0, 1, &eleven, 0);
}

/// Lists of none, one, one short, exact and long, for info counts about each period.
fn kinds(list: &mut Stored, code: u8, rate: u8, random: &mut Random) {
    for (at, info) in [0, 1, 2, 3, 7, 8].into_iter().enumerate() {
        let coded = coded_len(code, rate, info);
        let turn = at + usize::from(code + rate);
        let len = [coded, coded - 1, coded + 3, coded, 1, 0][turn % 6];
        let values = [&SMALL[..], &ANY, &LARGEST][turn % 3];
        let readings: Vec<i8> = (0..len).map(|_| values[random.below(values.len())]).collect();
        block(list, code, rate, info, &readings, at % 3);
    }
}

/// At the first place and at one behind it, at the last that is used, and at the first that is not.
fn minus_128(list: &mut Stored, code: u8, rate: u8) {
    let coded = coded_len(code, rate, 2);
    for places in [&[0, 3][..], &[coded - 1, coded], &[coded]] {
        let mut readings = vec![127; coded + 1];
        places.iter().for_each(|place| readings[*place] = -128);
        block(list, code, rate, 2, &readings, 1);
    }
}

fn ties(list: &mut Stored) {
    for (code, _) in CODES {
        let coded = coded_len(code, 0, 6);
        for piece in [&[0][..], &[1, -1], &[-1, 1], &[1, 1, -1, -1]] {
            let (room, scratch) = (6, survivors(code, 6));
            list.add(repeated_signed_line(code, 0, 6, piece, coded, room, scratch));
        }
    }
}

fn refusals(list: &mut Stored) {
    for (code, rate, info, room, scratch) in [
        (3, 5, FORMER_LIMIT + 1, 0, 0),
        (1, 5, FORMER_LIMIT + 1, 0, 0),
        (1, 4, FORMER_LIMIT + 1, 0, 0),
        (1, 4, 3, 2, 0),
        (1, 4, 3, 3, survivors(1, 3) - 1),
        (1, 4, 3, 3, survivors(1, 3)),
        (255, 0, 3, 3, survivors(1, 3)),
        (0, 255, 3, 3, survivors(0, 3)),
        (0, 0, usize::MAX, 3, survivors(0, 3)),
    ] {
        list.add(signed_line(code, rate, info, &[1, -128], room, scratch));
        list.add(signed_line(code, rate, info, &[1, 127], room, scratch));
    }
}

/// At the former limit accepted by K5, with a -128 that is surplus; by K7 refused, for a -128 at the last place that is
/// used, and for a byte that scratch lacks, at the limit and beyond it.
fn former_limit(list: &mut Stored) {
    let mut readings = vec![-127; coded_len(0, 0, FORMER_LIMIT)];
    readings.push(-128);
    block(list, 0, 0, FORMER_LIMIT, &readings, 0);
    let coded = coded_len(1, 0, FORMER_LIMIT);
    let mut readings = vec![127; coded];
    readings[coded - 1] = -128;
    block(list, 1, 0, FORMER_LIMIT, &readings, 0);
    for (info, scratch) in [
        (FORMER_LIMIT, survivors(1, FORMER_LIMIT) - 1),
        (FORMER_LIMIT + 1, survivors(1, FORMER_LIMIT)),
    ] {
        list.add(repeated_signed_line(1, 0, info, &[127, -127], coded, info, scratch));
    }
}
