//! The block decoder's part of the list.

use super::{FORMER_LIMIT, Stored};
use expected::decoder::survivors;
use expected::{RATES, Random, encoder};
use list::decoder::{block_line, repeated_line};

/// Readings of each kind: whole, fractional, such as overflow or nearly vanish, and one that is refused.
const WHOLE: [f32; 6] = [-2.0, -1.0, -0.0, 0.0, 1.0, 2.0];
const FRACTIONAL: [f32; 6] = [-1.25, -0.7, -0.1, 0.3, 0.45, 1.1];
const EXTREME: [f32; 6] = [3e38, -3e38, f32::MAX, f32::MIN, 1e-45, -1e-38];
const BAD: [f32; 3] = [f32::NAN, f32::INFINITY, f32::NEG_INFINITY];

pub fn add(list: &mut Stored, random: &mut Random) {
    list.comment(
        "b: block decode. Code, rate, info count, the readings' bytes, lengths of out and scratch; the answer, both",
    );
    list.comment("after the call.");
    bench_sheet(list);
    each_rate(list, 0, random);
    each_rate(list, 1, random);
    refusals(list);
    former_limit(list);
}

/// Code number 2.
pub fn add_standard(list: &mut Stored, random: &mut Random) {
    list.comment("b of code number 2, K7 with the keep patterns of EN 300 744: answers by the standard.");
    each_rate(list, 2, random);
    let nan = bytes_of(&[f32::NAN]);
    for (rate, info, room, scratch) in [
        (5, FORMER_LIMIT + 1, 0, 0),
        (4, FORMER_LIMIT + 1, 0, 0),
        (4, 3, 2, 0),
        (4, 3, 3, survivors(2, 3) - 1),
        (4, 3, 3, survivors(2, 3)),
    ] {
        list.add(block_line(2, rate, info, &nan, room, scratch));
    }
}

fn each_rate(list: &mut Stored, code: u8, random: &mut Random) {
    for (rate, _) in RATES {
        kinds(list, code, rate, random);
        bad_readings(list, code, rate);
    }
}

pub(super) fn bytes_of(readings: &[f32]) -> Vec<u8> {
    readings.iter().flat_map(|reading| reading.to_le_bytes()).collect()
}

fn block(list: &mut Stored, code: u8, rate: u8, info: usize, readings: &[f32], more: usize) {
    let (room, scratch) = (info + more, survivors(code, info) + more);
    list.add(block_line(code, rate, info, &bytes_of(readings), room, scratch));
}

fn bench_sheet(list: &mut Stored) {
    block(list, 0, 0, 1, &[-1.0], 0);
    block(list, 0, 0, 1, &[-1.0, 1.0], 0);
    block(list, 0, 0, 3, &[], 0);
    let mut eleven = [1.0; 11];
    eleven[10] = f32::NAN;
    block(list, 0, 0, 1, &eleven, 0);
    eleven[9] = f32::NAN;
    block(list, 0, 0, 1, &eleven, 0);
}

/// Lists of none, one, one short, exact and long, for info counts about each period.
fn kinds(list: &mut Stored, code: u8, rate: u8, random: &mut Random) {
    for (at, info) in [0, 1, 2, 3, 7, 8].into_iter().enumerate() {
        let coded = encoder::coded_len(code, rate, info) as usize;
        for (kind, values) in [WHOLE, FRACTIONAL, EXTREME].into_iter().enumerate() {
            let lens = [coded, coded - 1, coded + 3, 0, 1];
            let len = lens[(at + kind) % lens.len()];
            let readings: Vec<f32> = (0..len).map(|_| values[random.below(values.len())]).collect();
            block(list, code, rate, info, &readings, at % 3);
        }
    }
}

/// The first place, the last that is used, and the first that is not.
fn bad_readings(list: &mut Stored, code: u8, rate: u8) {
    let coded = encoder::coded_len(code, rate, 2) as usize;
    for (place, bad) in [0, coded - 1, coded].into_iter().zip(BAD) {
        let mut readings = vec![0.5; coded + 1];
        readings[place] = bad;
        block(list, code, rate, 2, &readings, 1);
    }
}

/// Each refusal alone, and each with those above it; a last piece under four bytes.
fn refusals(list: &mut Stored) {
    let nan = bytes_of(&[f32::NAN]);
    for (code, rate, info, room, scratch) in [
        (3, 5, FORMER_LIMIT + 1, 0, 0),
        (1, 5, FORMER_LIMIT + 1, 0, 0),
        (1, 4, FORMER_LIMIT + 1, 0, 0),
        (1, 4, 3, 2, 0),
        (1, 4, 3, 3, survivors(1, 3) - 1),
        (1, 4, 3, 3, survivors(1, 3)),
        (255, 0, 3, 3, survivors(1, 3)),
        (0, 255, 3, 3, survivors(0, 3)),
        (0, 0, usize::MAX, 3, survivors(0, 3)),
    ] {
        list.add(block_line(code, rate, info, &nan, room, scratch));
    }
    let cut = bytes_of(&[-1.0, 1.0]);
    for len in 4..8 {
        list.add(block_line(0, 0, 1, &cut[..len], 1, survivors(0, 1)));
    }
}

/// A block of K7 at the former limit, whose scratch lacks a byte, one beyond it, and one four times as long.
fn former_limit(list: &mut Stored) {
    let piece = bytes_of(&[1.0, -1.0, 0.5]);
    for (info, scratch) in [
        (FORMER_LIMIT, survivors(1, FORMER_LIMIT) - 1),
        (FORMER_LIMIT + 1, survivors(1, FORMER_LIMIT)),
        (4 * FORMER_LIMIT, 0),
    ] {
        let readings = 4 * encoder::coded_len(1, 0, FORMER_LIMIT) as usize * info.div_ceil(FORMER_LIMIT + 1);
        list.add(repeated_line(1, 0, info, &piece, readings, info, scratch));
    }
}
