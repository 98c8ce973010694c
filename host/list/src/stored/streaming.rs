//! The part of the list about the streaming decoder. A line holds two whole records, so there are few of them.

use super::Stored;
use expected::Random;
use expected::streaming::{Decoder, Symbol};
use list::streaming::inputs::{KINDS, forged, noisy};
use list::streaming::{feed_lines, flush_line, fresh_line};

/// About the lag, the end of the history and normalisation.
const COUNTS: [usize; 7] = [1, 31, 32, 33, 40, 129, 257];

const BAD: f32 = 1024.0001;

/// Counts and turns of forged records: within their range and beyond, just before a bit, at the end of the history, and
/// where normalisation comes at once, at the second symbol, and at the end of a flush.
const FORGED: [(u8, u8); KINDS] = [(33, 255), (67, 254), (66, 127), (32, 254), (255, 224), (34, 128)];

pub fn add(list: &mut Stored, random: &mut Random) {
    list.comment("n: a fresh streaming decoder. Its record: the metrics' bytes, the history, the two counters.");
    list.add(fresh_line());
    list.comment(
        "t: symbols fed to one. Record before, the components' bytes; an answer for each symbol (a bit, 2 for",
    );
    list.comment("nothing, or a refusal), record after.");
    list.comment("u: one flushed. Record before, length of out; the answer, out after the call, record after.");
    COUNTS.into_iter().for_each(|count| stream(list, count, random));
    refused(list, random);
    list.comment("t and u: forged records, which the Rust cannot have: by document 01 alone.");
    (0..KINDS).for_each(|kind| from_forged(list, kind, random));
}

/// A stream, two flushes, and feeding on.
fn stream(list: &mut Stored, count: usize, random: &mut Random) {
    let decoder = &mut Decoder::fresh();
    feed(list, decoder, &noisy(count, random));
    flush(list, decoder, 32);
    flush(list, decoder, 40);
    feed(list, decoder, &noisy(3, random));
}

/// Refusal 7 at each place, alone and between symbols that are accepted, and refusal 4.
fn refused(list: &mut Stored, random: &mut Random) {
    let decoder = &mut Decoder::fresh();
    for symbol in noisy(33, random) {
        decoder.feed(symbol);
    }
    feed(list, decoder, &[[f32::NAN, 0.5]]);
    feed(list, decoder, &[[0.5, BAD]]);
    feed(
        list,
        decoder,
        &[
            [1024.0, -1024.0],
            [-BAD, f32::NAN],
            [0.0, f32::INFINITY],
            [-1024.0, 1024.0],
        ],
    );
    flush(list, decoder, 31);
}

fn from_forged(list: &mut Stored, kind: usize, random: &mut Random) {
    let mut record = forged(kind, random);
    (record.count, record.turn) = FORGED[kind];
    feed(
        list,
        &mut Decoder::forged(record.clone()),
        &[[0.5, -0.25], [f32::NAN, 0.0], [-1.0, 1.0]],
    );
    flush(list, &mut Decoder::forged(record), 33);
}

fn feed(list: &mut Stored, decoder: &mut Decoder, symbols: &[Symbol]) {
    feed_lines(decoder, symbols).into_iter().for_each(|line| list.add(line));
}

fn flush(list: &mut Stored, decoder: &mut Decoder, room: usize) {
    list.add(flush_line(decoder, room));
}
