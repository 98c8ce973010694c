//! The reader for pauses, which groups are compared. The oracle has none: what is expected is by request 2026-01.

mod both;
mod full;
mod stretched;
mod strings;

use super::{forged, joined, reader};
use crate::answers;
use crate::groups::Groups;
use expected::Random;
use list::varicode::{ReaderLine, inputs};

/// The reader by itself.
pub fn run(groups: &mut Groups, random: &mut Random) {
    run_strings(groups, reader::ALL_BITS);
    groups.report(
        "VaricodeDecoder for pauses, random bits, words and pauses, words over ten bits, bits above 1, full queues",
        answers::same(&strings::random_lines(random)),
    );
    groups.report(
        "VaricodeDecoder for pauses, every word ended at a full queue, and gone on with after a refused zero",
        answers::same(&full::lines()),
    );
    groups.report(
        "VaricodeDecoder for pauses, forged records, one call alone and several",
        answers::same(&forged::readers(inputs::reader_for_pauses, random)),
    );
}

/// With one taken after each bit, the answers to the longest strings have those to all shorter ones in them.
fn run_strings(groups: &mut Groups, most: usize) {
    let new = ReaderLine::for_pauses;
    groups.report(
        &format!("VaricodeDecoder for pauses, every string of 0 to {most} bits, characters taken at the end"),
        answers::same(&reader::every_string(0..=most, new, |line| line)),
    );
    groups.report(
        &format!("VaricodeDecoder for pauses, every string of {most} bits, a character taken after each bit"),
        answers::same(&reader::every_string(most..=most, new, |line| line.take(1))),
    );
}

/// The writer joined to it.
pub fn run_texts(groups: &mut Groups, random: &mut Random) {
    let joined = "VaricodeEncoder joined to VaricodeDecoder for pauses";
    let (longest, equal) = (joined::LONGEST, stretched::EQUAL);
    groups.report(
        &format!("{joined}, random texts of up to {longest} bytes, any opening, any pauses, which must come out"),
        stretched::outcome(random),
    );
    groups.report(
        &format!("{joined}, random texts of {longest} bytes, {equal:?} zeros between all letters"),
        stretched::equal_pauses(random),
    );
    groups.report(
        "both kinds of VaricodeDecoder, texts without an opening, which they must read alike bit by bit",
        both::outcome(random),
    );
}
