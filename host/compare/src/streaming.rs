//! The streaming decoder, by value through `answers` and in place: which groups are compared.

mod forged;
mod in_place;
mod refused;
mod streams;

use crate::answers;
use crate::groups::Groups;
use expected::Random;
use list::line::Line;
use list::streaming::fresh_line;
use streams::{COUNTS, EACH, KINDS, Kind, LONG};

pub fn run(groups: &mut Groups, random: &mut Random) {
    report(groups, "a fresh one", &[fresh_line()]);
    for (kind, name) in KINDS {
        report(
            groups,
            &format!("{EACH} streams of each of {COUNTS:?} {name}, flushes, feeding on"),
            &streams::each_count(kind, random),
        );
    }
    for (kind, name) in [(Kind::Noisy, "with noise"), (Kind::Huge, "at ±1,024")] {
        report(
            groups,
            &format!("a stream of {LONG} symbols {name}, and a flush"),
            &streams::long(kind, random),
        );
    }
    report(
        groups,
        "forged records, good and bad symbols, flushes with and without room",
        &forged::lines(random),
    );
    report(
        groups,
        "a component that is NaN, infinite, 1,024 or just beyond, at re, at im and at both",
        &refused::symbols(random),
    );
    report(
        groups,
        "flushes with too little room and just enough",
        &refused::flushes(random),
    );
}

fn report(groups: &mut Groups, what: &str, lines: &[Line]) {
    groups.report(&format!("StreamingViterbi by value, {what}"), answers::same(lines));
    groups.report(&format!("StreamingViterbi in place, {what}"), in_place::same(lines));
}
