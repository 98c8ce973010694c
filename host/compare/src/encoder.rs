//! The encoders and the coded length: which groups are compared.

mod accepted;
mod entry;
mod lengths;
pub mod refused;

use crate::groups::Groups;
use entry::Entry;
use expected::{CODES, INFO_LIMIT, RATES, Random};

pub fn run(groups: &mut Groups, random: &mut Random) {
    run_entry(groups, random, Entry::Plain, "conv_encode");
    for (code, code_name) in CODES {
        for (rate, rate_name) in RATES {
            let name = format!("encode {code_name} {rate_name}");
            run_entry(groups, random, Entry::With { code, rate }, &name);
        }
    }
    run_lengths(groups);
    groups.report("encode, every code and rate number", refused::every_number(random));
    groups.report(
        "encode, every set of the faults 1, 2, 3, 4",
        refused::faults_of_encode(random),
    );
    groups.report(
        "conv_encode, every set of the faults 3, 4",
        refused::faults_of_plain(random),
    );
}

fn run_entry(groups: &mut Groups, random: &mut Random, entry: Entry, name: &str) {
    let words = format!("{name}, every word of 0 to {} bits", accepted::ALL_WORDS);
    groups.report(&words, accepted::every_word(entry, random));
    let named = format!(
        "{name}, lengths 0 to {} and {:?}",
        accepted::ALL_LENGTHS,
        accepted::LONG
    );
    groups.report(
        &format!("{named}, bits"),
        accepted::lengths(entry, random, Random::bits),
    );
    groups.report(
        &format!("{named}, upper bits set"),
        accepted::lengths(entry, random, Random::bytes),
    );
    groups.report(
        &format!("{name}, random lengths"),
        accepted::random_lengths(entry, random),
    );
    groups.report(
        &format!("{name}, over {INFO_LIMIT} info bits"),
        refused::too_long(entry, random),
    );
}

fn run_lengths(groups: &mut Groups) {
    for (code, code_name) in CODES {
        for (rate, rate_name) in RATES {
            let what = format!("coded_len {code_name} {rate_name}, info 0 to {INFO_LIMIT}, formula and encoding");
            groups.report(&what, lengths::accepted(code, rate));
        }
    }
    groups.report("coded_len, info counts beyond the limit", lengths::too_long());
    groups.report("coded_len, every code and rate number", lengths::every_number());
    groups.report("coded_len, every set of the faults 1, 2, 3", lengths::faults());
}
