//! The block decoder of readings: which groups are compared.

pub mod accepted;
pub mod best;
pub mod call;
pub mod refused;

use crate::groups::Groups;
use call::bytes;
use expected::{CODES, INFO_LIMIT, RATES, Random};
use refused::Fault;

pub fn run(groups: &mut Groups, random: &mut Random) {
    let nan = Fault {
        good: bytes(&[1.0]),
        bad: bytes(&[f32::NAN]),
        number: 6,
    };
    for (code, code_name) in CODES {
        for (rate, rate_name) in RATES {
            let name = format!("decode {code_name} {rate_name}");
            groups.report(
                &format!(
                    "{name}, every list of up to {} of {:?}, info 0 to {}",
                    accepted::ALL_LISTS,
                    accepted::VALUES,
                    accepted::ALL_INFO
                ),
                accepted::every_list(code, rate, &accepted::VALUES, bytes),
            );
            for kind in accepted::KINDS {
                groups.report(
                    &format!(
                        "{name}, {} readings, none to surplus, info 0 to {} and {:?}",
                        kind.name,
                        accepted::LENGTHS,
                        accepted::LONG
                    ),
                    accepted::lengths(code, rate, kind, random),
                );
            }
            groups.report(
                &format!(
                    "{name}, codewords unharmed and in noise, info random up to {} and {:?}",
                    accepted::NOISY_LENGTHS,
                    accepted::LONG
                ),
                accepted::noisy(code, rate, bytes, random),
            );
            groups.report(
                &format!("{name}, a NaN or an infinity at each place, used and surplus"),
                refused::bad_readings(code, rate, random),
            );
            groups.report(
                &format!("{name}, a NaN at the last used and the first surplus place, info {INFO_LIMIT}"),
                refused::last_of_longest(code, rate, &nan, random),
            );
        }
    }
    groups.report(
        &format!(
            "decode, whole readings against every word of 0 to {} bits: the best, first among equals, its score, and that it stays",
            best::ALL_BITS
        ),
        best::every_word(&best::FLOATS, random),
    );
    groups.report(
        "decode, every code and rate number",
        refused::every_number(&bytes(&[-1.0, 0.5, 2.0]), random),
    );
    groups.report("decode, every set of the faults 1 to 6", refused::faults(&nan, random));
}
