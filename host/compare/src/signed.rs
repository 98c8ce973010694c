//! The block decoder of readings that are signed bytes: which groups are compared. Each case is held to the model and to
//! the door of f32s, which is given the same numbers.

mod accepted;
mod best;
mod call;
mod refused;

use crate::decoder::accepted::{ALL_INFO, ALL_LISTS, LONG, NOISY_LENGTHS, every_list, noisy};
use crate::decoder::best::{ALL_BITS, every_word};
use crate::decoder::refused::{Fault, every_number, faults, last_of_longest};
use crate::groups::Groups;
use expected::{CODES, INFO_LIMIT, RATES, Random};

pub fn run(groups: &mut Groups, random: &mut Random) {
    let minus_128 = Fault {
        good: vec![1i8],
        bad: vec![-128],
        number: 12,
    };
    for (code, code_name) in CODES {
        for (rate, rate_name) in RATES {
            let name = format!("decode_signed {code_name} {rate_name}");
            groups.report(
                &format!(
                    "{name}, every list of up to {ALL_LISTS} of {:?}, info 0 to {ALL_INFO}",
                    accepted::VALUES
                ),
                every_list(code, rate, &accepted::VALUES, <[i8]>::to_vec),
            );
            for kind in accepted::KINDS {
                groups.report(
                    &format!(
                        "{name}, {}, none to surplus, info 0 to {} and {:?}",
                        kind.name,
                        accepted::LENGTHS,
                        accepted::LONG
                    ),
                    accepted::lengths(code, rate, kind, random),
                );
            }
            groups.report(
                &format!("{name}, codewords unharmed and in noise, info random up to {NOISY_LENGTHS} and {LONG:?}"),
                noisy(code, rate, accepted::quantised, random),
            );
            groups.report(
                &format!(
                    "{name}, all -127, all 127, the two in turn, for a codeword and against one, at {INFO_LIMIT} info bits"
                ),
                accepted::extremes(code, rate, random),
            );
            groups.report(
                &format!("{name}, -128 at each place, used and surplus, of lists short and long, alone and with more"),
                refused::minus_128(code, rate, random),
            );
            groups.report(
                &format!("{name}, -128 at the last used and the first surplus place, info {INFO_LIMIT}"),
                last_of_longest(code, rate, &minus_128, random),
            );
        }
    }
    groups.report(
        &format!(
            "decode_signed, against every word of 0 to {ALL_BITS} bits: the best, first among equals, its score, and that it stays"
        ),
        every_word(&best::SIGNED, random),
    );
    groups.report(
        "decode_signed, every code and rate number",
        every_number(&[-1i8, 5, 127], random),
    );
    groups.report(
        "decode_signed, every set of the faults 1 to 5 and 12",
        faults(&minus_128, random),
    );
}
