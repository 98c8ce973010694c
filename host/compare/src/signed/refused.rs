//! Readings of -128, which the decoder refuses where it uses them.

use super::accepted::any;
use crate::decoder::call::Call;
use crate::groups::Outcome;
use crate::lent::{FILLS, filled};
use expected::decoder::{AfterBlock, survivors};
use expected::encoder::coded_len;
use expected::{Random, refused};

/// At each place up to a few beyond the coded length, of lists that end there, that are exact and that have surplus; by
/// itself, and with others behind it, which do not count.
pub fn minus_128(code: u8, rate: u8, random: &mut Random) -> Outcome {
    let mut cases = 0;
    for info in [0, 1, 9, 40] {
        let coded = coded_len(code, rate, info) as usize;
        for place in 0..coded + 3 {
            for len in [place + 1, coded, coded + 1, coded + 3]
                .into_iter()
                .filter(|len| place < *len)
            {
                for more in [false, true] {
                    let mut list: Vec<i8> = (0..len).map(|_| any(random)).collect();
                    list[place] = -128;
                    for behind in &mut list[place + 1..] {
                        if more && random.below(3) > 0 {
                            *behind = -128;
                        }
                    }
                    cases += first_at(place, coded, (code, rate, info), &list, random)?;
                }
            }
        }
    }
    Ok(cases)
}

/// A list whose first -128 is at the place.
fn first_at(
    place: usize,
    coded: usize,
    (code, rate, info): (u8, u8, usize),
    readings: &[i8],
    random: &mut Random,
) -> Outcome {
    for fill in FILLS {
        let out = filled(fill, info, random);
        let scratch = filled(fill, survivors(code, info), random);
        let call = Call {
            code,
            rate,
            info,
            readings,
        };
        call.compare(&out, &scratch)?;
        if place < coded {
            let answer = refused(12) + place as u64;
            call.expect(&out.clone(), &scratch.clone(), &AfterBlock { answer, out, scratch })?;
        }
    }
    Ok(2)
}
