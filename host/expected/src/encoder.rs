//! The encoders and the coded length.

use crate::{After, INFO_LIMIT, refused, standard};
use oracle::fec::conv::{ConvCode, PunctureRate, conv_encode_punctured_with, punctured_coded_len_with};

/// `relay_encode`, for an `out` as it is before the call.
pub fn encode(code: u8, rate: u8, info: &[u8], out: &[u8]) -> After {
    match selected(code, rate, info.len()) {
        Ok(Selected::Oracle(code, rate)) => fit(&conv_encode_punctured_with(code, info, rate), out),
        Ok(Selected::Standard(rate)) => fit(&standard::encode(rate, info), out),
        Err(number) => After::refusal(number, out),
    }
}

/// `relay_conv_encode`, for an `out` as it is before the call.
pub fn conv_encode(bits: &[u8], out: &[u8]) -> After {
    if bits.len() > INFO_LIMIT {
        return After::refusal(3, out);
    }
    fit(&oracle::codec::conv_encode(bits), out)
}

/// `relay_coded_len`.
pub fn coded_len(code: u8, rate: u8, info: usize) -> u64 {
    match selected(code, rate, info) {
        Ok(selected) => selected.coded_len(info) as u64,
        Err(number) => refused(number),
    }
}

/// What a code number and a rate number select: the oracle's code and rate, or the standard's at the rate number.
pub(crate) enum Selected {
    Oracle(ConvCode, PunctureRate),
    Standard(u8),
}

impl Selected {
    pub(crate) fn coded_len(&self, info: usize) -> usize {
        match *self {
            Selected::Oracle(code, rate) => punctured_coded_len_with(code, info, rate),
            Selected::Standard(rate) => standard::coded_len(rate, info),
        }
    }
}

/// What is selected, or the first of the refusals 1, 2 and 3 that is due.
pub(crate) fn selected(code: u8, rate: u8, info: usize) -> Result<Selected, u64> {
    let code = match code {
        0 => Some(ConvCode::K5),
        1 => Some(ConvCode::DvbK7),
        2 => None,
        _ => return Err(1),
    };
    let oracle_rate = match rate {
        0 => PunctureRate::R1_2,
        1 => PunctureRate::R2_3,
        2 => PunctureRate::R3_4,
        3 => PunctureRate::R5_6,
        4 => PunctureRate::R7_8,
        _ => return Err(2),
    };
    if info > INFO_LIMIT {
        return Err(3);
    }
    Ok(code.map_or(Selected::Standard(rate), |code| Selected::Oracle(code, oracle_rate)))
}

/// The coded bits in `out`, or refusal 4 where it is too short.
fn fit(coded: &[u8], out: &[u8]) -> After {
    if out.len() < coded.len() {
        After::refusal(4, out)
    } else {
        After::written(coded, out)
    }
}
