//! The block decoder's lines of 01's bench sheet, run through the door, and what a call leaves in lent buffers.

use relay_coder::{Code, INFO_LIMIT, Rate, Refusal, Word, coded_len, decode, decode_into, encode, scratch_len};

const RATES: [Rate; 5] = [Rate::R1_2, Rate::R2_3, Rate::R3_4, Rate::R5_6, Rate::R7_8];
const CODES: [Code; 3] = [Code::K5, Code::DvbK7, Code::En300744];

fn word(bits: &[u8], score: f32) -> Result<Word, Refusal> {
    Ok(Word {
        bits: bits.to_vec(),
        score,
    })
}

fn refusal(number: u32, place: u32) -> Refusal {
    Refusal { number, place }
}

/// A coded bit that is received without noise.
fn clean(bit: &u8) -> f32 {
    1.0 - 2.0 * f32::from(*bit)
}

#[test]
fn reading_minus_1_gives_word_1_score_1() {
    assert_eq!(decode(Code::K5, Rate::R1_2, 1, &[-1.0]), word(&[1], 1.0));
}

#[test]
fn readings_minus_1_and_1_tie_and_give_word_0() {
    assert_eq!(decode(Code::K5, Rate::R1_2, 1, &[-1.0, 1.0]), word(&[0], 0.0));
}

#[test]
fn no_readings_give_000_score_0() {
    assert_eq!(decode(Code::K5, Rate::R1_2, 3, &[]), word(&[0, 0, 0], 0.0));
}

#[test]
fn a_nan_is_refused_where_it_is_used() {
    let mut readings = [1.0; 11];
    readings[10] = f32::NAN;
    assert_eq!(decode(Code::K5, Rate::R1_2, 1, &readings), word(&[0], 10.0));
    readings[9] = f32::NAN;
    assert_eq!(decode(Code::K5, Rate::R1_2, 1, &readings), Err(refusal(6, 9)));
}

#[test]
fn info_16384_is_accepted_and_16385_gives_3() {
    for code in CODES {
        for rate in RATES {
            assert_eq!(decode(code, rate, INFO_LIMIT, &[]), word(&[0; 16_384], 0.0));
            assert_eq!(decode(code, rate, INFO_LIMIT + 1, &[]), Err(refusal(3, 0)));
            assert_eq!(decode(code, rate, usize::MAX, &[]), Err(refusal(3, 0)));
        }
    }
}

#[test]
fn info_4096_and_4097_are_accepted() {
    for code in CODES {
        for rate in RATES {
            for info in [4096, 4097] {
                assert_eq!(decode(code, rate, info, &[]), word(&vec![0; info], 0.0));
            }
        }
    }
}

#[test]
fn a_clean_codeword_comes_back_with_its_length_as_score() {
    for len in [200, 4096, 4097, INFO_LIMIT as u32] {
        let info: Vec<u8> = (0..len).map(|at| (at * at / 7 % 2) as u8).collect();
        for code in CODES {
            for rate in RATES {
                let readings: Vec<f32> = encode(code, rate, &info).unwrap().iter().map(clean).collect();
                let length = coded_len(code, rate, info.len()).unwrap();
                assert_eq!(decode(code, rate, info.len(), &readings), word(&info, length as f32));
            }
        }
    }
}

#[test]
fn lent_buffers_keep_what_lies_beyond() {
    let rows = scratch_len(Code::DvbK7, 2);
    let (mut out, mut scratch) = ([7; 4], vec![7; rows + 3]);
    let score = decode_into(Code::DvbK7, Rate::R3_4, 2, &[-1.0, 0.5], &mut out, &mut scratch);
    assert!(score.is_ok());
    assert!(out[..2].iter().all(|bit| *bit < 2));
    assert_eq!(out[2..], [7; 2]);
    assert!(scratch[..rows].iter().all(|state| *state < 64));
    assert_eq!(scratch[rows..], [7; 3]);
}

#[test]
fn a_refusal_keeps_every_byte() {
    let rows = scratch_len(Code::K5, 2);
    for (room, space, reading, expected) in [
        (1, rows, 0.0, refusal(4, 0)),
        (2, rows - 1, 0.0, refusal(5, 0)),
        (2, rows, f32::INFINITY, refusal(6, 1)),
    ] {
        let (mut out, mut scratch) = (vec![7; room], vec![7; space]);
        let answer = decode_into(Code::K5, Rate::R1_2, 2, &[0.5, reading], &mut out, &mut scratch);
        assert_eq!(answer, Err(expected));
        assert!(out.iter().chain(&scratch).all(|byte| *byte == 7));
    }
}
