//! The block decoder of signed bytes, run through the door: 01's readings as bytes, the largest sums, where -128 is refused,
//! what a call leaves in lent buffers, and that it gives what the decoder of f32s gives.

use relay_coder::{
    Code, INFO_LIMIT, Rate, Refusal, SignedWord, coded_len, decode, decode_into, decode_signed, decode_signed_into,
    encode, scratch_len,
};

const RATES: [Rate; 5] = [Rate::R1_2, Rate::R2_3, Rate::R3_4, Rate::R5_6, Rate::R7_8];
const CODES: [Code; 3] = [Code::K5, Code::DvbK7, Code::En300744];

fn word(bits: &[u8], score: i32) -> Result<SignedWord, Refusal> {
    Ok(SignedWord {
        bits: bits.to_vec(),
        score,
    })
}

fn refusal(number: u32, place: u32) -> Refusal {
    Refusal { number, place }
}

/// A coded bit that is received without noise.
fn clean(bit: &u8) -> i8 {
    if *bit == 0 { 100 } else { -100 }
}

#[test]
fn reading_minus_1_gives_word_1_score_1() {
    assert_eq!(decode_signed(Code::K5, Rate::R1_2, 1, &[-1]), word(&[1], 1));
}

#[test]
fn readings_minus_127_and_127_tie_and_give_word_0() {
    assert_eq!(decode_signed(Code::K5, Rate::R1_2, 1, &[-127, 127]), word(&[0], 0));
}

#[test]
fn no_readings_give_000_score_0() {
    assert_eq!(decode_signed(Code::K5, Rate::R1_2, 3, &[]), word(&[0, 0, 0], 0));
}

#[test]
fn a_score_is_below_0_where_no_word_agrees() {
    assert_eq!(decode_signed(Code::K5, Rate::R1_2, 0, &[-127; 8]), word(&[], -8 * 127));
    assert_eq!(decode_signed(Code::K5, Rate::R1_2, 0, &[-1]), word(&[], -1));
}

#[test]
fn a_minus_128_is_refused_where_it_is_used() {
    let mut readings = [1; 11];
    readings[10] = -128;
    assert_eq!(decode_signed(Code::K5, Rate::R1_2, 1, &readings), word(&[0], 10));
    readings[9] = -128;
    assert_eq!(decode_signed(Code::K5, Rate::R1_2, 1, &readings), Err(refusal(12, 9)));
    readings[2] = -128;
    assert_eq!(decode_signed(Code::K5, Rate::R1_2, 1, &readings), Err(refusal(12, 2)));
}

#[test]
fn the_largest_sums_are_whole() {
    let coded = coded_len(Code::DvbK7, Rate::R1_2, INFO_LIMIT).unwrap();
    let zeros = decode_signed(Code::DvbK7, Rate::R1_2, INFO_LIMIT, &vec![127; coded]).unwrap();
    assert!(zeros.bits.iter().all(|bit| *bit == 0));
    assert_eq!(zeros.score, 127 * 32_780);
    // Seven ones in a row code to ones, so that the word is ones but about its ends.
    let ones = decode_signed(Code::DvbK7, Rate::R1_2, INFO_LIMIT, &vec![-127; coded]).unwrap();
    assert!(ones.bits[6..INFO_LIMIT - 6].iter().all(|bit| *bit == 1));
    let sent = encode(Code::DvbK7, Rate::R1_2, &ones.bits).unwrap();
    let agreeing = sent.iter().filter(|bit| **bit == 1).count() as i32;
    assert_eq!(ones.score, 127 * (2 * agreeing - 32_780));
}

#[test]
fn info_16384_is_accepted_and_16385_gives_3() {
    for code in CODES {
        for rate in RATES {
            assert_eq!(decode_signed(code, rate, INFO_LIMIT, &[]), word(&[0; 16_384], 0));
            assert_eq!(decode_signed(code, rate, INFO_LIMIT + 1, &[]), Err(refusal(3, 0)));
            assert_eq!(decode_signed(code, rate, usize::MAX, &[]), Err(refusal(3, 0)));
        }
    }
}

#[test]
fn info_4096_and_4097_are_accepted() {
    for code in CODES {
        for rate in RATES {
            for info in [4096, 4097] {
                assert_eq!(decode_signed(code, rate, info, &[]), word(&vec![0; info], 0));
            }
        }
    }
}

#[test]
fn a_damaged_codeword_comes_back() {
    for len in [200, 4096, 4097, INFO_LIMIT as u32] {
        let info: Vec<u8> = (0..len).map(|at| (at * at / 7 % 2) as u8).collect();
        for code in CODES {
            for rate in RATES {
                let mut readings: Vec<i8> = encode(code, rate, &info).unwrap().iter().map(clean).collect();
                let length = readings.len() as i32;
                assert_eq!(
                    decode_signed(code, rate, info.len(), &readings),
                    word(&info, 100 * length)
                );
                readings[50] = -readings[50] / 2;
                assert_eq!(
                    decode_signed(code, rate, info.len(), &readings),
                    word(&info, 100 * length - 150)
                );
            }
        }
    }
}

#[test]
fn lent_buffers_are_as_the_decoder_of_f32s_leaves_them() {
    let readings: Vec<i8> = (0..140).map(|at| (at * 37 % 255 - 127) as i8).collect();
    let floats: Vec<f32> = readings.iter().copied().map(f32::from).collect();
    for code in CODES {
        for rate in RATES {
            for info in [0, 1, 2, 30, 63] {
                let (mut out, mut scratch) = (vec![7; info + 2], vec![7; scratch_len(code, info) + 3]);
                let (mut other_out, mut other_scratch) = (out.clone(), scratch.clone());
                let score = decode_signed_into(code, rate, info, &readings, &mut out, &mut scratch).unwrap();
                let other = decode_into(code, rate, info, &floats, &mut other_out, &mut other_scratch).unwrap();
                assert_eq!((score as f32).to_bits(), other.to_bits());
                assert_eq!((out, scratch), (other_out, other_scratch));
                let by_value = decode_signed(code, rate, info, &readings).unwrap();
                assert_eq!(by_value.bits, decode(code, rate, info, &floats).unwrap().bits);
            }
        }
    }
}

#[test]
fn lent_buffers_keep_what_lies_beyond() {
    let rows = scratch_len(Code::DvbK7, 2);
    let (mut out, mut scratch) = ([7; 4], vec![7; rows + 3]);
    let score = decode_signed_into(Code::DvbK7, Rate::R3_4, 2, &[-127, 64], &mut out, &mut scratch);
    assert!(score.is_ok());
    assert!(out[..2].iter().all(|bit| *bit < 2));
    assert_eq!(out[2..], [7; 2]);
    assert!(scratch[..rows].iter().all(|state| *state < 64));
    assert_eq!(scratch[rows..], [7; 3]);
}

#[test]
fn a_refusal_keeps_every_byte() {
    let rows = scratch_len(Code::K5, 2);
    for (room, space, expected) in [
        (1, rows, refusal(4, 0)),
        (2, rows - 1, refusal(5, 0)),
        (2, rows, refusal(12, 1)),
    ] {
        let (mut out, mut scratch) = (vec![7; room], vec![7; space]);
        let answer = decode_signed_into(Code::K5, Rate::R1_2, 2, &[64, -128], &mut out, &mut scratch);
        assert_eq!(answer, Err(expected));
        assert!(out.iter().chain(&scratch).all(|byte| *byte == 7));
    }
}
