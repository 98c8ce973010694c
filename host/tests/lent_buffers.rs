//! What a call leaves in the buffers that it was lent, and which refusal comes first.

use relay_coder::{Code, Rate, Refusal, conv_encode_into, doors, encode_into};

/// A byte that no coded bit has.
const CANARY: u8 = 0xA5;
const REFUSED: u64 = 1 << 32;

fn refusal(number: u32) -> Result<usize, Refusal> {
    Err(Refusal { number, place: 0 })
}

#[test]
fn a_long_buffer_keeps_its_rest() {
    let mut out = [CANARY; 14];
    assert_eq!(encode_into(Code::K5, Rate::R1_2, &[1], &mut out), Ok(10));
    assert_eq!(out, [1, 1, 0, 0, 1, 0, 0, 1, 1, 1, CANARY, CANARY, CANARY, CANARY]);
    let mut out = [CANARY; 4];
    assert_eq!(conv_encode_into(&[1], &mut out), Ok(2));
    assert_eq!(out, [1, 1, CANARY, CANARY]);
}

#[test]
fn a_short_buffer_gives_4_and_keeps_every_byte() {
    let mut out = [CANARY; 9];
    assert_eq!(encode_into(Code::K5, Rate::R1_2, &[1], &mut out), refusal(4));
    assert_eq!(out, [CANARY; 9]);
    let mut out = [CANARY; 1];
    assert_eq!(conv_encode_into(&[1], &mut out), refusal(4));
    assert_eq!(out, [CANARY; 1]);
}

#[test]
fn an_empty_call_of_the_plain_encoder_writes_nothing() {
    assert_eq!(conv_encode_into(&[], &mut []), Ok(0));
}

#[test]
fn unknown_codes_and_rates_give_1_and_2() {
    let mut out = [CANARY; 32];
    for (code, rate, number) in [(3, 0, 1), (255, 4, 1), (0, 5, 2), (1, 255, 2), (2, 5, 2)] {
        assert_eq!(doors::encode(code, rate, &[1], &mut out), number * REFUSED);
        assert_eq!(doors::coded_len(code, rate, 1), number * REFUSED);
        assert_eq!(doors::decode(code, rate, 1, &[], &mut out, &mut []), number * REFUSED);
        assert_eq!(
            doors::decode_signed(code, rate, 1, &[-128], &mut out, &mut []),
            number * REFUSED
        );
    }
    assert_eq!(out, [CANARY; 32]);
}

#[test]
fn the_lowest_number_comes_first() {
    let long = [0; 16_385];
    assert_eq!(doors::encode(3, 5, &long, &mut []), REFUSED);
    assert_eq!(doors::encode(1, 5, &long, &mut []), 2 * REFUSED);
    assert_eq!(doors::encode(1, 4, &long, &mut []), 3 * REFUSED);
    assert_eq!(doors::encode(1, 4, &long[..16_384], &mut []), 4 * REFUSED);
    assert_eq!(doors::conv_encode(&long, &mut []), 3 * REFUSED);
    assert_eq!(doors::conv_encode(&long[..16_384], &mut []), 4 * REFUSED);
    assert_eq!(doors::coded_len(3, 5, usize::MAX), REFUSED);
    assert_eq!(doors::coded_len(0, 5, usize::MAX), 2 * REFUSED);
    assert_eq!(doors::coded_len(0, 0, usize::MAX), 3 * REFUSED);
    let mut scratch = [CANARY; 80];
    let mut signed = |code, rate, info, room, space| {
        doors::decode_signed(
            code,
            rate,
            info,
            &[1, -128],
            &mut [CANARY][..room],
            &mut scratch[..space],
        )
    };
    assert_eq!(signed(3, 5, usize::MAX, 0, 0), REFUSED);
    assert_eq!(signed(0, 5, usize::MAX, 0, 0), 2 * REFUSED);
    assert_eq!(signed(0, 0, usize::MAX, 0, 0), 3 * REFUSED);
    assert_eq!(signed(0, 0, 16_385, 0, 0), 3 * REFUSED);
    assert_eq!(signed(0, 0, 16_384, 0, 0), 4 * REFUSED);
    assert_eq!(signed(0, 0, 1, 0, 0), 4 * REFUSED);
    assert_eq!(signed(0, 0, 1, 1, 79), 5 * REFUSED);
    assert_eq!(signed(0, 0, 1, 1, 80), 12 * REFUSED + 1);
}
