//! Code number 2 beside number 1: the streams that docs/DIFFERENCES.md shows, and what becomes of the one in a receiver
//! for the other.

use relay_coder::{Code, Rate, coded_len, decode, encode};

const RATES: [Rate; 5] = [Rate::R1_2, Rate::R2_3, Rate::R3_4, Rate::R5_6, Rate::R7_8];

/// The letters of "medicine" in Varicode, two zeros between them.
const MEDICINE: &str = "111011 00 11 00 101101 00 1101 00 101111 00 1101 00 1111 00 11";

/// Bits as a page prints them, spaces left out.
fn bits(line: &str) -> Vec<u8> {
    line.bytes().filter(|b| *b != b' ').map(|b| b - b'0').collect()
}

/// The coded bits as they are received without noise.
fn clean(coded: &[u8]) -> Vec<f32> {
    coded.iter().map(|bit| 1.0 - 2.0 * f32::from(*bit)).collect()
}

#[test]
fn info_1_at_2_3() {
    assert_eq!(encode(Code::DvbK7, Rate::R2_3, &[1]), Ok(bits("11 1 11 1 00 0 11")));
    assert_eq!(encode(Code::En300744, Rate::R2_3, &[1]), Ok(bits("11 0 11 1 00 1 11")));
}

#[test]
fn medicine_at_3_4() {
    let info = bits(MEDICINE);
    assert_eq!(info.len(), 48);
    assert_eq!(
        encode(Code::DvbK7, Rate::R3_4, &info),
        Ok(bits(
            "1100 1011 1111 0011 0010 0100 1010 1000 0110 0101 1001 0111 1101 1010 1110 0111 1111 0111"
        ))
    );
    assert_eq!(
        encode(Code::En300744, Rate::R3_4, &info),
        Ok(bits(
            "1111 1011 1101 0011 0011 0111 1001 1000 0101 0110 1000 0101 1100 1001 1101 0101 1111 0101"
        ))
    );
}

#[test]
fn medicine_at_3_4_in_a_receiver_for_the_other() {
    let info = bits(MEDICINE);
    for (sender, receiver) in [(Code::DvbK7, Code::En300744), (Code::En300744, Code::DvbK7)] {
        let readings = clean(&encode(sender, Rate::R3_4, &info).unwrap());
        assert_eq!(decode(sender, Rate::R3_4, info.len(), &readings).unwrap().score, 72.0);
        let heard = decode(receiver, Rate::R3_4, info.len(), &readings).unwrap();
        let wrong = heard.bits.iter().zip(&info).filter(|(got, sent)| got != sent);
        assert_eq!((wrong.count(), heard.score), (28, 58.0));
    }
}

#[test]
fn at_1_2_they_are_the_same() {
    let info = bits(MEDICINE);
    assert_eq!(
        encode(Code::En300744, Rate::R1_2, &info),
        encode(Code::DvbK7, Rate::R1_2, &info)
    );
}

#[test]
fn both_send_as_many_bits() {
    for rate in RATES {
        for info in [0, 1, 2, 3, 10, 1000, 4096, 4097, 16_384] {
            assert_eq!(
                coded_len(Code::En300744, rate, info).unwrap(),
                coded_len(Code::DvbK7, rate, info).unwrap()
            );
        }
    }
}

#[test]
fn a_receiver_for_the_other_gets_another_word() {
    let info = bits(MEDICINE);
    for (sender, receiver) in [(Code::DvbK7, Code::En300744), (Code::En300744, Code::DvbK7)] {
        for rate in RATES {
            let readings = clean(&encode(sender, rate, &info).unwrap());
            assert_eq!(decode(sender, rate, info.len(), &readings).unwrap().bits, info);
            let heard = decode(receiver, rate, info.len(), &readings).unwrap().bits;
            assert_eq!(heard == info, rate == Rate::R1_2);
        }
    }
}
