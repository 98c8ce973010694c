//! The encoder's lines of 01's bench sheet, run through the doors.

use relay_coder::{Code, INFO_LIMIT, Rate, Refusal, coded_len, conv_encode, encode};

const RATES: [Rate; 5] = [Rate::R1_2, Rate::R2_3, Rate::R3_4, Rate::R5_6, Rate::R7_8];

/// The bits of a line as 01 prints them, spaces left out.
fn bits(line: &str) -> Vec<u8> {
    line.bytes().filter(|b| *b != b' ').map(|b| b - b'0').collect()
}

#[test]
fn k5_info_1_at_1_2() {
    assert_eq!(encode(Code::K5, Rate::R1_2, &[1]), Ok(bits("11 00 10 01 11")));
}

#[test]
fn k5_info_1_at_3_4() {
    assert_eq!(encode(Code::K5, Rate::R3_4, &[1]), Ok(bits("1100011")));
}

#[test]
fn k7_info_1_at_1_2() {
    assert_eq!(encode(Code::DvbK7, Rate::R1_2, &[1]), Ok(bits("11 10 11 11 00 01 11")));
}

#[test]
fn k7_info_10_lengths() {
    assert_eq!(
        RATES.map(|rate| coded_len(Code::DvbK7, rate, 10)),
        [32, 24, 22, 20, 19].map(Ok)
    );
    assert_eq!(
        RATES.map(|rate| encode(Code::DvbK7, rate, &[1; 10]).unwrap().len()),
        [32, 24, 22, 20, 19]
    );
}

#[test]
fn k5_info_0_lengths() {
    assert_eq!(RATES.map(|rate| coded_len(Code::K5, rate, 0)), [8, 6, 6, 5, 5].map(Ok));
    assert_eq!(
        RATES.map(|rate| encode(Code::K5, rate, &[]).unwrap().len()),
        [8, 6, 6, 5, 5]
    );
}

/// So many ones are accepted, and give so many coded bits at each rate, by K5 and by either K7.
fn accepted(info: usize, k5: [usize; 5], k7: [usize; 5]) {
    let ones = vec![1; info];
    for (code, lens) in [(Code::K5, k5), (Code::DvbK7, k7), (Code::En300744, k7)] {
        assert_eq!(RATES.map(|rate| coded_len(code, rate, info)), lens.map(Ok));
        assert_eq!(RATES.map(|rate| encode(code, rate, &ones).unwrap().len()), lens);
    }
    assert_eq!(conv_encode(&ones).unwrap().len(), 2 * info);
}

#[test]
fn info_16384_is_accepted() {
    assert_eq!(INFO_LIMIT, 16_384);
    accepted(
        16_384,
        [32_776, 24_582, 21_851, 19_666, 18_730],
        [32_780, 24_585, 21_854, 19_668, 18_732],
    );
}

#[test]
fn info_4096_and_4097_are_accepted() {
    accepted(4096, [8200, 6150, 5467, 4920, 4686], [8204, 6153, 5470, 4923, 4688]);
    accepted(4097, [8202, 6152, 5468, 4922, 4687], [8206, 6155, 5471, 4924, 4690]);
}

#[test]
fn info_16385_gives_3() {
    let refused = Refusal { number: 3, place: 0 };
    let info = [1; INFO_LIMIT + 1];
    for code in [Code::K5, Code::DvbK7, Code::En300744] {
        for rate in RATES {
            assert_eq!(coded_len(code, rate, info.len()), Err(refused));
            assert_eq!(encode(code, rate, &info), Err(refused));
        }
    }
    assert_eq!(conv_encode(&info), Err(refused));
}

#[test]
fn only_the_lowest_bit_of_an_input_byte_counts() {
    let (plain, dirty) = ([1, 0, 1, 1, 0], [0xFF, 0xFE, 0x81, 3, 0x80]);
    assert_eq!(
        encode(Code::DvbK7, Rate::R5_6, &plain),
        encode(Code::DvbK7, Rate::R5_6, &dirty)
    );
    assert_eq!(conv_encode(&plain), conv_encode(&dirty));
    assert_ne!(conv_encode(&plain), conv_encode(&[1, 0, 1, 1, 1]));
}
