//! Code number 2, which the oracle does not have, by ETSI EN 300 744, 4.3.3: from the sequences that the standard's table
//! says are transmitted, and from no row of a keep pattern. Of the oracle only its decoder at rate 1/2 is used, where
//! nothing is deleted and the order of the rows says nothing.

use oracle::fec::conv::{ConvCode, PunctureRate, viterbi_decode_soft_with};

/// What is transmitted for each stretch of input bits, by the numbers of the rates: X or Y, and of which input bit.
const TRANSMITTED: [&str; 5] = [
    "X1 Y1",
    "X1 Y1 Y2",
    "X1 Y1 Y2 X3",
    "X1 Y1 Y2 X3 Y4 X5",
    "X1 Y1 Y2 Y3 Y4 X5 Y6 X7",
];

/// How many bits ago came what X sums, and what Y does: octal 171 and 133, the newest bit first.
const DELAYS: [[usize; 5]; 2] = [[0, 1, 2, 3, 6], [0, 2, 3, 5, 6]];

/// So many zeros follow the info bits.
const TAIL: usize = 6;

/// One of the outputs: 0 for X or 1 for Y, and the input bit that it comes with, counted from 0.
type Output = (usize, usize);

/// The coded bits of info bits.
pub fn encode(rate: u8, info: &[u8]) -> Vec<u8> {
    let bits = [info, &[0; TAIL]].concat();
    let sum = |(of, at): Output| {
        let summed = DELAYS[of].iter().filter_map(|delay| at.checked_sub(*delay));
        summed.map(|from| bits[from] % 2).sum::<u8>() % 2
    };
    transmitted(rate, info.len()).into_iter().map(sum).collect()
}

/// How many coded bits so many info bits give.
pub fn coded_len(rate: u8, info: usize) -> usize {
    transmitted(rate, info).len()
}

/// The readings put back to where they were sent, X's and Y's of each input bit; 0 where none is.
pub fn received<R: Copy + Default>(rate: u8, readings: &[R], info: usize) -> Vec<[R; 2]> {
    let mut pairs = vec![[R::default(); 2]; info + TAIL];
    for (reading, (of, at)) in readings.iter().zip(transmitted(rate, info)) {
        pairs[at][of] = *reading;
    }
    pairs
}

/// The word that the oracle decodes from such pairs.
pub fn decode(pairs: &[[f32; 2]], info: usize) -> Vec<u8> {
    viterbi_decode_soft_with(ConvCode::DvbK7, &pairs.concat(), info, PunctureRate::R1_2)
}

/// The outputs that are transmitted for so many info bits, in order; of a last stretch those that it comes to.
fn transmitted(rate: u8, info: usize) -> Vec<Output> {
    let of_stretch: Vec<Output> = TRANSMITTED[usize::from(rate)].split(' ').map(output).collect();
    let stretch = of_stretch
        .iter()
        .map(|(_, at)| at + 1)
        .max()
        .expect("something is transmitted");
    let bits = info + TAIL;
    let starts = (0..bits).step_by(stretch);
    let outputs = starts.flat_map(|start| of_stretch.iter().map(move |(of, at)| (*of, start + at)));
    outputs.filter(|(_, at)| *at < bits).collect()
}

/// What a name such as Y2 names.
fn output(name: &str) -> Output {
    match name.as_bytes() {
        [b'X', number] => (0, usize::from(number - b'1')),
        [b'Y', number] => (1, usize::from(number - b'1')),
        _ => panic!("{name} is no output"),
    }
}

#[cfg(test)]
mod tests {
    use super::*;
    use oracle::fec::conv::conv_encode_punctured_with;

    /// Every word up to this many bits.
    fn words() -> impl Iterator<Item = Vec<u8>> {
        (0..=12).flat_map(|len| (0..1 << len).map(move |word| (0..len).map(|at| (word >> at & 1) as u8).collect()))
    }

    fn bits(line: &str) -> Vec<u8> {
        line.bytes().filter(|b| *b != b' ').map(|b| b - b'0').collect()
    }

    #[test]
    fn at_1_2_it_is_the_oracles_k7() {
        for word in words() {
            let oracles = conv_encode_punctured_with(ConvCode::DvbK7, &word, PunctureRate::R1_2);
            assert_eq!(encode(0, &word), oracles);
        }
    }

    #[test]
    fn the_smallest_words_that_differ_from_the_oracles() {
        for (rate, oracle_rate, must, oracles) in [
            (1, PunctureRate::R2_3, "11 0 11 1 00 1 11", "11 1 11 1 00 0 11"),
            (2, PunctureRate::R3_4, "11 0 1 11 0 0 11", "11 1 1 11 0 1 11"),
            (3, PunctureRate::R5_6, "11 0 1 1 0 01 1", "11 1 1 1 0 01 1"),
            (4, PunctureRate::R7_8, "11 0 1 1 0 1 1", "11 1 1 1 0 0 1"),
        ] {
            assert_eq!(encode(rate, &[1]), bits(must));
            let rust = conv_encode_punctured_with(ConvCode::DvbK7, &[1], oracle_rate);
            assert_eq!(rust, bits(oracles));
        }
    }

    #[test]
    fn readings_go_back_to_their_places() {
        let pairs = received(2, &[1.0, 2.0, 3.0, 4.0, 5.0], 1);
        assert_eq!(pairs[..4], [[1.0, 2.0], [0.0, 3.0], [4.0, 0.0], [5.0, 0.0]]);
        assert_eq!(pairs[4..], [[0.0; 2]; 3]);
    }
}
