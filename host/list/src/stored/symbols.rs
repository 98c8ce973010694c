//! The part of the list about the block decoders of symbols.

use super::{FORMER_LIMIT, Stored};
use expected::Random;
use list::symbols::{hard_line, soft_line, survivors};

const LENGTHS: [usize; 8] = [0, 1, 2, 4, 5, 15, 16, 17];
const EXACT: [f32; 8] = [-1.0, 1.0, 0.0, -0.0, 0.5, -0.25, 1024.0, -1024.0];
const BAD: [f32; 4] = [f32::NAN, f32::INFINITY, -1024.0001, f32::NEG_INFINITY];

pub fn add(list: &mut Stored, random: &mut Random) {
    list.comment(
        "s: symbols decoded. The components' bytes, lengths of out and scratch; the answer, both after the call.",
    );
    soft(list, random);
    list.comment("h: hard bits decoded. Bits, lengths of out and scratch; the answer, both after the call.");
    hard(list, random);
}

fn soft(list: &mut Stored, random: &mut Random) {
    for count in LENGTHS {
        for odd in [0, 1] {
            let exact: Vec<f32> = (0..2 * count + odd).map(|_| EXACT[random.below(EXACT.len())]).collect();
            list.add(soft_line(&exact, count, survivors(count)));
            let noisy: Vec<f32> = (0..2 * count + odd)
                .map(|_| random.below(2001) as f32 / 800.0 - 1.25)
                .collect();
            list.add(soft_line(&noisy, count + 2, survivors(count) + 3));
        }
    }
    // Each bad value at the first place, at the last that is used, and at the one that is ignored.
    for bad in BAD {
        for place in [0, 7, 8] {
            let mut values = [0.5; 9];
            values[place] = bad;
            list.add(soft_line(&values, 4, survivors(4)));
        }
    }
    let many = vec![f32::NAN; 2 * (FORMER_LIMIT + 1)];
    for (len, room, scratch) in [(many.len(), 0, 0), (6, 2, 0), (6, 3, 47), (6, 3, 48)] {
        list.add(soft_line(&many[..len], room, scratch));
    }
}

fn hard(list: &mut Stored, random: &mut Random) {
    for count in LENGTHS {
        for odd in [0, 1] {
            list.add(hard_line(
                &random.bytes(2 * count + odd),
                count + odd,
                survivors(count) + odd,
            ));
        }
    }
    let many = vec![1; 2 * (FORMER_LIMIT + 1)];
    for (len, room, scratch) in [(many.len(), 0, 0), (6, 2, 0), (6, 3, 47)] {
        list.add(hard_line(&many[..len], room, scratch));
    }
}
