//! The same lines again, by the streaming decoder in place: what it answers and leaves must be what the lines say, as
//! it must be by value.

use crate::answers::answered;
use crate::groups::Outcome;
use list::line::{BEFORE, Line, bytes, bytes_of};
use list::streaming::spelt;
use timed::{Front, Streaming};

/// Each line is a case: `n`, `t` and `u` as `list::streaming` writes them.
pub fn same(lines: &[Line]) -> Outcome {
    for line in lines {
        answered(line, &answer(&line.call)).map_err(|case| format!("  in place:\n{case}"))?;
    }
    Ok(lines.len() as u64)
}

/// What the decoder in place answers to a call, written as the proved program writes it.
fn answer(call: &str) -> String {
    let fields: Vec<&str> = call.split(' ').collect();
    match fields[..] {
        ["n"] => format!("n {}", record(&Streaming::fresh())),
        ["t", metrics, history, count, turn, symbols] => {
            let mut decoder = forged([metrics, history, count, turn]);
            let heard: String = bytes_of(symbols)
                .chunks_exact(8)
                .map(|symbol| decoder.feed(component(&symbol[..4]), component(&symbol[4..])))
                .map(|answer| format!(" {answer:x}"))
                .collect();
            format!("t{heard} {}", record(&decoder))
        }
        ["u", metrics, history, count, turn, room] => {
            let mut decoder = forged([metrics, history, count, turn]);
            let mut out = vec![BEFORE; usize::from_str_radix(room, 16).expect("a length")];
            let count = decoder.flush(&mut out);
            format!("u {count:016x} {} {}", bytes(&out), record(&decoder))
        }
        _ => "no such call".to_string(),
    }
}

fn component(bytes: &[u8]) -> f32 {
    f32::from_le_bytes(bytes.try_into().expect("a component has four bytes"))
}

fn forged([metrics, history, count, turn]: [&str; 4]) -> Streaming {
    let mut pm = [0.0; 16];
    for (metric, bytes) in pm.iter_mut().zip(bytes_of(metrics).chunks_exact(4)) {
        *metric = component(bytes);
    }
    let byte = |field| u8::from_str_radix(field, 16).expect("a counter");
    Streaming {
        front: Front {
            pm,
            count: byte(count),
            turn: byte(turn),
        },
        history: bytes_of(history).try_into().expect("a history has 2,048 bytes"),
    }
}

/// A record's fields, every NaN as one.
fn record(decoder: &Streaming) -> String {
    let metric = |x: &f32| if x.is_nan() { 0x7FC0_0000 } else { x.to_bits() }.to_le_bytes();
    let mut bytes: Vec<u8> = decoder.front.pm.iter().flat_map(metric).collect();
    bytes.extend(decoder.history);
    bytes.extend([decoder.front.count, decoder.front.turn]);
    spelt(&bytes)
}

#[cfg(test)]
mod tests {
    use super::*;
    use list::streaming::fresh_line;

    #[test]
    fn a_wrong_record_is_found() {
        let right = fresh_line();
        assert_eq!(same(&[right.clone()]), Ok(1));
        let mut wrong = right.clone();
        wrong.answer.pop();
        wrong.answer.push('1');
        assert!(same(&[right, wrong]).is_err());
    }
}
