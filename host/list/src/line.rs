//! A line of the two lists, how its fields are written, and what a lent buffer holds before its call.

/// A call and its answer, each a line.
#[derive(Debug, Clone, PartialEq, Eq)]
pub struct Line {
    pub call: String,
    pub answer: String,
}

/// What every byte of an output is before the call; no coded bit has it.
pub const BEFORE: u8 = 0xA5;

/// As many equal bytes as this, or more, are written as a run.
const RUN: usize = 8;

/// An output before the call.
pub fn lent(len: usize) -> Vec<u8> {
    vec![BEFORE; len]
}

/// Bytes as two hex digits each, a run of them as `(BB*COUNT)`, or `-` if there are none.
pub fn bytes(bytes: &[u8]) -> String {
    if bytes.is_empty() {
        return "-".to_string();
    }
    let runs = bytes.chunk_by(|a, b| a == b);
    runs.map(|equal| run(equal[0], equal.len())).collect()
}

/// One byte so many times.
pub fn run(byte: u8, times: usize) -> String {
    match times {
        1 => format!("{byte:02x}"),
        RUN.. => format!("({byte:02x}*{times:x})"),
        _ => format!("{byte:02x}").repeat(times),
    }
}

/// A piece again and again, to so many bytes: `(PIECE*COUNT)`.
pub fn repeated(piece: &[u8], len: usize) -> String {
    let digits: String = piece.iter().map(|byte| format!("{byte:02x}")).collect();
    format!("({digits}*{len:x})")
}

/// The bytes that a field of [`bytes`] spells.
pub fn bytes_of(field: &str) -> Vec<u8> {
    let mut bytes = Vec::new();
    let mut rest = field.strip_prefix('-').unwrap_or(field);
    while !rest.is_empty() {
        let (piece, after) = match rest.strip_prefix('(').and_then(|run| run.split_once(')')) {
            Some((run, after)) => (run, after),
            None => rest.split_at(2),
        };
        let (byte, count) = piece.split_once('*').unwrap_or((piece, "1"));
        let value = |digits| usize::from_str_radix(digits, 16).expect("a line is in hex");
        bytes.extend(vec![value(byte) as u8; value(count)]);
        rest = after;
    }
    bytes
}

/// A number of 64 bits as sixteen hex digits.
pub fn number(number: u64) -> String {
    format!("{number:016x}")
}

#[cfg(test)]
mod tests {
    use super::*;

    #[test]
    fn bytes_with_runs() {
        assert_eq!(bytes(&[]), "-");
        assert_eq!(bytes(&[1, 1, 0xA5]), "0101a5");
        assert_eq!(bytes(&[&[3][..], &[0; 8], &[7; 7]].concat()), "03(00*8)07070707070707");
        assert_eq!(repeated(&[1, 0xFF], 16), "(01ff*10)");
    }

    #[test]
    fn what_is_written_is_read_back() {
        for list in [
            vec![],
            vec![5],
            vec![0; 7],
            vec![0; 300],
            [vec![9; 20], vec![1, 2], vec![2; 8]].concat(),
        ] {
            assert_eq!(bytes_of(&bytes(&list)), list);
        }
    }
}
