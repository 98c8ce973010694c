//! A queue in an array with a head and a count, as the port's records have it.

/// A queue of `N` bytes at most, forged or not.
#[derive(Debug, Clone, PartialEq, Eq)]
pub struct Ring<const N: usize> {
    pub slots: [u8; N],
    pub head: u64,
    pub count: u64,
}

impl<const N: usize> Ring<N> {
    pub fn empty() -> Ring<N> {
        Ring {
            slots: [0; N],
            head: 0,
            count: 0,
        }
    }

    /// How many bytes are inside. A head or a count out of range is read modulo one more than its largest value.
    pub fn held(&self) -> usize {
        (self.count % (N as u64 + 1)) as usize
    }

    fn first(&self) -> usize {
        (self.head % N as u64) as usize
    }

    /// What is inside, in the order in which it comes out.
    pub fn inside(&self) -> Vec<u8> {
        (0..self.held()).map(|at| self.slots[(self.first() + at) % N]).collect()
    }

    /// Puts bytes behind the others, which there must be room for; after that the head and the count are as they were read.
    pub fn put(&mut self, bytes: &[u8]) {
        let (first, held) = (self.first(), self.held());
        assert!(held + bytes.len() <= N, "no room for {} behind {held}", bytes.len());
        for (at, byte) in bytes.iter().enumerate() {
            self.slots[(first + held + at) % N] = *byte;
        }
        self.head = first as u64;
        self.count = (held + bytes.len()) as u64;
    }

    /// The next byte, taken out. An empty queue stays as it came.
    pub fn take(&mut self) -> Option<u8> {
        let (first, held) = (self.first(), self.held());
        if held == 0 {
            return None;
        }
        self.head = ((first + 1) % N) as u64;
        self.count = held as u64 - 1;
        Some(self.slots[first])
    }
}
