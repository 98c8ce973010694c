//! The proved functions of the crate `bench_calls`, for the bench and the comparison: document 01 gives these entries no
//! door. A refusal is its number times 2^32 plus its place.

mod foreign {
    use super::{Front, Streaming};

    // A slice crosses as a pointer and then a length.
    unsafe extern "C" {
        pub fn timed_viterbi_decode(
            soft: *const f32,
            soft_len: usize,
            out: *mut u8,
            out_len: usize,
            scratch: *mut u8,
            scratch_len: usize,
        ) -> u64;
        pub fn timed_stream(soft: *const f32, soft_len: usize, out: *mut u8, out_len: usize) -> u64;
        pub fn timed_feed(decoder: *mut Streaming, re: f32, im: f32) -> u64;
        pub fn timed_flush(decoder: *mut Streaming, out: *mut u8, out_len: usize) -> u64;
        pub fn timed_varicode_decode(bits: u16, len: u8) -> u64;
    }

    // The record is laid out as the proved code has it.
    const _: () = assert!(size_of::<Front>() == 68 && size_of::<Streaming>() == 2116);
}

/// The block decoder of symbols: how many symbols there are, or a refusal.
pub fn viterbi_decode(soft: &[f32], out: &mut [u8], scratch: &mut [u8]) -> u64 {
    // SAFETY: the slices are live and do not overlap, and the proved code stays within their lengths.
    unsafe {
        foreign::timed_viterbi_decode(
            soft.as_ptr(),
            soft.len(),
            out.as_mut_ptr(),
            out.len(),
            scratch.as_mut_ptr(),
            scratch.len(),
        )
    }
}

/// A fresh streaming decoder, fed by value with every symbol: how many bits came out, or a refusal.
pub fn stream(soft: &[f32], out: &mut [u8]) -> u64 {
    // SAFETY: as above.
    unsafe { foreign::timed_stream(soft.as_ptr(), soft.len(), out.as_mut_ptr(), out.len()) }
}

/// The Varicode lookup: the byte whose word has these bits and this length, if there is one.
pub fn varicode_decode(bits: u16, len: u8) -> Option<u8> {
    // SAFETY: numbers alone cross.
    u8::try_from(unsafe { foreign::timed_varicode_decode(bits, len) }).ok()
}

/// A streaming decoder's metrics and counters.
#[repr(C)]
#[derive(Clone)]
pub struct Front {
    pub pm: [f32; 16],
    pub count: u8,
    pub turn: u8,
}

/// A streaming decoder, fed in place.
#[repr(C)]
#[derive(Clone)]
pub struct Streaming {
    pub front: Front,
    pub history: [u8; 2048],
}

impl Streaming {
    /// State 0 at 0.0, the others unreachable, and all else 0.
    pub fn fresh() -> Streaming {
        let mut pm = [f32::MAX / 2.0; 16];
        pm[0] = 0.0;
        let front = Front { pm, count: 0, turn: 0 };
        Streaming {
            front,
            history: [0; 2048],
        }
    }

    /// A bit, or 2 where there is none yet, or a refusal.
    pub fn feed(&mut self, re: f32, im: f32) -> u64 {
        // SAFETY: the record is live and nobody else's, and the proved code stays within it.
        unsafe { foreign::timed_feed(self, re, im) }
    }

    /// How many bits were written, or a refusal.
    pub fn flush(&mut self, out: &mut [u8]) -> u64 {
        // SAFETY: the record and the slice are live and do not overlap, and the proved code stays within them.
        unsafe { foreign::timed_flush(self, out.as_mut_ptr(), out.len()) }
    }
}
