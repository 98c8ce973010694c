//! The doors themselves, with 01's numbers for code and rate, safe to call with any.
//!
//! Each returns the count or the score's 32 bits, or on a refusal its number times 2^32 plus the place. An accepted
//! call writes the front of what it was lent and nothing beyond; a refused one writes nothing.

mod foreign {
    // A slice crosses as a pointer and then a length. The last door is in an archive of its own, libradio.a.
    unsafe extern "C" {
        pub fn relay_conv_encode(bits: *const u8, bits_len: usize, out: *mut u8, out_len: usize) -> u64;
        pub fn relay_encode(code: u8, rate: u8, info: *const u8, info_len: usize, out: *mut u8, out_len: usize) -> u64;
        pub safe fn relay_coded_len(code: u8, rate: u8, info: usize) -> u64;
        pub fn relay_decode(
            code: u8,
            rate: u8,
            info: usize,
            readings: *const u8,
            readings_len: usize,
            out: *mut u8,
            out_len: usize,
            scratch: *mut u8,
            scratch_len: usize,
        ) -> u64;
        pub fn relay_decode_signed(
            code: u8,
            rate: u8,
            info: usize,
            readings: *const i8,
            readings_len: usize,
            out: *mut u8,
            out_len: usize,
            scratch: *mut u8,
            scratch_len: usize,
        ) -> u64;
    }
}

/// A block decoder's door. What a reading crosses as is `R`.
type BlockDoor<R> = unsafe extern "C" fn(u8, u8, usize, *const R, usize, *mut u8, usize, *mut u8, usize) -> u64;

/// The plain K5 encoder at rate 1/2, with no zeros after the bits. Refusals 3 and 4.
pub fn conv_encode(bits: &[u8], out: &mut [u8]) -> u64 {
    // SAFETY: both slices are live and do not overlap, and the proved code stays within their lengths.
    unsafe { foreign::relay_conv_encode(bits.as_ptr(), bits.len(), out.as_mut_ptr(), out.len()) }
}

/// The encoder with zero tail and keep pattern. Refusals 1 to 4.
pub fn encode(code: u8, rate: u8, info: &[u8], out: &mut [u8]) -> u64 {
    // SAFETY: as in `conv_encode`.
    unsafe { foreign::relay_encode(code, rate, info.as_ptr(), info.len(), out.as_mut_ptr(), out.len()) }
}

/// How many coded bits `encode` gives for so many info bits. Refusals 1 to 3.
pub fn coded_len(code: u8, rate: u8, info: usize) -> u64 {
    foreign::relay_coded_len(code, rate, info)
}

/// The block decoder of readings, which are four bytes each, low first; a last piece under four bytes is surplus.
/// The word goes to the first `info` bytes of `out`, the survivor numbers to the first steps × states bytes of
/// `scratch`. Refusals 1 to 6.
pub fn decode(code: u8, rate: u8, info: usize, readings: &[u8], out: &mut [u8], scratch: &mut [u8]) -> u64 {
    // SAFETY: the proved code stays within the lengths.
    unsafe { lend(foreign::relay_decode, code, rate, info, readings, out, scratch) }
}

/// The block decoder of readings that are signed bytes, -127 to 127, in whole numbers. Writes as `decode` does, and
/// answers the score's 32 bits in two's complement. Refusals 1 to 5, then 12 at the first used byte that is -128.
pub fn decode_signed(code: u8, rate: u8, info: usize, readings: &[i8], out: &mut [u8], scratch: &mut [u8]) -> u64 {
    // SAFETY: as in `decode`.
    unsafe { lend(foreign::relay_decode_signed, code, rate, info, readings, out, scratch) }
}

/// Lends the slices to a block decoder.
///
/// # Safety
///
/// The door must stay within the lengths that it is given.
unsafe fn lend<R>(
    door: BlockDoor<R>,
    code: u8,
    rate: u8,
    info: usize,
    readings: &[R],
    out: &mut [u8],
    scratch: &mut [u8],
) -> u64 {
    // SAFETY: the three slices are live and do not overlap; the rest is the caller's to see to.
    unsafe {
        door(
            code,
            rate,
            info,
            readings.as_ptr(),
            readings.len(),
            out.as_mut_ptr(),
            out.len(),
            scratch.as_mut_ptr(),
            scratch.len(),
        )
    }
}
