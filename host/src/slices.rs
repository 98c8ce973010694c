//! Readings as a door takes them.

// A door takes the low byte first, which is how these machines keep an f32.
const _: () = assert!(
    cfg!(target_endian = "little"),
    "the doors are for machines with the low byte first"
);

/// The four bytes of each f32.
pub fn bytes_of(values: &[f32]) -> &[u8] {
    // SAFETY: every byte of an f32 is a byte, and a byte's alignment is that of any address.
    unsafe { std::slice::from_raw_parts(values.as_ptr().cast(), size_of_val(values)) }
}
