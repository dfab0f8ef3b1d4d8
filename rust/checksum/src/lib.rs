//! The proved checksum by itself, for tests and measurements.
//!
//! The library has no call for it: what it offers works on volumes, and a program that has one needs
//! no checksum. So these calls stand in an archive of their own, made of the crate `checksum_calls`,
//! and nothing that is installed links it.
//!
//! The checksum is worked out with tables that a caller fills and lends, or without them. The three
//! functions differ in that alone.
//!
//! ```
//! assert_eq!(checksum::alone(b"123456789"), 0xCBF4_3926);
//! assert_eq!(checksum::lent(b"123456789"), 0xCBF4_3926);
//! assert_eq!(checksum::of_parts(b"123456789", 4), checksum::alone(b"1234") ^ checksum::alone(b"5678"));
//! ```
#![deny(missing_docs)]

/// The declarations of the archive.
mod raw {
    extern "C" {
        pub fn checksum_alone(bytes: *const u8, len: usize) -> u32;
        pub fn checksum_lent(bytes: *const u8, len: usize) -> u32;
        pub fn checksum_of_parts(bytes: *const u8, len: usize, size: usize) -> u32;
    }
}

/// The checksum of some bytes, with nothing lent.
pub fn alone(bytes: &[u8]) -> u32 {
    // SAFETY: the call reads `len` bytes from the pointer, which is what the slice lends.
    unsafe { raw::checksum_alone(bytes.as_ptr(), bytes.len()) }
}

/// The same with tables, which are filled for this one call.
pub fn lent(bytes: &[u8]) -> u32 {
    // SAFETY: as in `alone`.
    unsafe { raw::checksum_lent(bytes.as_ptr(), bytes.len()) }
}

/// The checksums of the parts of `size` bytes, one after another, all added by exclusive or. The
/// tables are filled once. What is left behind the last whole part does not count, and of parts of
/// 0 bytes there are none.
pub fn of_parts(bytes: &[u8], size: usize) -> u32 {
    // SAFETY: as in `alone`; the size is only a number.
    unsafe { raw::checksum_of_parts(bytes.as_ptr(), bytes.len(), size) }
}
