//! The checksum of the installed zlib, where this program is built with it.

/// zlib's checksum of at most 4 GiB.
pub const CRC: Option<fn(&[u8]) -> u32> = this_build::CRC;

/// Says so where it is not there.
pub fn say_if_missing() {
    if CRC.is_none() {
        println!("zlib: not timed; it is with --features zlib");
    }
}

#[cfg(feature = "zlib")]
#[allow(unsafe_code)]
mod this_build {
    use std::ffi::{c_uchar, c_uint, c_ulong};

    #[link(name = "z")]
    extern "C" {
        fn crc32(crc: c_ulong, bytes: *const c_uchar, len: c_uint) -> c_ulong;
    }

    pub const CRC: Option<fn(&[u8]) -> u32> = Some(crc);

    fn crc(bytes: &[u8]) -> u32 {
        let len = c_uint::try_from(bytes.len()).expect("at most 4 GiB");
        // SAFETY: zlib reads `len` bytes from the pointer, which is what the slice lends.
        unsafe { crc32(0, bytes.as_ptr(), len) as u32 }
    }
}

#[cfg(not(feature = "zlib"))]
mod this_build {
    pub const CRC: Option<fn(&[u8]) -> u32> = None;
}
