//! The CRC-32 of IEEE 802.3 in four plain forms, each of which takes a bit a turn.
//!
//! All give the same value: the register starts at all ones, the low bit of each byte comes first,
//! and the register is complemented at the end. They differ in what the compiler makes of them, here
//! as seen with rustc 1.95.
//!
//! - `branch` asks of each bit that leaves the register whether the polynomial is to be added.
//!   `rustc -O` knows this loop and puts a look-up in a table of 256 entries in its place.
//! - `high bit first` is the same loop in the other direction, with the polynomial as it is
//!   published, so each byte and the answer are turned round. It becomes a table too.
//! - `mask` adds the polynomial masked by the bit instead of asking. It stays a loop over bits,
//!   without jumps.
//! - `message bits` adds each bit of a byte when its turn comes, not the whole byte at first. It
//!   stays a loop over bits too.

/// The polynomial, with the coefficient of x^31 in the high bit.
const POLYNOMIAL: u32 = 0x04C1_1DB7;

/// The same with its bits turned round, for registers whose low bit leaves first.
const REVERSED: u32 = POLYNOMIAL.reverse_bits();

/// A form, by name.
#[derive(Clone, Copy)]
pub struct Form {
    pub name: &'static str,
    pub crc: fn(&[u8]) -> u32,
}

pub const FORMS: [Form; 4] = [
    Form {
        name: "branch",
        crc: branch,
    },
    Form {
        name: "high bit first",
        crc: high_bit_first,
    },
    Form {
        name: "mask",
        crc: mask,
    },
    Form {
        name: "message bits",
        crc: message_bits,
    },
];

// None of the forms is inlined: what is measured is the function, whoever calls it.

#[inline(never)]
fn branch(bytes: &[u8]) -> u32 {
    let mut register = u32::MAX;
    for &byte in bytes {
        register ^= u32::from(byte);
        for _ in 0..8 {
            register = if register & 1 == 1 {
                (register >> 1) ^ REVERSED
            } else {
                register >> 1
            };
        }
    }
    !register
}

#[inline(never)]
fn high_bit_first(bytes: &[u8]) -> u32 {
    let mut register = u32::MAX;
    for &byte in bytes {
        register ^= u32::from(byte.reverse_bits()) << 24;
        for _ in 0..8 {
            register = if register >> 31 == 1 {
                (register << 1) ^ POLYNOMIAL
            } else {
                register << 1
            };
        }
    }
    !register.reverse_bits()
}

#[inline(never)]
fn mask(bytes: &[u8]) -> u32 {
    let mut register = u32::MAX;
    for &byte in bytes {
        register ^= u32::from(byte);
        for _ in 0..8 {
            let all_or_none = (register & 1).wrapping_neg();
            register = (register >> 1) ^ (REVERSED & all_or_none);
        }
    }
    !register
}

#[inline(never)]
fn message_bits(bytes: &[u8]) -> u32 {
    let mut register = u32::MAX;
    for &byte in bytes {
        for place in 0..8 {
            let bit = (register ^ u32::from(byte >> place)) & 1;
            register >>= 1;
            if bit == 1 {
                register ^= REVERSED;
            }
        }
    }
    !register
}
