//! The IEEE CRC-32 in three forms that give the same value.

/// 0x04C11DB7 with its bits turned round.
const POLYNOMIAL: u32 = 0xEDB8_8320;

const fn one_byte(mut register: u32) -> u32 {
    let mut bit = 0;
    while bit < 8 {
        register = (register >> 1) ^ (POLYNOMIAL & (register & 1).wrapping_neg());
        bit += 1;
    }
    register
}

/// Row k is the effect of a byte followed by k zero bytes.
const fn tables() -> [[u32; 256]; 8] {
    let mut rows = [[0; 256]; 8];
    let mut byte = 0;
    while byte < 256 {
        let mut value = one_byte(byte as u32);
        let mut row = 0;
        while row < 8 {
            rows[row][byte] = value;
            value = one_byte(value & 0xFF) ^ (value >> 8);
            row += 1;
        }
        byte += 1;
    }
    rows
}

static TABLES: [[u32; 256]; 8] = tables();

/// Bit by bit. Slow; the others are measured against it.
pub fn bits(bytes: &[u8]) -> u32 {
    let mut register = !0;
    for &byte in bytes {
        register = one_byte(register ^ u32::from(byte));
    }
    !register
}

#[inline]
fn bytes_on(mut register: u32, bytes: &[u8]) -> u32 {
    for &byte in bytes {
        register = TABLES[0][usize::from(register as u8 ^ byte)] ^ (register >> 8);
    }
    register
}

/// One table look-up for each byte.
pub fn table(bytes: &[u8]) -> u32 {
    !bytes_on(!0, bytes)
}

/// Eight bytes at a time.
pub fn slicing(bytes: &[u8]) -> u32 {
    let (words, tail) = bytes.as_chunks::<8>();
    let mut register: u32 = !0;
    for word in words {
        let w = (u64::from_le_bytes(*word) ^ u64::from(register)).to_le_bytes();
        register = TABLES[7][usize::from(w[0])]
            ^ TABLES[6][usize::from(w[1])]
            ^ TABLES[5][usize::from(w[2])]
            ^ TABLES[4][usize::from(w[3])]
            ^ TABLES[3][usize::from(w[4])]
            ^ TABLES[2][usize::from(w[5])]
            ^ TABLES[1][usize::from(w[6])]
            ^ TABLES[0][usize::from(w[7])];
    }
    !bytes_on(register, tail)
}

#[cfg(test)]
mod tests {
    use super::*;

    #[test]
    fn published_check_value() {
        for form in [bits, table, slicing] {
            assert_eq!(form(b"123456789"), 0xCBF4_3926);
            assert_eq!(form(b""), 0);
            assert_eq!(form(b"a"), 0xE8B7_BE43);
        }
    }

    #[test]
    fn three_forms_agree() {
        let mut state = 1u64;
        let bytes: Vec<u8> = (0..400)
            .map(|_| {
                state = state.wrapping_mul(6364136223846793005).wrapping_add(99);
                (state >> 56) as u8
            })
            .collect();
        for from in 0..9 {
            for to in from..bytes.len() {
                let part = &bytes[from..to];
                let expected = bits(part);
                assert_eq!(table(part), expected);
                assert_eq!(slicing(part), expected);
            }
        }
    }
}
