//! Names, sound and broken.

use crate::rng::Rng;

const LETTERS: [char; 16] = [
    'a',
    'b',
    'z',
    '/',
    '\0',
    '\u{7f}',
    '\u{80}',
    'ä',
    '\u{7ff}',
    '\u{800}',
    '水',
    '\u{d7ff}',
    '\u{e000}',
    '\u{ffff}',
    '\u{10000}',
    '\u{10ffff}',
];

/// Sequences that are ill-formed whatever follows, by the reason for it. Each
/// is at fault from its first byte on.
const ILL_FORMED: [&[&[u8]]; 6] = [LONE, OVERLONG, SURROGATE, TOO_HIGH, BROKEN_OFF, NO_BYTE];

/// Bytes that only follow others.
const LONE: &[&[u8]] = &[b"\x80", b"\x9f", b"\xbf", b"\x80\x80"];

/// More bytes than the character needs.
const OVERLONG: &[&[u8]] = &[
    b"\xc0\x80",
    b"\xc1\xbf",
    b"\xe0\x80\x80",
    b"\xe0\x9f\xbf",
    b"\xf0\x80\x80\x80",
    b"\xf0\x8f\xbf\xbf",
];

const SURROGATE: &[&[u8]] = &[
    b"\xed\xa0\x80",
    b"\xed\xaf\xbf",
    b"\xed\xb0\x80",
    b"\xed\xbf\xbf",
];

/// Above U+10FFFF.
const TOO_HIGH: &[&[u8]] = &[
    b"\xf4\x90\x80\x80",
    b"\xf4\xbf\xbf\xbf",
    b"\xf5\x80\x80\x80",
    b"\xf7\xbf\xbf\xbf",
];

/// Begun, and then there is something else.
const BROKEN_OFF: &[&[u8]] = &[
    b"\xc2\x7f",
    b"\xc2\xc0",
    b"\xe1\x80\x00",
    b"\xe2\x28",
    b"\xef\xbf\xc0",
    b"\xf1\x80\x80\xff",
    b"\xf0\x90a",
];

/// Bytes that stand nowhere.
const NO_BYTE: &[&[u8]] = &[b"\xfe", b"\xff", b"\xf8\x88\x80\x80\x80"];

/// Begun, and then the text ends.
const CUT: [&[u8]; 7] = [
    b"\xc2",
    b"\xe1",
    b"\xe1\x80",
    b"\xed\x9f",
    b"\xf0",
    b"\xf0\x9f\x92",
    b"\xf4\x8f\xbf",
];

/// Text of at most `most` bytes, often empty and mostly short.
pub fn sound(rng: &mut Rng, most: usize) -> Vec<u8> {
    if rng.once_in(60) {
        return filled(rng, most);
    }
    let mut text = String::new();
    for _ in 0..rng.below(9) {
        let letter = if rng.once_in(2) {
            char::from(b'a' + rng.below(26) as u8)
        } else {
            rng.pick(&LETTERS)
        };
        if text.len() + letter.len_utf8() <= most {
            text.push(letter);
        }
    }
    text.into_bytes()
}

/// Text of just so many bytes.
fn filled(rng: &mut Rng, length: usize) -> Vec<u8> {
    let mut text = String::new();
    while text.len() + 4 <= length {
        text.push(rng.pick(&LETTERS));
    }
    while text.len() < length {
        text.push('e');
    }
    text.into_bytes()
}

/// Bytes that are not text.
#[derive(Clone, Debug)]
pub struct Broken {
    pub bytes: Vec<u8>,
    /// Where the first ill-formed sequence starts: what stands before it was
    /// drawn as text.
    pub start: u64,
}

/// Bytes that are not text, of at most `most` bytes (at least 8). The fault
/// is at the beginning, at the end, between or, seldom, far behind; another
/// one may follow.
pub fn broken(rng: &mut Rng, most: usize) -> Broken {
    let cut = rng.once_in(6);
    let fault = if cut {
        rng.pick(&CUT)
    } else {
        let reason = rng.pick(&ILL_FORMED);
        rng.pick(reason)
    };
    let mut bytes = before(rng, most - fault.len());
    let start = bytes.len() as u64;
    bytes.extend_from_slice(fault);
    // What follows could only complete a sequence that is cut.
    if !cut {
        let rest = after(rng, most - bytes.len());
        bytes.extend_from_slice(&rest);
    }
    Broken { bytes, start }
}

/// What stands before a fault.
fn before(rng: &mut Rng, most: usize) -> Vec<u8> {
    match rng.below(24) {
        0..=4 => Vec::new(),
        5 | 6 => {
            let length = most / 2 + rng.index(most / 2 + 1);
            filled(rng, length)
        }
        7 => filled(rng, most),
        _ => sound(rng, most),
    }
}

/// What stands behind a fault: nothing, text, or another fault.
fn after(rng: &mut Rng, most: usize) -> Vec<u8> {
    match rng.below(8) {
        0..=2 => Vec::new(),
        3 | 4 => {
            let mut bytes = sound(rng, most);
            let second = rng.pick(&CUT);
            if bytes.len() + second.len() <= most {
                bytes.extend_from_slice(second);
            }
            bytes
        }
        5 if most > 0 => {
            let length = rng.index(most);
            filled(rng, length)
        }
        _ => sound(rng, most),
    }
}

#[cfg(test)]
mod tests {
    use super::*;

    #[test]
    fn as_promised() {
        let mut rng = Rng::new(3);
        for most in [8, 9, 40, 255, 65_535] {
            for _ in 0..300 {
                let text = sound(&mut rng, most);
                assert!(text.len() <= most && std::str::from_utf8(&text).is_ok());
                let Broken { bytes, start } = broken(&mut rng, most);
                assert!(bytes.len() <= most);
                let fault = std::str::from_utf8(&bytes).expect_err("no text");
                assert_eq!(fault.valid_up_to() as u64, start, "{bytes:x?}");
            }
        }
    }

    /// Each is at fault from its first byte on, alone and with more behind it.
    #[test]
    fn every_sequence_is_ill_formed() {
        let start = |bytes: &[u8]| {
            std::str::from_utf8(bytes)
                .expect_err("no text")
                .valid_up_to()
        };
        for fault in ILL_FORMED.into_iter().flatten() {
            for behind in 0..=255 {
                assert_eq!(start(&[fault, &[behind][..]].concat()), 0, "{fault:x?}");
            }
            assert_eq!(start(fault), 0, "{fault:x?}");
        }
        for fault in CUT {
            assert_eq!(start(fault), 0, "{fault:x?}");
            let error = std::str::from_utf8(fault).expect_err("no text");
            assert_eq!(error.error_len(), None, "{fault:x?} is not cut");
        }
    }
}
