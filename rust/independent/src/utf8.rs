//! Well-formed text.

use crate::refusal::Refusal;

/// Refuses bytes that are not UTF-8: overlong forms, surrogates, what is
/// above U+10FFFF and what is cut off. `place` is that of the text among
/// those of its block.
#[inline]
pub fn require_text(place: u64, bytes: &[u8]) -> Result<(), Refusal> {
    match std::str::from_utf8(bytes) {
        Ok(_) => Ok(()),
        Err(fault) => Err(Refusal::not_text(place, fault.valid_up_to() as u64)),
    }
}

#[cfg(test)]
mod tests {
    use super::{require_text, Refusal};

    #[test]
    fn edges() {
        let sound: [&[u8]; 8] = [
            b"",
            b"\x00",
            b"\x7f",
            b"\xc2\x80",
            b"\xe0\xa0\x80",
            b"\xed\x9f\xbf",
            b"\xf0\x90\x80\x80",
            b"\xf4\x8f\xbf\xbf",
        ];
        let broken: [(&[u8], u64); 11] = [
            (b"\x80", 0),
            (b"\xc1\xbf", 0),
            (b"\xe0\x9f\xbf", 0),
            (b"\xed\xa0\x80", 0),
            (b"\xf0\x8f\xbf\xbf", 0),
            (b"\xf4\x90\x80\x80", 0),
            (b"\xf5\x80\x80\x80", 0),
            (b"a\xc3", 1),
            (b"\xff", 0),
            (b"\xc3\xa9\x80", 2),
            (b"\xe2\x82\xac\xf0\x9f\x92", 3),
        ];
        assert!(sound.iter().all(|text| require_text(0, text).is_ok()));
        for (text, start) in broken {
            assert_eq!(require_text(7, text), Err(Refusal::not_text(7, start)));
        }
    }
}
