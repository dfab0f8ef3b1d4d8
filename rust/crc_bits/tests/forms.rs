//! The four forms give the same values as the independent implementation.

use crc_forms::FORMS;
use generator::rng::Rng;
use independent::crc;

#[test]
fn published_values() {
    for form in FORMS {
        for (bytes, value) in [
            (&b""[..], 0),
            (b"a", 0xE8B7_BE43),
            (b"123456789", 0xCBF4_3926),
        ] {
            assert_eq!((form.crc)(bytes), value, "{}", form.name);
        }
    }
}

#[test]
fn all_lengths_to_300() {
    let bytes = Rng::new(3).bytes(300);
    for length in 0..=bytes.len() {
        let part = &bytes[..length];
        for form in FORMS {
            assert_eq!((form.crc)(part), crc::slicing(part), "{}", form.name);
        }
    }
}
