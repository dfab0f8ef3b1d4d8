//! The proved checksum against the independent one.

use checksum::{alone, lent, of_parts};
use generator::image;
use generator::rng::Rng;
use independent::crc;

/// Both ways of calling give the checksum that the bits give.
#[track_caller]
fn assert_same(bytes: &[u8]) {
    assert_is(bytes, crc::bits(bytes));
}

#[track_caller]
fn assert_is(bytes: &[u8], value: u32) {
    let length = bytes.len();
    assert_eq!(alone(bytes), value, "alone, {length} bytes");
    assert_eq!(lent(bytes), value, "lent, {length} bytes");
}

#[test]
fn published_values() {
    let rising: Vec<u8> = (0..=255).collect();
    assert_is(b"", 0);
    assert_is(b"a", 0xE8B7_BE43);
    assert_is(b"123456789", 0xCBF4_3926);
    assert_is(&[0; 32], 0x190A_55AD);
    assert_is(&[0xFF; 32], 0xFF6C_AB0B);
    assert_is(&rising[..32], 0x9126_7E8A);
    assert_is(&rising.repeat(4), 0xB70B_4C26);
}

/// The header of a volume 0 whose ID is zeros, and a data block; their sums stand behind them.
#[test]
fn sums_of_a_header_and_a_block() {
    let header = image::header(0, &[0; 16], &[0; 32]);
    let block = image::data(7, b"1,5");
    for (image, covered, value) in [(header, 76, 0x6099_BDDF), (block, 20, 0x1201_CB38_u32)] {
        assert_eq!(image[covered..], value.to_le_bytes());
        assert_is(&image[..covered], value);
    }
}

#[test]
fn short_lengths_at_each_start() {
    let bytes = Rng::new(1).bytes(15 + 80);
    for start in 0..=15 {
        for length in 0..=80 {
            assert_same(&bytes[start..start + length]);
        }
    }
}

#[test]
fn all_lengths_to_2_500() {
    let bytes = Rng::new(2).bytes(2_500);
    for length in 0..=bytes.len() {
        assert_same(&bytes[..length]);
    }
}

/// From some lengths on the library goes another way. Which these are is its own affair, so many are
/// tried, at two starts.
#[test]
fn lengths_at_which_the_way_may_change() {
    let bounds = [
        16, 32, 48, 64, 128, 256, 300, 304, 352, 512, 720, 1_024, 1_280, 2_048, 2_348, 4_096,
        8_192, 16_384, 65_536,
    ];
    let longest = 65_536 + 2;
    let random = Rng::new(3).bytes(longest + 15);
    let (zeros, ones) = (vec![0; longest + 15], vec![0xFF; longest + 15]);
    for bound in bounds {
        for length in bound - 2..=bound + 2 {
            for bytes in [&random, &zeros, &ones] {
                assert_same(&bytes[..length]);
                assert_same(&bytes[15..15 + length]);
            }
        }
    }
}

#[test]
fn long_lengths() {
    for seed in 0..40 {
        let mut rng = Rng::new(seed);
        let (start, length) = (rng.index(16), rng.index(200_001));
        let bytes = rng.bytes(start + length);
        assert_same(&bytes[start..]);
    }
}

#[test]
fn sixteen_mebibytes() {
    let bytes = Rng::new(4).bytes(1 << 24);
    let value = crc::slicing(&bytes);
    assert_eq!(value, crc::bits(&bytes));
    assert_is(&bytes, value);
}

#[test]
fn parts_are_added_by_exclusive_or() {
    let bytes = Rng::new(5).bytes(30_011);
    for size in [1, 20, 100, 300, 1_000, 4_000, 30_011] {
        for length in [0, size - 1, size, size + 1, 2 * size + 7, 30_011] {
            let bytes = &bytes[..length.min(bytes.len())];
            let sums = bytes.chunks_exact(size).map(crc::bits);
            let value = sums.fold(0, |all, sum| all ^ sum);
            assert_eq!(of_parts(bytes, size), value, "{length} bytes by {size}");
        }
    }
}

#[test]
fn parts_that_are_not_there() {
    let bytes = Rng::new(6).bytes(100);
    for size in [0, 101, usize::MAX] {
        assert_eq!(of_parts(&bytes, size), 0);
        assert_eq!(of_parts(&[], size), 0);
    }
}

/// Any one bit that is changed changes the checksum, and to what it should be.
#[test]
fn each_bit_counts() {
    let mut bytes = Rng::new(7).bytes(2_000);
    let sound = crc::bits(&bytes);
    for bit in 0..8 * bytes.len() {
        let (at, mask) = (bit / 8, 1 << (bit % 8));
        bytes[at] ^= mask;
        let value = crc::slicing(&bytes);
        assert_ne!(value, sound, "bit {bit}");
        assert_is(&bytes, value);
        bytes[at] ^= mask;
    }
}
