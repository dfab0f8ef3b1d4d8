//! SHA-256, as FIPS 180-4 has it, of at most 16,777,216 bytes.
//!
//! The names of the six functions and of the working variables are those of
//! the standard. Refusals are their numbers alone here, since none of them
//! says more.

use crate::bytes::{u32_at, u64_at};
use crate::refusal::{NO_ROOM, TOO_LONG};
use crate::VOLUME_LIMIT;

/// Bytes of a digest.
pub const DIGEST_LENGTH: usize = 32;

/// Bytes that are taken into a state at a time.
pub const BLOCK_LENGTH: usize = 64;

/// Bytes of a state that is lent: eight words, a number and a block.
pub const STATE_LENGTH: usize = 8 * 4 + 8 + BLOCK_LENGTH;

/// The most bytes that are fed in all.
const MOST: u64 = VOLUME_LIMIT as u64;

/// The first 32 bits behind the point of the square roots of the first eight
/// primes (5.3.3).
const START: [u32; 8] = [
    0x6A09E667, 0xBB67AE85, 0x3C6EF372, 0xA54FF53A, 0x510E527F, 0x9B05688C, 0x1F83D9AB, 0x5BE0CD19,
];

/// The same of the cube roots of the first 64 primes (4.2.2).
const K: [u32; 64] = [
    0x428A2F98, 0x71374491, 0xB5C0FBCF, 0xE9B5DBA5, 0x3956C25B, 0x59F111F1, 0x923F82A4, 0xAB1C5ED5,
    0xD807AA98, 0x12835B01, 0x243185BE, 0x550C7DC3, 0x72BE5D74, 0x80DEB1FE, 0x9BDC06A7, 0xC19BF174,
    0xE49B69C1, 0xEFBE4786, 0x0FC19DC6, 0x240CA1CC, 0x2DE92C6F, 0x4A7484AA, 0x5CB0A9DC, 0x76F988DA,
    0x983E5152, 0xA831C66D, 0xB00327C8, 0xBF597FC7, 0xC6E00BF3, 0xD5A79147, 0x06CA6351, 0x14292967,
    0x27B70A85, 0x2E1B2138, 0x4D2C6DFC, 0x53380D13, 0x650A7354, 0x766A0ABB, 0x81C2C92E, 0x92722C85,
    0xA2BFE8A1, 0xA81A664B, 0xC24B8B70, 0xC76C51A3, 0xD192E819, 0xD6990624, 0xF40E3585, 0x106AA070,
    0x19A4C116, 0x1E376C08, 0x2748774C, 0x34B0BCB5, 0x391C0CB3, 0x4ED8AA4A, 0x5B9CCA4F, 0x682E6FF3,
    0x748F82EE, 0x78A5636F, 0x84C87814, 0x8CC70208, 0x90BEFFFA, 0xA4506CEB, 0xBEF9A3F7, 0xC67178F2,
];

#[inline]
const fn ch(x: u32, y: u32, z: u32) -> u32 {
    // The same as (x & y) ^ (!x & z), in one step less.
    z ^ (x & (y ^ z))
}

#[inline]
const fn maj(x: u32, y: u32, z: u32) -> u32 {
    // The same as (x & y) ^ (x & z) ^ (y & z), in one step less.
    (x & y) | (z & (x | y))
}

#[inline]
const fn upper_sigma_0(x: u32) -> u32 {
    x.rotate_right(2) ^ x.rotate_right(13) ^ x.rotate_right(22)
}

#[inline]
const fn upper_sigma_1(x: u32) -> u32 {
    x.rotate_right(6) ^ x.rotate_right(11) ^ x.rotate_right(25)
}

#[inline]
const fn lower_sigma_0(x: u32) -> u32 {
    x.rotate_right(7) ^ x.rotate_right(18) ^ (x >> 3)
}

#[inline]
const fn lower_sigma_1(x: u32) -> u32 {
    x.rotate_right(17) ^ x.rotate_right(19) ^ (x >> 10)
}

/// Puts the word of the schedule that is 16 places later in the place of
/// word `t`, and gives it (6.2.2, step 1).
#[inline]
fn later_word(w: &mut [u32; 16], t: usize) -> u32 {
    w[t] = lower_sigma_1(w[(t + 14) % 16])
        .wrapping_add(w[(t + 9) % 16])
        .wrapping_add(lower_sigma_0(w[(t + 1) % 16]))
        .wrapping_add(w[t]);
    w[t]
}

/// Takes a block into the words (6.2.2).
#[inline]
fn compress(words: &mut [u32; 8], block: &[u8; BLOCK_LENGTH]) {
    let mut w = [0; 16];
    for (word, bytes) in w.iter_mut().zip(block.as_chunks().0) {
        *word = u32::from_be_bytes(*bytes);
    }
    let [mut a, mut b, mut c, mut d, mut e, mut f, mut g, mut h] = *words;
    // One round. In place of moving each value to the next variable, the next
    // round takes the variables in another order: after eight rounds all
    // values are back where they were.
    macro_rules! round {
        ($k:expr, $w:expr, $a:ident $b:ident $c:ident $d:ident $e:ident $f:ident $g:ident $h:ident) => {
            let t1 = $h
                .wrapping_add($k)
                .wrapping_add($w)
                .wrapping_add(upper_sigma_1($e))
                .wrapping_add(ch($e, $f, $g));
            let t2 = upper_sigma_0($a).wrapping_add(maj($a, $b, $c));
            $d = $d.wrapping_add(t1);
            $h = t1.wrapping_add(t2);
        };
    }
    macro_rules! eight_rounds {
        ($k:ident, $word:ident, $t:literal) => {
            round!($k[$t], $word(&mut w, $t), a b c d e f g h);
            round!($k[$t + 1], $word(&mut w, $t + 1), h a b c d e f g);
            round!($k[$t + 2], $word(&mut w, $t + 2), g h a b c d e f);
            round!($k[$t + 3], $word(&mut w, $t + 3), f g h a b c d e);
            round!($k[$t + 4], $word(&mut w, $t + 4), e f g h a b c d);
            round!($k[$t + 5], $word(&mut w, $t + 5), d e f g h a b c);
            round!($k[$t + 6], $word(&mut w, $t + 6), c d e f g h a b);
            round!($k[$t + 7], $word(&mut w, $t + 7), b c d e f g h a);
        };
    }
    // The first sixteen words of the schedule are the block's own.
    let own_word = |w: &mut [u32; 16], t: usize| w[t];
    let [first, others @ ..] = K.as_chunks::<16>().0 else {
        unreachable!("64 constants")
    };
    eight_rounds!(first, own_word, 0);
    eight_rounds!(first, own_word, 8);
    for k in others {
        eight_rounds!(k, later_word, 0);
        eight_rounds!(k, later_word, 8);
    }
    for (word, more) in words.iter_mut().zip([a, b, c, d, e, f, g, h]) {
        *word = word.wrapping_add(more);
    }
}

/// Takes the last bytes, fewer than a block, of so many in all (5.1.1), and
/// gives the digest.
fn close(mut words: [u32; 8], tail: &[u8], fed: u64) -> [u8; DIGEST_LENGTH] {
    let mut padded = [0; 2 * BLOCK_LENGTH];
    padded[..tail.len()].copy_from_slice(tail);
    padded[tail.len()] = 0x80;
    // Behind the tail come one byte more and the eight of the length.
    let end = if tail.len() + 1 + 8 <= BLOCK_LENGTH {
        BLOCK_LENGTH
    } else {
        2 * BLOCK_LENGTH
    };
    padded[end - 8..end].copy_from_slice(&(8 * fed).to_be_bytes());
    for block in padded[..end].as_chunks().0 {
        compress(&mut words, block);
    }
    let mut digest = [0; DIGEST_LENGTH];
    for (bytes, word) in digest.as_chunks_mut().0.iter_mut().zip(words) {
        *bytes = word.to_be_bytes();
    }
    digest
}

/// The digest of some bytes.
pub fn sha256(bytes: &[u8]) -> Result<[u8; DIGEST_LENGTH], u64> {
    if bytes.len() > VOLUME_LIMIT {
        return Err(TOO_LONG.number);
    }
    let (blocks, tail) = bytes.as_chunks();
    let mut words = START;
    for block in blocks {
        compress(&mut words, block);
    }
    Ok(close(words, tail, bytes.len() as u64))
}

/// A digest in the making. One that is made up is taken as it stands.
#[derive(Clone, Debug, PartialEq, Eq)]
pub struct State {
    pub words: [u32; 8],
    /// How many bytes were fed.
    pub fed: u64,
    /// The first of these, as many as the number's remainder by 64, are bytes
    /// that were fed and are not in the words.
    pub held: [u8; BLOCK_LENGTH],
}

impl Default for State {
    fn default() -> State {
        State::new()
    }
}

impl State {
    /// The state before any byte is fed.
    pub const fn new() -> State {
        State {
            words: START,
            fed: 0,
            held: [0; BLOCK_LENGTH],
        }
    }

    /// Feeds some bytes, and gives the refusal's number or 0. What is left in
    /// the 64 bytes is as if each byte had come alone: those of the last
    /// whole block stay until others take their places.
    pub fn feed(&mut self, part: &[u8]) -> u64 {
        match MOST.checked_sub(self.fed) {
            Some(room) if part.len() as u64 <= room => {}
            _ => return TOO_LONG.number,
        }
        let used = (self.fed % BLOCK_LENGTH as u64) as usize;
        self.fed += part.len() as u64;
        let mut rest = part;
        if used > 0 {
            let free = &mut self.held[used..];
            let (now, later) = rest.split_at(rest.len().min(free.len()));
            let is_full = now.len() == free.len();
            free[..now.len()].copy_from_slice(now);
            if !is_full {
                return 0;
            }
            compress(&mut self.words, &self.held);
            rest = later;
        }
        let (blocks, tail) = rest.as_chunks();
        for block in blocks {
            compress(&mut self.words, block);
        }
        if let Some(last) = blocks.last() {
            self.held = *last;
        }
        self.held[..tail.len()].copy_from_slice(tail);
        0
    }

    /// The digest of what was fed. More may be fed after it.
    pub fn finish(&self) -> Result<[u8; DIGEST_LENGTH], u64> {
        if self.fed > MOST {
            return Err(TOO_LONG.number);
        }
        let used = (self.fed % BLOCK_LENGTH as u64) as usize;
        Ok(close(self.words, &self.held[..used], self.fed))
    }

    /// The state that stands in the first bytes, if they are enough.
    pub fn from_bytes(bytes: &[u8]) -> Result<State, u64> {
        let bytes: &[u8; STATE_LENGTH] = bytes.first_chunk().ok_or(NO_ROOM.number)?;
        let mut state = State {
            words: [0; 8],
            fed: u64_at(bytes, 32),
            held: bytes[40..].try_into().unwrap(),
        };
        for (place, word) in state.words.iter_mut().enumerate() {
            *word = u32_at(bytes, 4 * place);
        }
        Ok(state)
    }

    /// The state as it is lent. Unlike in a digest, the words are
    /// little-endian.
    pub fn to_bytes(&self) -> [u8; STATE_LENGTH] {
        let mut bytes = [0; STATE_LENGTH];
        for (place, word) in self.words.iter().enumerate() {
            bytes[4 * place..4 * place + 4].copy_from_slice(&word.to_le_bytes());
        }
        bytes[32..40].copy_from_slice(&self.fed.to_le_bytes());
        bytes[40..].copy_from_slice(&self.held);
        bytes
    }
}

/// Fills the first bytes of `out`, if they are enough.
fn put<const N: usize>(out: &mut [u8], bytes: [u8; N]) -> u64 {
    match out.first_chunk_mut() {
        Some(front) => {
            *front = bytes;
            0
        }
        None => NO_ROOM.number,
    }
}

/// Puts the state before any byte into lent bytes, and gives the refusal's
/// number or 0, as all calls on lent bytes do.
pub fn start_bytes(state: &mut [u8]) -> u64 {
    put(state, State::new().to_bytes())
}

/// Feeds a part to a lent state.
pub fn feed_bytes(state: &mut [u8], part: &[u8]) -> u64 {
    let mut inner = match State::from_bytes(state) {
        Ok(inner) => inner,
        Err(number) => return number,
    };
    match inner.feed(part) {
        0 => put(state, inner.to_bytes()),
        number => number,
    }
}

/// Puts the digest of a lent state into `out`.
pub fn finish_bytes(state: &[u8], out: &mut [u8]) -> u64 {
    match State::from_bytes(state).and_then(|state| state.finish()) {
        Ok(digest) => put(out, digest),
        Err(number) => number,
    }
}

/// Puts the digest of some bytes into `out`.
pub fn digest_bytes(bytes: &[u8], out: &mut [u8]) -> u64 {
    match sha256(bytes) {
        Ok(digest) => put(out, digest),
        Err(number) => number,
    }
}

#[cfg(test)]
mod tests {
    use super::*;

    fn primes() -> impl Iterator<Item = u128> {
        (2..).filter(|&number| (2..number).all(|divisor| number % divisor != 0))
    }

    /// Whether `bits` stand behind the point of the root of a number: with
    /// some whole part before them they are the largest whose power, scaled
    /// likewise, is not above it.
    fn stand_behind_the_point(bits: u32, number: u128, power: u32) -> bool {
        let scaled = number << (32 * power);
        (0..20).any(|whole: u128| {
            let root = whole << 32 | u128::from(bits);
            root.pow(power) <= scaled && scaled < (root + 1).pow(power)
        })
    }

    #[test]
    fn constants_are_roots_of_primes() {
        for (bits, prime) in START.into_iter().zip(primes()) {
            assert!(stand_behind_the_point(bits, prime, 2), "{bits:x}");
            assert!(!stand_behind_the_point(bits ^ 1, prime, 2), "{bits:x}");
        }
        for (bits, prime) in K.into_iter().zip(primes()) {
            assert!(stand_behind_the_point(bits, prime, 3), "{bits:x}");
            assert!(!stand_behind_the_point(bits ^ 1, prime, 3), "{bits:x}");
        }
    }

    #[test]
    fn shorter_forms_are_those_of_the_standard() {
        // Each bit by itself: all eight rows of the three.
        let (x, y, z) = (0b1111_0000, 0b1100_1100, 0b1010_1010);
        assert_eq!(ch(x, y, z), (x & y) ^ (!x & z));
        assert_eq!(maj(x, y, z), (x & y) ^ (x & z) ^ (y & z));
    }
}
