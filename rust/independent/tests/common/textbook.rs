//! SHA-256 word for word as the standard tells it, to compare with. Nothing
//! is shared with the code under test: the constants are worked out here.

use independent::sha256::State;

/// The most bytes that are fed.
pub const MOST: u64 = 16_777_216;

/// The first 32 bits behind the point of the square or cube roots of the
/// first primes.
fn roots<const N: usize>(power: u32) -> [u32; N] {
    let is_prime = |&number: &u128| (2..number).all(|divisor| number % divisor != 0);
    let mut primes = (2..).filter(is_prime);
    std::array::from_fn(|_| {
        let scaled = primes.next().expect("a prime") << (32 * power);
        // The root is below 2^37, and its bits are found from the highest on.
        let larger = |root: u128, bit: u32| {
            let with = root | 1 << bit;
            if with.pow(power) <= scaled {
                with
            } else {
                root
            }
        };
        (0..37).rev().fold(0, larger) as u32
    })
}

/// What the standard starts with, and its constants.
pub struct Textbook {
    pub start: [u32; 8],
    k: [u32; 64],
}

impl Textbook {
    pub fn new() -> Textbook {
        Textbook {
            start: roots(2),
            k: roots(3),
        }
    }

    fn compress(&self, words: &mut [u32; 8], block: &[u8]) {
        let rotr = u32::rotate_right;
        let sum = |list: &[u32]| list.iter().fold(0, |sum: u32, x| sum.wrapping_add(*x));
        let mut w: Vec<u32> = block
            .chunks(4)
            .map(|four| {
                four.iter()
                    .fold(0, |word, &byte| word << 8 | u32::from(byte))
            })
            .collect();
        for t in 16..64 {
            let x = w[t - 2];
            let one = rotr(x, 17) ^ rotr(x, 19) ^ (x >> 10);
            let x = w[t - 15];
            let zero = rotr(x, 7) ^ rotr(x, 18) ^ (x >> 3);
            w.push(sum(&[one, w[t - 7], zero, w[t - 16]]));
        }
        let [mut a, mut b, mut c, mut d, mut e, mut f, mut g, mut h] = *words;
        for (k, w) in self.k.iter().zip(&w) {
            let one = rotr(e, 6) ^ rotr(e, 11) ^ rotr(e, 25);
            let t1 = sum(&[h, one, (e & f) ^ (!e & g), *k, *w]);
            let zero = rotr(a, 2) ^ rotr(a, 13) ^ rotr(a, 22);
            let t2 = sum(&[zero, (a & b) ^ (a & c) ^ (b & c)]);
            (h, g, f, e) = (g, f, e, sum(&[d, t1]));
            (d, c, b, a) = (c, b, a, sum(&[t1, t2]));
        }
        for (word, more) in words.iter_mut().zip([a, b, c, d, e, f, g, h]) {
            *word = word.wrapping_add(more);
        }
    }

    fn feed_byte(&self, state: &mut State, byte: u8) {
        state.held[(state.fed % 64) as usize] = byte;
        state.fed += 1;
        if state.fed.is_multiple_of(64) {
            self.compress(&mut state.words, &state.held);
        }
    }

    /// What feeding a part answers, and the state after it.
    pub fn feed(&self, state: &State, part: &[u8]) -> (u64, State) {
        let mut next = state.clone();
        let all = u128::from(state.fed) + part.len() as u128;
        if all > u128::from(MOST) {
            return (1, next);
        }
        for &byte in part {
            self.feed_byte(&mut next, byte);
        }
        (0, next)
    }

    pub fn finish(&self, state: &State) -> Result<[u8; 32], u64> {
        if state.fed > MOST {
            return Err(1);
        }
        let mut state = state.clone();
        let bits = 8 * state.fed;
        self.feed_byte(&mut state, 0x80);
        while state.fed % 64 != 56 {
            self.feed_byte(&mut state, 0);
        }
        for byte in bits.to_be_bytes() {
            self.feed_byte(&mut state, byte);
        }
        let bytes = state.words.map(u32::to_be_bytes).concat();
        Ok(bytes.try_into().expect("32 bytes"))
    }
}
