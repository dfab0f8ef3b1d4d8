//! SHA-256 by other means than the library: written from FIPS 180-4 for a whole message, and with
//! constants that are worked out.
#![allow(dead_code)] // Each test file uses a part of this one.

/// The first primes.
fn primes(count: usize) -> Vec<u128> {
    let mut found: Vec<u128> = Vec::new();
    for number in 2.. {
        if found.len() == count {
            break;
        }
        if found.iter().all(|prime| number % prime != 0) {
            found.push(number);
        }
    }
    found
}

/// The first 32 bits behind the point of a root of a prime: the highest number whose power, square or
/// cube, is not above the prime times 2 to the 32nd taken to the same power.
fn bits_of_root(prime: u128, power: u32) -> u32 {
    let limit = prime << (32 * power);
    let (mut low, mut high) = (0u128, 1 << 40);
    while high - low > 1 {
        let middle = (low + high) / 2;
        if middle.pow(power) <= limit {
            low = middle;
        } else {
            high = middle;
        }
    }
    low as u32
}

/// The words of a digest to which nothing was fed.
pub fn first_words() -> [u32; 8] {
    let words: Vec<u32> = primes(8)
        .into_iter()
        .map(|prime| bits_of_root(prime, 2))
        .collect();
    words.try_into().unwrap()
}

/// A message with a bit, zeros and its own length in bits behind it.
fn padded(message: &[u8], bits: u64) -> Vec<u8> {
    let mut padded = message.to_vec();
    padded.push(0x80);
    while padded.len() % 64 != 56 {
        padded.push(0);
    }
    padded.extend(bits.to_be_bytes());
    padded
}

fn schedule(block: &[u8]) -> Vec<u32> {
    let word = |bytes: &[u8]| u32::from_be_bytes(bytes.try_into().unwrap());
    let mut words: Vec<u32> = block.chunks(4).map(word).collect();
    for at in 16..64 {
        let (x, y) = (words[at - 15], words[at - 2]);
        let x = x.rotate_right(7) ^ x.rotate_right(18) ^ (x >> 3);
        let y = y.rotate_right(17) ^ y.rotate_right(19) ^ (y >> 10);
        let sum = words[at - 16].wrapping_add(x);
        words.push(sum.wrapping_add(words[at - 7]).wrapping_add(y));
    }
    words
}

fn compressed(words: [u32; 8], block: &[u8], constants: &[u32]) -> [u32; 8] {
    let [mut a, mut b, mut c, mut d, mut e, mut f, mut g, mut h] = words;
    for (word, constant) in schedule(block).into_iter().zip(constants) {
        let sum = e.rotate_right(6) ^ e.rotate_right(11) ^ e.rotate_right(25);
        let choice = (e & f) ^ (!e & g);
        let sum = h.wrapping_add(sum).wrapping_add(choice);
        let first = sum.wrapping_add(*constant).wrapping_add(word);
        let sum = a.rotate_right(2) ^ a.rotate_right(13) ^ a.rotate_right(22);
        let second = sum.wrapping_add((a & b) ^ (a & c) ^ (b & c));
        (h, g, f, e) = (g, f, e, d.wrapping_add(first));
        (d, c, b, a) = (c, b, a, first.wrapping_add(second));
    }
    let after = [a, b, c, d, e, f, g, h];
    std::array::from_fn(|at| words[at].wrapping_add(after[at]))
}

/// The words after some whole blocks.
pub fn words_after(words: [u32; 8], blocks: &[u8]) -> [u32; 8] {
    let constants: Vec<u32> = primes(64)
        .into_iter()
        .map(|prime| bits_of_root(prime, 3))
        .collect();
    let step = |words, block: &[u8]| compressed(words, block, &constants);
    blocks.chunks(64).fold(words, step)
}

/// The digest that a state has to give: the bytes in use, and all that were fed.
pub fn finished(words: [u32; 8], in_use: &[u8], fed: u64) -> [u8; 32] {
    let words = words_after(words, &padded(in_use, 8 * fed));
    let bytes: Vec<u8> = words.iter().flat_map(|word| word.to_be_bytes()).collect();
    bytes.try_into().unwrap()
}

/// The digest of a whole message.
pub fn sha256(message: &[u8]) -> [u8; 32] {
    finished(first_words(), message, message.len() as u64)
}

/// The bytes that digits stand for.
pub fn bytes(digits: &str) -> Vec<u8> {
    let byte = |at: usize| u8::from_str_radix(&digits[at..at + 2], 16).unwrap();
    (0..digits.len()).step_by(2).map(byte).collect()
}
