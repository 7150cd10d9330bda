//! SHA-256 (FIPS 180-4) of bytes that are all at hand.

/// A hash's words, and the bytes that one round of it takes in.
const WORDS: usize = 8;
const BLOCK: usize = 64;

/// How many steps a round has, and how many words of them are the block's own.
const STEPS: usize = 64;
const GIVEN: usize = 16;

/// Where the length of the bytes begins in the last block.
const LENGTH_AT: usize = BLOCK - 8;

/// The sum as 64 hexadecimal digits.
pub fn hex(bytes: &[u8]) -> String {
    let digits = |word: &u32| format!("{word:08x}");
    hash(bytes).iter().map(digits).collect()
}

fn hash(bytes: &[u8]) -> [u32; WORDS] {
    let primes = primes();
    let constants = primes.map(|prime| fraction(prime, 3));
    let mut hash: [u32; WORDS] = std::array::from_fn(|at| fraction(primes[at], 2));
    for block in padded(bytes).chunks_exact(BLOCK) {
        take_in(&mut hash, block, &constants);
    }
    hash
}

/// The bytes, a single bit, zeros up to a whole block, and how many bits they were.
fn padded(bytes: &[u8]) -> Vec<u8> {
    let mut padded = bytes.to_vec();
    padded.push(1 << 7);
    while padded.len() % BLOCK != LENGTH_AT {
        padded.push(0);
    }
    let bits = bytes.len() as u64 * 8;
    padded.extend(bits.to_be_bytes());
    padded
}

fn take_in(hash: &mut [u32; WORDS], block: &[u8], constants: &[u32; STEPS]) {
    let [mut a, mut b, mut c, mut d, mut e, mut f, mut g, mut h] = *hash;
    for (word, constant) in schedule(block).into_iter().zip(constants) {
        let turned = e.rotate_right(6) ^ e.rotate_right(11) ^ e.rotate_right(25);
        let choice = (e & f) ^ (!e & g);
        let first = [turned, choice, *constant, word].into_iter();
        let first = first.fold(h, u32::wrapping_add);
        let turned = a.rotate_right(2) ^ a.rotate_right(13) ^ a.rotate_right(22);
        let majority = (a & b) ^ (a & c) ^ (b & c);
        let second = turned.wrapping_add(majority);
        (h, g, f, e) = (g, f, e, d.wrapping_add(first));
        (d, c, b, a) = (c, b, a, first.wrapping_add(second));
    }
    for (old, new) in hash.iter_mut().zip([a, b, c, d, e, f, g, h]) {
        *old = old.wrapping_add(new);
    }
}

/// The block's words, and those that follow from them.
fn schedule(block: &[u8]) -> [u32; STEPS] {
    let mut words = [0; STEPS];
    for (word, bytes) in words.iter_mut().zip(block.chunks_exact(4)) {
        *word = bytes
            .iter()
            .fold(0, |word, &byte| word << 8 | u32::from(byte));
    }
    for at in GIVEN..STEPS {
        let (early, late) = (words[at - 15], words[at - 2]);
        let early = early.rotate_right(7) ^ early.rotate_right(18) ^ (early >> 3);
        let late = late.rotate_right(17) ^ late.rotate_right(19) ^ (late >> 10);
        let old = words[at - GIVEN].wrapping_add(words[at - 7]);
        words[at] = old.wrapping_add(early).wrapping_add(late);
    }
    words
}

/// The first primes, one for each step.
fn primes() -> [u128; STEPS] {
    let is_prime = |number: &u128| (2..*number).all(|divisor| *number % divisor != 0);
    let mut primes = (2..).filter(is_prime);
    std::array::from_fn(|_| primes.next().unwrap_or_default())
}

/// The first 32 bits behind the point of a prime's square root (degree 2) or cube root (degree 3).
fn fraction(prime: u128, degree: u32) -> u32 {
    let power = prime << (u32::BITS * degree);
    let mut root: u128 = 0;
    // No root of a prime here has more than three bits before the point.
    for bit in (0..u32::BITS + 3).rev() {
        let larger = root | 1 << bit;
        if larger.pow(degree) <= power {
            root = larger;
        }
    }
    root as u32
}
