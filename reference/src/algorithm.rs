//! Hashes by number. 0x00 is SHA-256, as in the registry of RFC 9162, section 10.2.1;
//! 0xF0 is SM3, from its private range. The number has 64 bits, and none is cut.

use crate::random::Random;
use crate::tree::HashFunction;
use crate::{sha256, sm3};

pub const SHA256: u64 = 0x00;
pub const SM3: u64 = 0xf0;
pub const KNOWN: [u64; 2] = [SHA256, SM3];

/// Some of the numbers that no hash has: next to the known ones, and those whose low
/// bytes are one.
pub const UNKNOWN: [u64; 10] = [1, 0xef, 0xf1, 0x100, 0x1f0, 1 << 32, (1 << 32) + 0xf0, u64::MAX, 1 << 63, 0xf000];

/// The number of the refusal: before all others.
pub const REFUSED: u64 = 16;

/// Which hash a number has. The table is a parameter, so that weak hashes can be put in.
pub type Hashes = fn(u64) -> Option<HashFunction>;

pub fn hash(algorithm: u64) -> Option<HashFunction> {
    match algorithm {
        SHA256 => Some(sha256::digest),
        SM3 => Some(sm3::digest),
        _ => None,
    }
}

/// The hash of a number, or 16.
pub fn known(algorithm: u64) -> Result<HashFunction, u64> {
    hash(algorithm).ok_or(REFUSED)
}

/// The hash of a number that has one.
pub fn of(algorithm: u64) -> HashFunction {
    hash(algorithm).expect("a known number")
}

/// The other of the two numbers; for any else the first.
pub fn other(algorithm: u64) -> u64 {
    if algorithm == SHA256 {
        SM3
    } else {
        SHA256
    }
}

// Random numbers.

pub fn some(random: &mut Random) -> u64 {
    *random.pick(&KNOWN)
}

/// One of the table, any, or a known one with some bit changed.
pub fn some_unknown(random: &mut Random) -> u64 {
    let number = match random.below(4) {
        0 => random.draw() >> random.below(64),
        1 => some(random) ^ 1 << random.below(64),
        _ => *random.pick(&UNKNOWN),
    };
    if KNOWN.contains(&number) {
        1
    } else {
        number
    }
}

/// This number in most cases; in one of twelve an unknown one, and in one of 24 the other.
pub fn mostly(algorithm: u64, random: &mut Random) -> u64 {
    match random.below(24) {
        0 | 1 => some_unknown(random),
        2 => other(algorithm),
        _ => algorithm,
    }
}

/// SHA-256 and SM3 with all but four bits gone, so that collisions are easy to meet.
#[cfg(test)]
pub fn weak(algorithm: u64) -> Option<HashFunction> {
    match algorithm {
        SHA256 => Some(crate::carry::weak),
        SM3 => Some(|input| {
            let mut hash = [0; 32];
            hash[0] = sm3::digest(input)[0] & 15;
            hash
        }),
        _ => None,
    }
}

#[cfg(test)]
mod tests {
    use super::*;

    #[test]
    fn numbers() {
        assert_eq!(of(0x00)(b"abc")[..2], [0xba, 0x78]);
        assert_eq!(of(0xf0)(b"abc")[..2], [0x66, 0xc7]);
        assert_eq!(KNOWN.map(other), [0xf0, 0x00]);
        assert!((0..=0x1_0000).filter(|number| hash(*number).is_some()).eq(KNOWN));
        assert!(UNKNOWN.iter().all(|number| known(*number) == Err(16)));
    }

    /// Both numbers about equally, and some unknown ones of many kinds.
    #[test]
    fn random_numbers() {
        let random = &mut Random::new(16);
        let drawn: Vec<u64> = (0..24_000).map(|_| mostly(some(random), random)).collect();
        let count = |number: u64| drawn.iter().filter(|drawn| **drawn == number).count();
        assert!(KNOWN.iter().all(|number| (10_000..12_000).contains(&count(*number))));
        assert!(UNKNOWN.iter().all(|number| count(*number) > 50));
    }
}
