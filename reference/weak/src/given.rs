//! What the translated crates stand on, written here: two hashes of few values in the places of
//! SHA-256 and SM3, and the kit's sums that wrap.

use reference::algorithm::{SHA256, SM3};
use reference::tree::{Hash, HashFunction};
use std::sync::atomic::{AtomicU32, Ordering};

/// How many bits of a hash are kept: there are 2^BITS values, one where it is 0.
static BITS: AtomicU32 = AtomicU32::new(0);

pub fn keep(bits: u32) {
    BITS.store(bits, Ordering::Relaxed);
}

/// Which of few values an input has; from another start, others of them have one.
fn value(start: u64, input: &[u8]) -> u8 {
    let mut state = start;
    for byte in input {
        state = (state ^ u64::from(*byte)).wrapping_mul(0x0000_0100_0000_01b3);
    }
    state ^= state >> 29;
    state = state.wrapping_mul(0xbf58_476d_1ce4_e5b9);
    state ^= state >> 32;
    (state & ((1 << BITS.load(Ordering::Relaxed)) - 1)) as u8
}

/// A value's 32 bytes differ from one another, and each differs from the same byte of every other value.
fn bytes_of(value: u8) -> Hash {
    std::array::from_fn(|at| (2 * at as u8 + 1).wrapping_mul(value.wrapping_add(1)))
}

/// In the place of SHA-256.
pub fn weak_sha256(input: &[u8]) -> Hash {
    bytes_of(value(0xcbf2_9ce4_8422_2325, input))
}

/// In the place of SM3: no value is one of the other hash, and other inputs have one value.
pub fn weak_sm3(input: &[u8]) -> Hash {
    bytes_of(value(0x9ae1_6a3b_2f90_404f, input)).map(|byte| !byte)
}

/// The two by their numbers.
pub fn hashes(algorithm: u64) -> Option<HashFunction> {
    match algorithm {
        SHA256 => Some(weak_sha256),
        SM3 => Some(weak_sm3),
        _ => None,
    }
}

/// The crate `hash`, as far as the crates under test use it.
pub mod hash {
    use super::{weak_sha256, weak_sm3};
    use reference::item::LONGEST_ITEM;

    #[derive(Clone, Copy)]
    pub enum Algorithm {
        Sha256,
        Sm3,
    }

    #[derive(Clone, Copy)]
    pub enum Named {
        By(Algorithm),
        Unknown,
    }

    #[derive(Clone, Copy)]
    pub struct Digest {
        pub bytes: [u8; 32],
    }

    #[derive(Clone, Copy)]
    pub struct Hashed {
        pub number: u32,
        pub digest: Digest,
    }

    pub fn algorithm_of(number: u64) -> Named {
        match number {
            0x00 => Named::By(Algorithm::Sha256),
            0xf0 => Named::By(Algorithm::Sm3),
            _ => Named::Unknown,
        }
    }

    pub fn algorithm_held(number: u64, held: u64) -> Named {
        if number == held {
            return algorithm_of(number);
        }
        Named::Unknown
    }

    fn digest(alg: Algorithm, input: &[u8]) -> Digest {
        let bytes = match alg {
            Algorithm::Sha256 => weak_sha256(input),
            Algorithm::Sm3 => weak_sm3(input),
        };
        Digest { bytes }
    }

    pub fn node(alg: Algorithm, left: Digest, right: Digest) -> Digest {
        digest(alg, &[&[1], &left.bytes[..], &right.bytes].concat())
    }

    pub fn leaf(alg: Algorithm, item: &[u8]) -> Hashed {
        if item.len() > LONGEST_ITEM {
            return Hashed { number: 1, digest: Digest { bytes: [0; 32] } };
        }
        Hashed { number: 0, digest: digest(alg, &[&[0], item].concat()) }
    }

    pub fn empty(alg: Algorithm) -> Digest {
        digest(alg, &[])
    }

    pub mod by_number {
        use super::{Digest, Hashed};

        pub const UNKNOWN: u32 = 16;

        pub fn unknown() -> Hashed {
            Hashed { number: UNKNOWN, digest: Digest { bytes: [0; 32] } }
        }
    }
}

/// The kit's std::num. The crates under test call some of it or none.
#[allow(dead_code)]
pub mod num {
    macro_rules! wrapping {
        ($($add:ident $sub:ident $type:ty),*) => { $(
            pub fn $add(a: $type, b: $type) -> $type {
                a.wrapping_add(b)
            }
            pub fn $sub(a: $type, b: $type) -> $type {
                a.wrapping_sub(b)
            }
        )* };
    }
    wrapping!(
        wrapping_add_u8 wrapping_sub_u8 u8,
        wrapping_add_u16 wrapping_sub_u16 u16,
        wrapping_add_u32 wrapping_sub_u32 u32,
        wrapping_add_u64 wrapping_sub_u64 u64,
        wrapping_add_usize wrapping_sub_usize usize
    );
}
