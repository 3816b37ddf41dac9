//! The verdicts of a library: ours by the number of a hash, and those of an earlier one
//! where the build was given it (MTA_BEFORE), whose functions take no number.

use mta::{mta_consistency, mta_inclusion};
use reference::proofs::Proof;

#[derive(Clone, Copy)]
pub struct Library {
    judge: fn(&Proof) -> u32,
}

pub const OURS: Library = Library {
    judge: |proof| {
        let ([one, two], [first, second], path) = (proof.numbers, &proof.hashes, &proof.path);
        let (a, b, c, length) = (first.as_ptr(), second.as_ptr(), path.as_ptr(), path.len());
        unsafe {
            if proof.is_inclusion {
                mta_inclusion(proof.algorithm, a, 32, one, two, b, 32, c, length)
            } else {
                mta_consistency(proof.algorithm, one, two, a, 32, b, 32, c, length)
            }
        }
    },
};

#[cfg(before)]
pub fn before() -> Option<Library> {
    extern "C" {
        fn before_inclusion(_: *const u8, _: usize, _: u64, _: u64, _: *const u8, _: usize, _: *const u8, _: usize) -> u32;
        fn before_consistency(_: u64, _: u64, _: *const u8, _: usize, _: *const u8, _: usize, _: *const u8, _: usize) -> u32;
    }
    Some(Library {
        judge: |proof| {
            let ([one, two], [first, second], path) = (proof.numbers, &proof.hashes, &proof.path);
            let (a, b, c, length) = (first.as_ptr(), second.as_ptr(), path.as_ptr(), path.len());
            unsafe {
                if proof.is_inclusion {
                    before_inclusion(a, 32, one, two, b, 32, c, length)
                } else {
                    before_consistency(one, two, a, 32, b, 32, c, length)
                }
            }
        },
    })
}

#[cfg(not(before))]
pub fn before() -> Option<Library> {
    None
}

impl Library {
    pub fn judge(&self, proof: &Proof) -> u32 {
        (self.judge)(proof)
    }
}
