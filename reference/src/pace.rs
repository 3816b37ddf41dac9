//! What the program `pace` must answer, whose time bench measures.

use crate::algorithm::{hash, SHA256};
use crate::growing::Growing;
use crate::sha256::{digest, node};
use crate::tree::{self, Hash};
use std::io::{self, Read, Write};

/// The leaf hashes: each has the two bytes of its number over and over, the lower one first.
pub fn leaves() -> Vec<Hash> {
    let leaf = |number: u16| std::array::from_fn(|place| number.to_le_bytes()[place % 2]);
    (0..=u16::MAX).map(leaf).collect()
}

pub fn xor(one: Hash, two: Hash) -> Hash {
    std::array::from_fn(|place| one[place] ^ two[place])
}

/// The xor of the roots after each leaf.
fn all_roots(leaves: &[Hash]) -> Hash {
    let (mut tree, mut all) = (Growing::new(SHA256), [0; 32]);
    for leaf in leaves {
        (_, tree) = tree.leaves(hash, SHA256, leaf);
        all = xor(all, tree.root(hash, SHA256).expect("the tree's number"));
    }
    all
}

/// As many node hashes as there are leaves, each of the one before and zeros; the
/// root of all leaves, in one call or one by one; the xor of all roots. None for a
/// byte that ends the program.
pub fn answer(job: u8, leaves: &[Hash]) -> Option<Hash> {
    match job {
        b'h' => Some(leaves.iter().fold([0; 32], |hash, _| node(&hash, &[0; 32]))),
        b'a' | b'e' => Some(tree::root(digest, leaves)),
        b'r' => Some(all_roots(leaves)),
        _ => None,
    }
}

/// The answers to all jobs of an input.
pub fn pace(input: &mut dyn Read, out: &mut dyn Write) -> io::Result<()> {
    let leaves = leaves();
    for job in input.bytes() {
        match answer(job?, &leaves) {
            Some(hash) => out.write_all(&hash)?,
            None => break,
        }
    }
    out.flush()
}
