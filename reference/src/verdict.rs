//! Both verdicts, with their numbers: 5, 10, 6, 7, 8, or 0 for accepted. The
//! number comes from the recursive definition; the RFC's bottom-up algorithm
//! must agree on what is accepted.

use crate::tree::{hashes, Hash, HashFunction};
use crate::{verify, yields};

pub struct Inclusion<'a> {
    pub leaf: &'a [u8],
    pub place: u64,
    pub size: u64,
    pub root: &'a [u8],
    pub path: &'a [u8],
}

pub fn inclusion(h: HashFunction, proof: &Inclusion) -> u64 {
    let (Some(leaf), Some(root)) = (hash(proof.leaf), hash(proof.root)) else { return 5 };
    let Some(path) = hashes(proof.path) else { return 10 };
    let (place, size) = (proof.place, proof.size);
    // No size is above the largest; a place below a size is one of at least 1.
    if place >= size {
        return 6;
    }
    let number = match yields::inclusion(h, &leaf, place, size, &path) {
        None => 7,
        Some(yielded) if yielded != root => 8,
        Some(_) => 0,
    };
    let accepted = verify::inclusion(h, &leaf, place, size, &root, &path);
    assert_eq!(accepted, number == 0, "the two ways disagree: inclusion of {place} in {size}");
    assert_eq!(number == 7, path.len() != yields::inclusion_count(place, size));
    number
}

pub struct Consistency<'a> {
    pub first: u64,
    pub second: u64,
    pub first_root: &'a [u8],
    pub second_root: &'a [u8],
    pub path: &'a [u8],
}

pub fn consistency(h: HashFunction, proof: &Consistency) -> u64 {
    let (Some(first_root), Some(second_root)) = (hash(proof.first_root), hash(proof.second_root)) else { return 5 };
    let Some(path) = hashes(proof.path) else { return 10 };
    let (first, second) = (proof.first, proof.second);
    if first == 0 || first > second {
        return 6;
    }
    if first == second {
        // Our own rule: the RFC stops at first < second.
        return if !path.is_empty() {
            7
        } else if first_root != second_root {
            8
        } else {
            0
        };
    }
    let number = match yields::consistency(h, first, second, &first_root, &path) {
        None => 7,
        Some(yielded) if yielded != (first_root, second_root) => 8,
        Some(_) => 0,
    };
    let accepted = verify::consistency(h, first, second, &first_root, &second_root, &path);
    assert_eq!(accepted, number == 0, "the two ways disagree: consistency from {first} to {second}");
    assert_eq!(number == 7, path.len() != yields::consistency_count(first, second));
    number
}

fn hash(bytes: &[u8]) -> Option<Hash> {
    bytes.try_into().ok()
}

#[cfg(test)]
mod tests {
    use super::*;
    use crate::random::Random;
    use crate::sha256::{digest, node};
    use crate::tree::{self, LARGEST_SIZE};

    fn judge_inclusion(leaf: &[u8], place: u64, size: u64, root: &[u8], path: &[u8]) -> u64 {
        inclusion(digest, &Inclusion { leaf, place, size, root, path })
    }

    fn judge_consistency(first: u64, second: u64, first_root: &[u8], second_root: &[u8], path: &[u8]) -> u64 {
        consistency(digest, &Consistency { first, second, first_root, second_root, path })
    }

    #[test]
    fn papers_cases() {
        let (a, b) = ([1; 32], [2; 32]);
        assert_eq!(judge_inclusion(&a, 0, 1, &a, &[]), 0);
        assert_eq!(judge_inclusion(&a, 0, 1, &b, &[]), 8);
        assert_eq!(judge_inclusion(&a, 0, 1, &a, &b), 7);
        assert_eq!(judge_inclusion(&a, 1, 1, &a, &[]), 6);
        assert_eq!(judge_consistency(4, 4, &a, &a, &[]), 0);
        assert_eq!(judge_consistency(4, 4, &a, &b, &[]), 8);
        assert_eq!(judge_consistency(4, 4, &a, &a, &b), 7);
        assert_eq!(judge_consistency(0, 7, &a, &a, &[]), 6);
        assert_eq!(judge_consistency(7, 3, &a, &a, &[]), 6);
        assert_eq!(judge_consistency(0, 0, &a, &a, &[]), 6);

        // Each of these sizes may pass; the first was the largest once.
        for size in [1 << 32, (1 << 32) + 1, 1 << 63, LARGEST_SIZE - 1, LARGEST_SIZE] {
            let path = vec![3; 32 * yields::inclusion_count(5, size)];
            let root = yields::inclusion(digest, &a, 5, size, &hashes(&path).unwrap()).unwrap();
            assert_eq!(judge_inclusion(&a, 5, size, &root, &path), 0);
            assert_eq!(judge_consistency(size, size, &a, &a, &[]), 0);
        }
    }

    /// Sizes past 2^32, by hand.
    #[test]
    fn large_sizes() {
        const PAST: u64 = (1 << 32) + 1;
        const LAST: u64 = LARGEST_SIZE;
        let (a, b) = ([1; 32], [2; 32]);
        assert_eq!(judge_inclusion(&a, 1 << 32, PAST, &node(&b, &a), &b), 0);
        assert_eq!(judge_inclusion(&a, 0, PAST, &node(&b, &a), &b), 7);
        assert_eq!(judge_consistency(1 << 32, PAST, &a, &node(&a, &b), &b), 0);
        let root = (0..64).fold(a, |root, _| node(&root, &b));
        assert_eq!([64, 63, 65].map(|count| judge_inclusion(&a, 0, LAST, &root, &[2; 32].repeat(count))), [0, 7, 7]);
        assert_eq!(judge_inclusion(&a, LAST, LAST, &root, &[2; 32].repeat(64)), 6);
        // The last place: all 63 nodes are to its left.
        let root = (0..63).fold(a, |root, _| node(&b, &root));
        assert_eq!([62, 63, 64].map(|count| judge_inclusion(&a, LAST - 1, LAST, &root, &[2; 32].repeat(count))), [7, 0, 7]);
        assert_eq!(judge_inclusion(&a, LAST - 1, LAST, &a, &[2; 32].repeat(63)), 8);
        assert_eq!(judge_consistency(LAST, LAST, &a, &a, &[]), 0);
        assert_eq!(judge_consistency(LAST, LAST, &a, &a, &b), 7);
        assert_eq!(judge_consistency(LAST, LAST - 1, &a, &a, &b), 6);
        assert_eq!(judge_inclusion(&a, 0, 0, &a, &[]), 6);
    }

    #[test]
    fn order() {
        let a = [1; 32];
        assert_eq!(judge_inclusion(&[1; 31], 0, 0, &a, &[0; 5]), 5);
        assert_eq!(judge_inclusion(&a, 0, 0, &[1; 33], &[0; 5]), 5);
        assert_eq!(judge_inclusion(&a, 0, 0, &a, &[0; 5]), 10);
        assert_eq!(judge_inclusion(&a, 0, 0, &a, &[0; 32]), 6);
        assert_eq!(judge_inclusion(&a, 0, 2, &a, &[]), 7);
        assert_eq!(judge_inclusion(&a, 0, 2, &a, &[0; 32]), 8);
        assert_eq!(judge_consistency(0, 0, &[], &a, &[0; 5]), 5);
        assert_eq!(judge_consistency(0, 0, &a, &[], &[0; 5]), 5);
        assert_eq!(judge_consistency(0, 0, &a, &a, &[0; 5]), 10);
    }

    /// The three ways agree on every place and first size of up to 40 leaves,
    /// on what is built and on damaged proofs; the verdicts compare the ways.
    #[test]
    fn built_is_accepted_and_damaged_is_not() {
        let random = &mut Random::new(40);
        let leaves: Vec<Hash> = (0..40).map(|_| random.hash()).collect();
        for n in 1..=40 {
            let list = &leaves[..n];
            let root = tree::root(digest, list);
            for m in 0..n {
                let path = tree::path(digest, m, list).concat();
                let (place, size) = (m as u64, n as u64);
                assert_eq!(judge_inclusion(&list[m], place, size, &root, &path), 0);
                assert_eq!(judge_inclusion(&root, place, size, &list[m], &path), if n == 1 { 0 } else { 8 });
                assert_eq!(judge_inclusion(&list[m], place, size, &root, &[&path[..], &[0; 32]].concat()), 7);
                for at in 0..path.len() / 32 {
                    let mut changed = path.clone();
                    changed[32 * at + random.below(32) as usize] ^= 1 << random.below(8);
                    assert_eq!(judge_inclusion(&list[m], place, size, &root, &changed), 8);
                    let dropped = [&path[..32 * at], &path[32 * at + 32..]].concat();
                    assert_eq!(judge_inclusion(&list[m], place, size, &root, &dropped), 7);
                    let doubled = [&path[..32 * at + 32], &path[32 * at..]].concat();
                    assert_eq!(judge_inclusion(&list[m], place, size, &root, &doubled), 7);
                }
                for (place, size) in [(place + 1, size), (place.wrapping_sub(1), size), (place, size + 1), (place, size - 1)] {
                    let number = judge_inclusion(&list[m], place, size, &root, &path);
                    // A path can fit another size: the shape above a place says little of what is to its right.
                    assert!(number != 0 || size != n as u64 && place == m as u64, "{m} of {n} at {place} of {size}");
                }
            }
            for m in 1..=n {
                let first_root = tree::root(digest, &list[..m]);
                let path = tree::consistency_path(digest, m, list).concat();
                let (first, second) = (m as u64, n as u64);
                assert_eq!(judge_consistency(first, second, &first_root, &root, &path), 0);
                assert_eq!(judge_consistency(first, second, &first_root, &root, &[&path[..], &[0; 32]].concat()), 7);
                if m < n {
                    assert_eq!(judge_consistency(first, second, &root, &first_root, &path), 8);
                    assert_eq!(judge_consistency(first, second, &first_root, &first_root, &path), 8);
                }
                for at in 0..path.len() / 32 {
                    let mut changed = path.clone();
                    changed[32 * at + random.below(32) as usize] ^= 1 << random.below(8);
                    assert_eq!(judge_consistency(first, second, &first_root, &root, &changed), 8);
                    let dropped = [&path[..32 * at], &path[32 * at + 32..]].concat();
                    assert_eq!(judge_consistency(first, second, &first_root, &root, &dropped), 7);
                    let doubled = [&path[..32 * at + 32], &path[32 * at..]].concat();
                    assert_eq!(judge_consistency(first, second, &first_root, &root, &doubled), 7);
                }
                for (first, second) in [(first + 1, second), (first - 1, second), (first, second + 1), (first, second - 1)] {
                    judge_consistency(first, second, &first_root, &root, &path);
                }
            }
        }
    }

    /// The counts are those of the built paths; to 2^32 they are at most 32 and 33, to 2^64 - 1 at most 64 and 65.
    #[test]
    fn counts() {
        let leaves = [[0; 32]; 70];
        for n in 1..=70 {
            for m in 0..n {
                assert_eq!(yields::inclusion_count(m as u64, n as u64), tree::path(digest, m, &leaves[..n]).len());
                let first = m + 1;
                let built = tree::consistency_path(digest, first, &leaves[..n]).len();
                assert_eq!(yields::consistency_count(first as u64, n as u64), built);
            }
        }
        let random = &mut Random::new(33);
        for (largest, levels) in [(1 << 32, 32), (LARGEST_SIZE, 64)] {
            let mut most = (0, 0);
            for _ in 0..20_000 {
                let n = random.between(1, largest);
                let (inclusion, consistency) =
                    (yields::inclusion_count(random.below(n), n), yields::consistency_count(1 + random.below(n), n));
                most = (most.0.max(inclusion), most.1.max(consistency));
            }
            assert_eq!(most, (levels, levels + 1));
        }
    }
}
