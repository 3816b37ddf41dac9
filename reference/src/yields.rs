//! The roots that a proof yields, top down: the definition's splits are
//! followed, and the given nodes, whatever their bytes, stand for the roots of
//! the parts in whose place they come.

use crate::tree::{node_hash, split, Hash, HashFunction};

/// Nodes of the inclusion path of place `m` in `n`. The papers have m below n;
/// outside of it the recursion goes on as it stands: a place past the end has
/// the last one's count, and sizes 0 and 1 have no node.
pub fn inclusion_count(m: u64, n: u64) -> usize {
    if n <= 1 {
        return 0;
    }
    let k = split(n);
    1 + if m < k { inclusion_count(m, k) } else { inclusion_count(m - k, n - k) }
}

/// Nodes of the consistency path from `m` to `n`.
pub fn consistency_count(m: u64, n: u64) -> usize {
    subproof_count(m, n, true)
}

/// Nodes of SUBPROOF(m, D_n, flag). The papers have m from 1 to n; outside of it
/// the recursion goes on as it stands and ends at sizes 0 and 1: a first size of
/// 0 has the count of 1, and one above n, itself above 1, has one node more than
/// the inclusion path of the last place.
pub fn subproof_count(m: u64, n: u64, flag: bool) -> usize {
    if n <= 1 || m == n {
        return if flag { 0 } else { 1 };
    }
    let k = split(n);
    1 + if m <= k { subproof_count(m, k, flag) } else { subproof_count(m - k, n - k, false) }
}

/// Counts by hand: place, size and nodes of the inclusion path.
pub const INCLUSION_COUNTS: [(u64, u64, usize); 15] = [
    (0, 1, 0),
    (0, 2, 1),
    (6, 7, 2),
    (4, 7, 3),
    (3, 7, 3),
    (1 << 31, (1 << 31) + 1, 1),
    ((1 << 31) - 1, (1 << 31) + 1, 32),
    ((1 << 32) - 2, (1 << 32) - 1, 31),
    (0, (1 << 32) - 1, 32),
    ((1 << 32) - 1, 1 << 32, 32),
    (1 << 63, (1 << 63) + 1, 1),
    (0, u64::MAX, 64),
    ((1 << 63) - 1, u64::MAX, 64),
    (u64::MAX - 1, u64::MAX, 63),
    (1 << 63, u64::MAX, 64),
];

/// Counts by hand: both sizes and nodes of the consistency path.
pub const CONSISTENCY_COUNTS: [(u64, u64, usize); 14] = [
    (1, 2, 1),
    (3, 7, 4),
    (4, 7, 1),
    (6, 7, 3),
    (1 << 31, 1 << 32, 1),
    (1, 1 << 32, 32),
    ((1 << 31) + 1, 1 << 32, 33),
    ((1 << 32) - 1, 1 << 32, 33),
    (1 << 32, 1 << 32, 0),
    (1 << 63, u64::MAX, 1),
    (1, u64::MAX, 64),
    (3, u64::MAX, 65),
    ((1 << 63) + 1, u64::MAX, 65),
    (u64::MAX - 1, u64::MAX, 64),
];

/// The root of an inclusion path; `None` where the count of nodes is wrong.
pub fn inclusion(h: HashFunction, leaf: &Hash, m: u64, n: u64, path: &[Hash]) -> Option<Hash> {
    if n == 1 {
        return path.is_empty().then_some(*leaf);
    }
    let (last, path) = path.split_last()?;
    let k = split(n);
    if m < k {
        Some(node_hash(h, &inclusion(h, leaf, m, k, path)?, last))
    } else {
        Some(node_hash(h, last, &inclusion(h, leaf, m - k, n - k, path)?))
    }
}

/// Both roots of a consistency path, for 0 < m < n; `None` where the count of
/// nodes is wrong.
pub fn consistency(h: HashFunction, m: u64, n: u64, first_root: &Hash, path: &[Hash]) -> Option<(Hash, Hash)> {
    sub(h, m, n, Some(first_root), path)
}

/// The roots of the first `m` of a part and of the part, of `n`. The flag of
/// SUBPROOF is that the first root is still known.
fn sub(h: HashFunction, m: u64, n: u64, known: Option<&Hash>, path: &[Hash]) -> Option<(Hash, Hash)> {
    if m == n {
        return match (known, path) {
            (Some(root), []) => Some((*root, *root)),
            (None, [root]) => Some((*root, *root)),
            _ => None,
        };
    }
    let (last, path) = path.split_last()?;
    let k = split(n);
    if m <= k {
        let (old, new) = sub(h, m, k, known, path)?;
        Some((old, node_hash(h, &new, last)))
    } else {
        let (old, new) = sub(h, m - k, n - k, None, path)?;
        Some((node_hash(h, last, &old), node_hash(h, last, &new)))
    }
}

#[cfg(test)]
mod tests {
    use super::*;
    use crate::random::Random;

    #[test]
    fn counts_by_hand() {
        for (m, n, count) in INCLUSION_COUNTS {
            assert_eq!(inclusion_count(m, n), count, "{m} in {n}");
        }
        for (m, n, count) in CONSISTENCY_COUNTS {
            assert_eq!(consistency_count(m, n), count, "{m} to {n}");
        }
        // The flag is lost where m > k, and is looked at where m is a power of two.
        assert_eq!([subproof_count(3, 7, false), subproof_count(4, 7, false), subproof_count(7, 7, false)], [4, 2, 1]);
    }

    #[test]
    fn counts_outside_of_the_papers() {
        let random = &mut Random::new(65);
        for turn in 0..20_000 {
            let n = if turn < 100 { turn } else { random.draw() >> random.below(64) };
            let past = n.saturating_add(random.draw() >> random.below(64));
            let last = inclusion_count(n.saturating_sub(1), n);
            assert_eq!(inclusion_count(past, n), last, "{past} in {n}");
            for flag in [true, false] {
                assert_eq!(subproof_count(0, n, flag), subproof_count(1, n, flag), "0 to {n}");
                let expected = if past == n || n <= 1 { !flag as usize } else { last + 1 };
                assert_eq!(subproof_count(past, n, flag), expected, "{past} to {n}");
            }
        }
        assert_eq!([inclusion_count(0, 0), inclusion_count(5, 0), inclusion_count(u64::MAX, 1)], [0; 3]);
        assert_eq!(inclusion_count(u64::MAX, u64::MAX), 63);
        assert_eq!([subproof_count(u64::MAX, 2, true), subproof_count(u64::MAX, u64::MAX - 1, true)], [2, 64]);
    }
}
