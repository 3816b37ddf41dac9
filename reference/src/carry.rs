//! Carrying an inclusion proof to a larger size, and comparing two inclusion
//! proofs. Each node of a proof is put down with the leaves that it stands for;
//! every other node is then hashed from its two parts.

use crate::tree::{hashes, node_hash, split, Hash, HashFunction};
use crate::verdict::{self, Consistency, Inclusion};
use crate::yields;
use std::cell::RefCell;
use std::collections::HashMap;
use std::ops::Range;

/// The leaves under a node, from the first to before the last.
pub type Leaves = Range<u64>;

/// Two strings of 65 bytes, 0x01 || left || right.
pub const PAIR: usize = 130;

#[derive(Clone, Debug, PartialEq, Eq)]
pub enum Carried {
    /// How many bytes of the path buffer were written.
    Path(usize),
    /// The pair buffer was written.
    Collision,
}

#[derive(Clone, Debug, PartialEq, Eq)]
pub enum Compared {
    Same,
    /// The pair buffer was written.
    Collision,
}

pub fn parts(leaves: &Leaves) -> (Leaves, Leaves) {
    let middle = leaves.start + split(leaves.end - leaves.start);
    (leaves.start..middle, middle..leaves.end)
}

/// What the nodes of an inclusion path of `place` in these leaves stand for, in the path's order.
pub fn inclusion_places(place: u64, leaves: Leaves) -> Vec<Leaves> {
    if leaves.end - leaves.start == 1 {
        return Vec::new();
    }
    let (first, rest) = parts(&leaves);
    let (inner, sibling) = if first.contains(&place) { (first, rest) } else { (rest, first) };
    let mut places = inclusion_places(place, inner);
    places.push(sibling);
    places
}

/// What the nodes of a consistency path from the first `m` leaves stand for, in
/// the path's order; `m` counts from 0, not from the part's start.
pub fn consistency_places(m: u64, leaves: Leaves, known: bool) -> Vec<Leaves> {
    if m == leaves.end {
        return if known { Vec::new() } else { vec![leaves] };
    }
    let (first, rest) = parts(&leaves);
    let (mut places, sibling) =
        if m <= first.end { (consistency_places(m, first, known), rest) } else { (consistency_places(m, rest, false), first) };
    places.push(sibling);
    places
}

/// Hashes of some nodes, and those that were hashed from them: a long path asks
/// for these again at each of its levels.
pub struct Known {
    h: HashFunction,
    nodes: HashMap<Leaves, Hash>,
    hashed: RefCell<HashMap<Leaves, Hash>>,
}

impl Known {
    pub fn new(h: HashFunction, places: Vec<Leaves>, nodes: &[Hash]) -> Known {
        assert_eq!(places.len(), nodes.len());
        Known { h, nodes: places.into_iter().zip(nodes.iter().copied()).collect(), hashed: RefCell::default() }
    }

    pub fn with(mut self, leaves: Leaves, hash: &Hash) -> Known {
        self.nodes.insert(leaves, *hash);
        self.hashed.take();
        self
    }

    /// The hash of a node that is known, or whose parts are.
    pub fn hash(&self, leaves: &Leaves) -> Hash {
        let before = self.nodes.get(leaves).copied().or_else(|| self.hashed.borrow().get(leaves).copied());
        before.unwrap_or_else(|| {
            let (first, rest) = parts(leaves);
            let hash = node_hash(self.h, &self.hash(&first), &self.hash(&rest));
            self.hashed.borrow_mut().insert(leaves.clone(), hash);
            hash
        })
    }

    /// 0x01 || left || right.
    fn string(&self, leaves: &Leaves) -> Vec<u8> {
        let (first, rest) = parts(leaves);
        [&[1], &self.hash(&first)[..], &self.hash(&rest)].concat()
    }
}

/// The full subtree of the first `m` leaves that holds the place: one for each
/// one-bit of `m`, the largest first.
pub fn full_subtree(place: u64, m: u64) -> Leaves {
    let mut start = 0;
    for bit in (0..64).rev().map(|bit| 1 << bit).filter(|bit| m & bit != 0) {
        if place < start + bit {
            return start..start + bit;
        }
        start += bit;
    }
    unreachable!("the place is below the size")
}

/// From the top, the first node above `bottom` whose two strings differ.
fn topmost_difference(one: &Known, two: &Known, top: Leaves, bottom: &Leaves) -> Option<Vec<u8>> {
    let mut at = top;
    while at != *bottom {
        let (first, second) = (one.string(&at), two.string(&at));
        if first != second {
            return Some([first, second].concat());
        }
        let (left, right) = parts(&at);
        at = if bottom.start < left.end { left } else { right };
    }
    None
}

/// An inclusion proof at the old size and a consistency proof from it: the path
/// at the new size, or two strings with one hash.
pub fn carry(
    h: HashFunction,
    old: &Inclusion,
    size: u64,
    root: &[u8],
    path: &[u8],
    lent_path: &mut [u8],
    lent_pair: &mut [u8],
) -> Result<Carried, u64> {
    let step = Consistency { first: old.size, second: size, first_root: old.root, second_root: root, path };
    for number in [verdict::inclusion(h, old), verdict::consistency(h, &step)] {
        if number != 0 {
            return Err(number);
        }
    }
    let length = 32 * yields::inclusion_count(old.place, size);
    if lent_path.len() < length || lent_pair.len() < PAIR {
        return Err(9);
    }
    if old.size == size {
        lent_path[..length].copy_from_slice(old.path);
        return Ok(Carried::Path(length));
    }

    let (old_nodes, step_nodes) = (hashes(old.path).unwrap(), hashes(path).unwrap());
    let (leaf, old_root): (Hash, Hash) = (old.leaf.try_into().unwrap(), old.root.try_into().unwrap());
    let place = old.place..old.place + 1;
    let by_inclusion = Known::new(h, inclusion_places(old.place, 0..old.size), &old_nodes).with(place, &leaf);
    let by_consistency = Known::new(h, consistency_places(old.size, 0..size, true), &step_nodes);
    // A power of two brings its own root.
    let by_consistency = if old.size.is_power_of_two() { by_consistency.with(0..old.size, &old_root) } else { by_consistency };

    let subtree = full_subtree(old.place, old.size);
    if let Some(strings) = topmost_difference(&by_inclusion, &by_consistency, 0..old.size, &subtree) {
        lent_pair[..PAIR].copy_from_slice(&strings);
        return Ok(Carried::Collision);
    }
    let mut new_path = Vec::new();
    for sibling in inclusion_places(old.place, 0..size) {
        let below = subtree.start <= sibling.start && sibling.end <= subtree.end;
        new_path.extend(if below { by_inclusion.hash(&sibling) } else { by_consistency.hash(&sibling) });
    }
    lent_path[..length].copy_from_slice(&new_path);
    Ok(Carried::Path(length))
}

/// Two inclusion proofs for one place, size and root.
pub fn compare(h: HashFunction, one: &Inclusion, two_leaf: &[u8], two_path: &[u8], lent_pair: &mut [u8]) -> Result<Compared, u64> {
    let two = Inclusion { leaf: two_leaf, path: two_path, ..*one };
    for number in [verdict::inclusion(h, one), verdict::inclusion(h, &two)] {
        if number != 0 {
            return Err(number);
        }
    }
    if lent_pair.len() < PAIR {
        return Err(9);
    }
    let place = one.place..one.place + 1;
    let places = || inclusion_places(one.place, 0..one.size);
    let leaves: [Hash; 2] = [one.leaf, two.leaf].map(|leaf| leaf.try_into().unwrap());
    let nodes = [one.path, two.path].map(|path| hashes(path).unwrap());
    let known = [0, 1].map(|i| Known::new(h, places(), &nodes[i]).with(place.clone(), &leaves[i]));
    match topmost_difference(&known[0], &known[1], 0..one.size, &place) {
        Some(strings) => {
            lent_pair[..PAIR].copy_from_slice(&strings);
            Ok(Compared::Collision)
        }
        None => {
            assert!(one.leaf == two.leaf && one.path == two.path);
            Ok(Compared::Same)
        }
    }
}

/// SHA-256 with all but four bits gone, so that collisions are easy to meet.
#[cfg(test)]
pub fn weak(input: &[u8]) -> Hash {
    let mut hash = [0; 32];
    hash[0] = crate::sha256::digest(input)[0] & 15;
    hash
}

#[cfg(test)]
mod tests {
    use super::*;
    use crate::random::Random;
    use crate::sha256::{digest, node};
    use crate::tree;

    fn carried(leaves: &[Hash], place: usize, m: usize, n: usize) -> Vec<u8> {
        let root = tree::root(digest, &leaves[..m]);
        let path = tree::path(digest, place, &leaves[..m]).concat();
        let old = Inclusion { leaf: &leaves[place], place: place as u64, size: m as u64, root: &root, path: &path };
        let step = tree::consistency_path(digest, m, &leaves[..n]).concat();
        let mut lent = [7; 32 * 33];
        let mut pair = [8; 131];
        let answer = carry(digest, &old, n as u64, &tree::root(digest, &leaves[..n]), &step, &mut lent, &mut pair);
        let Ok(Carried::Path(length)) = answer else { panic!("{answer:?}") };
        assert_eq!(pair, [8; 131]);
        assert!(lent[length..].iter().all(|byte| *byte == 7));
        lent[..length].to_vec()
    }

    #[test]
    fn starred_cases() {
        let [a, b, c, d, e, f, j] = [1u8, 2, 3, 4, 5, 6, 7].map(|i| [i; 32]);
        let leaves = [a, b, c, d, e, f, j];
        let (g, h, i) = (node(&a, &b), node(&c, &d), node(&e, &f));
        let (k, l) = (node(&g, &h), node(&i, &j));
        assert_eq!(carried(&leaves, 0, 3, 7), [b, h, l].concat());
        assert_eq!(carried(&leaves, 2, 3, 7), [d, g, l].concat());
        assert_eq!(carried(&leaves, 5, 6, 7), [e, j, k].concat());
    }

    /// For an honest list the carried path is the list's own.
    #[test]
    fn honest_lists() {
        let random = &mut Random::new(24);
        let leaves: Vec<Hash> = (0..24).map(|_| random.hash()).collect();
        for n in 1..=24 {
            for m in 1..=n {
                for place in 0..m {
                    assert_eq!(carried(&leaves, place, m, n), tree::path(digest, place, &leaves[..n]).concat());
                }
            }
        }
    }

    #[test]
    fn refusals() {
        let leaves = [[1; 32], [2; 32], [3; 32], [4; 32]];
        let root = tree::root(digest, &leaves[..3]);
        let path = tree::path(digest, 0, &leaves[..3]).concat();
        let old = Inclusion { leaf: &leaves[0], place: 0, size: 3, root: &root, path: &path };
        let new_root = tree::root(digest, &leaves);
        let step = tree::consistency_path(digest, 3, &leaves).concat();
        let (mut lent, mut pair) = ([7; 64], [8; 130]);
        assert_eq!(carry(digest, &old, 4, &new_root, &step, &mut lent[..63], &mut pair), Err(9));
        assert_eq!(carry(digest, &old, 4, &new_root, &step, &mut lent, &mut pair[..129]), Err(9));
        assert_eq!(carry(digest, &old, 4, &root, &step, &mut [], &mut []), Err(8));
        assert_eq!(carry(digest, &old, 4, &new_root, &[], &mut [], &mut []), Err(7));
        assert_eq!(carry(digest, &old, 3, &root, &[], &mut lent, &mut pair[..129]), Err(9));
        let wrong = Inclusion { place: 3, ..old };
        assert_eq!(carry(digest, &wrong, 4, &new_root, &[], &mut [], &mut []), Err(6));
        assert_eq!((lent, pair), ([7; 64], [8; 130]));
        assert_eq!(carry(digest, &old, 3, &root, &[], &mut lent, &mut pair), Ok(Carried::Path(64)));
        assert_eq!(lent[..], path);

        assert_eq!(compare(digest, &old, &leaves[0], &path, &mut pair), Ok(Compared::Same));
        assert_eq!(compare(digest, &old, &leaves[1], &path, &mut []), Err(8));
        assert_eq!(compare(digest, &wrong, &leaves[1], &[], &mut []), Err(6));
        assert_eq!(compare(digest, &old, &leaves[0], &path, &mut pair[..129]), Err(9));
    }

    fn is_collision(pair: &[u8]) {
        let (one, two) = pair.split_at(65);
        assert_eq!((one[0], two[0]), (1, 1));
        assert_ne!(one, two);
        assert_eq!(weak(one), weak(two));
    }

    /// A proof of any bytes that the weak hash accepts.
    fn forged_inclusion(place: u64, size: u64, root: &Hash, random: &mut Random) -> (Hash, Vec<u8>) {
        let count = yields::inclusion_count(place, size);
        if size == 1 {
            return (*root, Vec::new());
        }
        loop {
            let leaf = weak(&random.bytes(9));
            let path = (0..count).flat_map(|_| weak(&random.bytes(9))).collect::<Vec<u8>>();
            if verdict::inclusion(weak, &Inclusion { leaf: &leaf, place, size, root, path: &path }) == 0 {
                return (leaf, path);
            }
        }
    }

    /// Forged proofs under a weak hash: the carried path is accepted, or two
    /// strings differ and have one hash. Both happen.
    #[test]
    fn forged_proofs() {
        let random = &mut Random::new(65);
        let (mut paths, mut collisions, mut same, mut apart) = (0, 0, 0, 0);
        for turn in 0..3_000 {
            let n = random.between(1, 30);
            let m = random.between(1, n);
            let place = random.below(m);
            let leaves: Vec<Hash> = (0..n).map(|_| weak(&random.bytes(9))).collect();
            let root = tree::root(weak, &leaves[..m as usize]);
            let new_root = tree::root(weak, &leaves);
            let step = tree::consistency_path(weak, m as usize, &leaves).concat();
            let (leaf, path) = forged_inclusion(place, m, &root, random);
            let old = Inclusion { leaf: &leaf, place, size: m, root: &root, path: &path };
            let (mut lent, mut pair) = ([7; 32 * 40], [8; 140]);
            match carry(weak, &old, n, &new_root, &step, &mut lent, &mut pair).unwrap() {
                Carried::Path(length) => {
                    paths += 1;
                    let new = Inclusion { leaf: &leaf, place, size: n, root: &new_root, path: &lent[..length] };
                    assert_eq!(verdict::inclusion(weak, &new), 0, "{turn}: {place} from {m} to {n}");
                    assert_eq!(pair, [8; 140]);
                }
                Carried::Collision => {
                    collisions += 1;
                    is_collision(&pair[..PAIR]);
                    assert_eq!(lent, [7; 32 * 40]);
                }
            }
            let (leaf_two, path_two) = if random.one_in(4) { (leaf, path.clone()) } else { forged_inclusion(place, m, &root, random) };
            let mut pair = [8; 140];
            match compare(weak, &old, &leaf_two, &path_two, &mut pair).unwrap() {
                Compared::Same => {
                    same += 1;
                    assert!(leaf == leaf_two && path == path_two);
                    assert_eq!(pair, [8; 140]);
                }
                Compared::Collision => {
                    apart += 1;
                    assert!(leaf != leaf_two || path != path_two);
                    is_collision(&pair[..PAIR]);
                    assert_eq!(pair[PAIR..], [8; 10]);
                }
            }
        }
        assert!(paths > 300 && collisions > 300 && same > 300 && apart > 300, "{paths} {collisions} {same} {apart}");
    }

    /// The topmost difference, the first proof's string first.
    #[test]
    fn topmost_first() {
        // Over a hash of one value every proof of the right count is accepted.
        let flat: HashFunction = |_| [5; 32];
        let root = [5; 32];
        let old = Inclusion { leaf: &[1; 32], place: 0, size: 4, root: &root, path: &[2; 64] };
        let mut pair = [0; 130];
        let two_path = [[3; 32], [2; 32]].concat();
        assert_eq!(compare(flat, &old, &[1; 32], &two_path, &mut pair), Ok(Compared::Collision));
        assert_eq!(pair[..65], [&[1][..], &[1; 32], &[2; 32]].concat());
        assert_eq!(pair[65..], [&[1][..], &[1; 32], &[3; 32]].concat());
        let two_path = [[3; 32], [4; 32]].concat();
        assert_eq!(compare(flat, &old, &[1; 32], &two_path, &mut pair), Ok(Compared::Collision));
        assert_eq!(pair[..65], [&[1][..], &[5; 32], &[2; 32]].concat());
        assert_eq!(pair[65..], [&[1][..], &[5; 32], &[4; 32]].concat());
        // From 7 to 8, place 6: the consistency nodes are [6], [7], [4, 5] and [0 to 3].
        let old = Inclusion { leaf: &[1; 32], place: 6, size: 7, root: &root, path: &[[2; 32], [3; 32]].concat() };
        let mut lent = [0; 96];
        let step = |nodes: [u8; 4]| nodes.map(|byte| [byte; 32]).concat();
        assert_eq!(carry(flat, &old, 8, &root, &step([1, 9, 2, 3]), &mut lent, &mut pair), Ok(Carried::Path(96)));
        assert_eq!(lent[..], [[9; 32], [2; 32], [3; 32]].concat());
        assert_eq!(carry(flat, &old, 8, &root, &step([4, 9, 2, 3]), &mut lent, &mut pair), Ok(Carried::Collision));
        assert_eq!(pair[..65], [&[1][..], &[2; 32], &[1; 32]].concat());
        assert_eq!(pair[65..], [&[1][..], &[2; 32], &[4; 32]].concat());
        assert_eq!(carry(flat, &old, 8, &root, &step([4, 9, 2, 6]), &mut lent, &mut pair), Ok(Carried::Collision));
        assert_eq!(pair[..65], [&[1][..], &[3; 32], &[5; 32]].concat());
        assert_eq!(pair[65..], [&[1][..], &[6; 32], &[5; 32]].concat());
    }
}
