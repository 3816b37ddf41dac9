//! The growing tree: pages and joined leaf hashes, taken call by call into one
//! hash a level. A list of calls from a new tree is answered a second time, from
//! the list of all its leaves and the recursive definition alone.

use crate::algorithm::{Hashes, REFUSED};
use crate::item::LONGEST_ITEM;
use crate::tree::{self, hand_out, hashes, leaf_hash, leaves_of, node_hash, Hash, HashFunction, LARGEST_SIZE, MOST_LEAVES};

/// Level i stands for 2^i leaves, up to 2^63: a size has 64 bits.
pub const LEVELS: usize = 64;
/// What a level holds that stands for no leaves.
pub const NOTHING: Hash = [0; 32];

/// The hash at level i counts where bit i of the count is one. Any value has its
/// answers, also one that no list of calls returns.
#[derive(Clone, Debug, PartialEq, Eq)]
pub struct Growing {
    /// The number of the hash that it was made with.
    pub algorithm: u64,
    pub hashes: [Hash; LEVELS],
    pub count: u64,
}

#[derive(Clone, Debug, PartialEq, Eq)]
pub enum Call {
    Page(Vec<u8>),
    /// Leaf hashes, joined.
    Leaves(Vec<u8>),
}

/// 1 for a page that is too long, then 6 for one past the limit; else 0.
pub fn page_refusal(length: u64, count: u64) -> u64 {
    if length > LONGEST_ITEM as u64 {
        1
    } else if past_the_limit(count, 1) {
        6
    } else {
        0
    }
}

/// 10 for joined hashes of a bad length, then 6 for leaves past the limit; else 0.
pub fn leaves_refusal(length: u64, count: u64) -> u64 {
    if length % 32 != 0 || length / 32 > MOST_LEAVES {
        10
    } else if past_the_limit(count, length / 32) {
        6
    } else {
        0
    }
}

/// No sum is made that would wrap.
fn past_the_limit(count: u64, more: u64) -> bool {
    more > LARGEST_SIZE - count
}

impl Growing {
    /// Of no leaves, with this number, which may be that of no hash.
    pub const fn new(algorithm: u64) -> Growing {
        Growing { algorithm, hashes: [NOTHING; LEVELS], count: 0 }
    }

    /// 0, or 16 for a number that no hash has; the tree holds the number either way.
    pub fn make(hashes: Hashes, algorithm: u64) -> (u64, Growing) {
        let number = if hashes(algorithm).is_some() { 0 } else { REFUSED };
        (number, Growing::new(algorithm))
    }

    /// The hash of a call's number, or 16: where no hash has it, and where it is not the tree's.
    fn hash(&self, hashes: Hashes, algorithm: u64) -> Result<HashFunction, u64> {
        hashes(algorithm).filter(|_| algorithm == self.algorithm).ok_or(REFUSED)
    }

    /// The number, and the tree after the call.
    pub fn page(&self, hashes: Hashes, algorithm: u64, page: &[u8]) -> (u64, Growing) {
        let h = match self.hash(hashes, algorithm) {
            Ok(h) => h,
            Err(number) => return (number, self.clone()),
        };
        match page_refusal(page.len() as u64, self.count) {
            0 => (0, self.with(h, &[leaf_hash(h, page)])),
            number => (number, self.clone()),
        }
    }

    /// The number, and the tree after the call.
    pub fn leaves(&self, by: Hashes, algorithm: u64, joined: &[u8]) -> (u64, Growing) {
        let h = match self.hash(by, algorithm) {
            Ok(h) => h,
            Err(number) => return (number, self.clone()),
        };
        match leaves_refusal(joined.len() as u64, self.count) {
            0 => (0, self.with(h, &hashes(joined).unwrap())),
            number => (number, self.clone()),
        }
    }

    pub fn call(&self, hashes: Hashes, algorithm: u64, call: &Call) -> (u64, Growing) {
        match call {
            Call::Page(page) => self.page(hashes, algorithm, page),
            Call::Leaves(joined) => self.leaves(hashes, algorithm, joined),
        }
    }

    /// For no more leaves than there is room.
    fn with(&self, h: HashFunction, leaves: &[Hash]) -> Growing {
        let mut after = self.clone();
        leaves.iter().for_each(|leaf| after.add(h, leaf));
        after
    }

    /// Whether the hash at this level counts.
    fn counts(&self, level: usize) -> bool {
        self.count >> level & 1 == 1
    }

    /// For a count below the limit: its bits are not all ones.
    fn add(&mut self, h: HashFunction, leaf: &Hash) {
        let (mut level, mut hash) = (0, *leaf);
        while self.counts(level) {
            hash = node_hash(h, &self.hashes[level], &hash);
            self.hashes[level] = NOTHING;
            level += 1;
        }
        self.hashes[level] = hash;
        self.count += 1;
    }

    /// The hashes that count, folded from the lowest, or 16.
    pub fn root(&self, hashes: Hashes, algorithm: u64) -> Result<Hash, u64> {
        let h = self.hash(hashes, algorithm)?;
        let counted = (0..LEVELS).filter(|level| self.counts(*level)).map(|level| self.hashes[level]);
        Ok(counted.reduce(|right, left| node_hash(h, &left, &right)).unwrap_or_else(|| h(&[])))
    }

    /// The bytes written, or 16, then 9.
    pub fn root_into(&self, hashes: Hashes, algorithm: u64, lent: &mut [u8]) -> Result<usize, u64> {
        hand_out(&[self.root(hashes, algorithm)?], lent)
    }
}

/// The tree of a list of leaf hashes, from the list alone: where bit i of its
/// length is one, level i has the root of the 2^i leaves behind those of the
/// higher ones. Its number is that of a hash.
pub fn of_list(hashes: Hashes, algorithm: u64, leaves: &[Hash]) -> Growing {
    let (n, h) = (leaves.len(), hashes(algorithm).expect("a known number"));
    let mut tree = Growing { count: n as u64, ..Growing::new(algorithm) };
    for (level, hash) in tree.hashes.iter_mut().enumerate() {
        if n >> level & 1 == 1 {
            let start = ((n >> level) - 1) << level;
            *hash = tree::root(h, &leaves[start..][..1 << level]);
        }
    }
    tree
}

/// What a list of calls from a new tree gives: the number of making it, that of each call
/// and the root after it, zeros where that is refused, and the tree at the end.
#[derive(Clone, Debug, PartialEq, Eq)]
pub struct Grown {
    pub number: u64,
    pub told: Vec<(u64, Hash)>,
    pub tree: Growing,
}

/// Calls, each by the same number.
pub fn under(algorithm: u64, calls: &[Call]) -> Vec<(u64, Call)> {
    calls.iter().map(|call| (algorithm, call.clone())).collect()
}

/// Each call has the number of its hash and is given the tree that the call before
/// returned, refused or not.
fn grow_by_levels(hashes: Hashes, algorithm: u64, calls: &[(u64, Call)]) -> Grown {
    let (number, mut tree) = Growing::make(hashes, algorithm);
    let mut told = Vec::new();
    for (by, call) in calls {
        let (number, after) = tree.call(hashes, *by, call);
        told.push((number, after.root(hashes, algorithm).unwrap_or(NOTHING)));
        tree = after;
    }
    Grown { number, told, tree }
}

/// By the definition, of the leaves of all calls so far that were not refused. A tree whose
/// number no hash has refuses all.
fn grow_by_list(hashes: Hashes, algorithm: u64, calls: &[(u64, Call)]) -> Grown {
    let Some(h) = hashes(algorithm) else {
        return Grown { number: REFUSED, told: vec![(REFUSED, NOTHING); calls.len()], tree: Growing::new(algorithm) };
    };
    let (mut told, mut leaves) = (Vec::new(), Vec::new());
    for (by, call) in calls {
        let more = if *by == algorithm { added(h, call, leaves.len()) } else { Err(REFUSED) };
        let number = more.as_ref().err().copied().unwrap_or(0);
        leaves.extend(more.into_iter().flatten());
        told.push((number, tree::root(h, &leaves)));
    }
    Grown { number: 0, told, tree: of_list(hashes, algorithm, &leaves) }
}

/// The leaves that a call adds to a list of so many, or its refusal.
fn added(h: HashFunction, call: &Call, length: usize) -> Result<Vec<Hash>, u64> {
    let more = match call {
        Call::Page(page) if page.len() > LONGEST_ITEM => return Err(1),
        Call::Page(page) => vec![leaf_hash(h, page)],
        Call::Leaves(joined) => leaves_of(joined)?,
    };
    if length as u128 + more.len() as u128 > LARGEST_SIZE as u128 {
        return Err(6);
    }
    Ok(more)
}

/// Both ways, which must agree.
pub fn grow(hashes: Hashes, algorithm: u64, calls: &[(u64, Call)]) -> Grown {
    let grown = grow_by_levels(hashes, algorithm, calls);
    assert_eq!(grown, grow_by_list(hashes, algorithm, calls), "the two ways disagree");
    grown
}

#[cfg(test)]
mod tests {
    use super::*;
    use crate::algorithm::{hash, other, weak, KNOWN, SHA256, UNKNOWN};
    use crate::random::Random;
    use crate::sha256::{digest, leaf, node};
    use crate::words::hex;

    const EMPTY: &str = "e3b0c44298fc1c149afbf4c8996fb92427ae41e4649b934ca495991b7852b855";
    const EMPTY_PAGE: &str = "6e340b9cffb37a989ca544e6bb780a2c78901d3fb33738768511a30617afa01d";
    const TWO_ZEROS: &str = "ae0798d0ecaed2b778eddebf18f071a561c53658c05e76cedecc27cafbdbc577";

    fn some_hashes(count: usize, random: &mut Random) -> Vec<Hash> {
        (0..count).map(|_| random.hash()).collect()
    }

    fn made_up(count: u64, random: &mut Random) -> Growing {
        Growing { algorithm: SHA256, hashes: some_hashes(LEVELS, random).try_into().unwrap(), count }
    }

    #[test]
    fn hand_values() {
        let new = Growing::new(SHA256);
        assert_eq!(hex(&new.root(hash, SHA256).unwrap()), EMPTY);
        assert_eq!(new.leaves(hash, SHA256, &[]), (0, new.clone()));
        let (number, one) = new.page(hash, SHA256, b"");
        assert_eq!((number, one.count, hex(&one.hashes[0])), (0, 1, EMPTY_PAGE.into()));
        assert_eq!(hex(&one.root(hash, SHA256).unwrap()), EMPTY_PAGE);
        let (number, one) = new.leaves(hash, SHA256, &[0; 32]);
        assert_eq!((number, one.count, one.root(hash, SHA256).unwrap()), (0, 1, NOTHING));
        let (number, two) = new.leaves(hash, SHA256, &[0; 64]);
        assert_eq!((number, two.count, hex(&two.root(hash, SHA256).unwrap())), (0, 2, TWO_ZEROS.into()));
        assert_eq!(hex(&two.hashes[1]), TWO_ZEROS);

        // Three leaves: the first two at level 1, the last at level 0.
        let (a, b, c) = (leaf(b"a"), leaf(b"b"), leaf(b"c"));
        let calls = [Call::Page(b"a".into()), Call::Leaves(vec![]), Call::Leaves([b, c].concat())];
        let grown = grow(hash, SHA256, &under(SHA256, &calls));
        assert_eq!(grown.told, [(0, a), (0, a), (0, node(&node(&a, &b), &c))]);
        assert_eq!(grown.tree.hashes[..3], [c, node(&a, &b), NOTHING]);
        assert_eq!((&grown.tree.hashes[2..], grown.tree.count), (&[NOTHING; LEVELS - 2][..], 3));
    }

    /// A leaf that merges all levels below, up to the highest; 2^32 is a size as any other.
    #[test]
    fn merged_levels() {
        let random = &mut Random::new(32);
        for level in [1, 31, 32, 33, 62, 63] {
            let tree = made_up((1 << level) - 1, random);
            let merged = tree.hashes[..level].iter().fold(leaf(b"page"), |right, left| node(left, &right));
            let (number, after) = tree.page(hash, SHA256, b"page");
            assert_eq!((number, after.count, after.root(hash, SHA256).unwrap()), (0, 1 << level, merged));
            assert_eq!((&after.hashes[..level], after.hashes[level]), (&vec![NOTHING; level][..], merged));
            assert_eq!(after.hashes[level + 1..], tree.hashes[level + 1..]);
            assert_eq!(tree.leaves(hash, SHA256, &leaf(b"page")), (0, after.clone()));
            let (number, more) = after.leaves(hash, SHA256, &[5; 32]);
            assert_eq!((number, more.count, more.root(hash, SHA256).unwrap()), (0, (1 << level) + 1, node(&merged, &[5; 32])));
        }
    }

    /// The last leaf that there is room for: its level is the lowest, and then all levels count.
    #[test]
    fn top() {
        let random = &mut Random::new(64);
        let top = made_up(LARGEST_SIZE - 1, random);
        let (number, full) = top.page(hash, SHA256, b"page");
        assert_eq!((number, full.count, full.hashes[0]), (0, LARGEST_SIZE, leaf(b"page")));
        assert_eq!(full.hashes[1..], top.hashes[1..]);
        assert_eq!(full.root(hash, SHA256).unwrap(), full.hashes[1..].iter().fold(leaf(b"page"), |right, left| node(left, &right)));
        assert_eq!(top.leaves(hash, SHA256, &leaf(b"page")), (0, full.clone()));
        let refused =
            [(&top, 64, 6), (&top, 33, 10), (&top, 65, 10), (&full, 31, 10), (&full, 32, 6), (&full, 64, 6), (&full, 0, 0), (&top, 0, 0)];
        for (tree, length, number) in refused {
            assert_eq!(tree.leaves(hash, SHA256, &vec![0; length]), (number, tree.clone()));
        }
        assert_eq!(full.page(hash, SHA256, b"p"), (6, full.clone()));
        let (long, longer) = (vec![0; LONGEST_ITEM], vec![0; LONGEST_ITEM + 1]);
        assert_eq!(full.page(hash, SHA256, &longer), (1, full.clone()));
        assert_eq!(Growing::new(SHA256).page(hash, SHA256, &longer), (1, Growing::new(SHA256)));
        assert_eq!(full.page(hash, SHA256, &long), (6, full.clone()));
        let (number, one) = Growing::new(SHA256).page(hash, SHA256, &long);
        assert_eq!((number, one.root(hash, SHA256).unwrap()), (0, leaf(&long)));
    }

    /// No sum of any count and any length wraps.
    #[test]
    fn refusals_by_numbers() {
        let most = 32 * MOST_LEAVES;
        for (length, count, number) in [
            (0, (1 << 32) + 1, 0),
            (0, LARGEST_SIZE, 0),
            (32, 1 << 32, 0),
            (32, LARGEST_SIZE - 1, 0),
            (32, LARGEST_SIZE, 6),
            (33, LARGEST_SIZE, 10),
            (64, LARGEST_SIZE - 2, 0),
            (64, LARGEST_SIZE - 1, 6),
            (64, LARGEST_SIZE, 6),
            // The most leaves of one call: their own limit, whatever the count.
            (most, 0, 0),
            (most, 1 << 32, 0),
            (most, LARGEST_SIZE - MOST_LEAVES, 0),
            (most, LARGEST_SIZE - MOST_LEAVES + 1, 6),
            (most, LARGEST_SIZE, 6),
            (most - 32, LARGEST_SIZE, 6),
            (most + 32, 0, 10),
            (most + 32, LARGEST_SIZE, 10),
            (most - 1, 0, 10),
            (u64::MAX - 31, 0, 10),
        ] {
            assert_eq!(leaves_refusal(length, count), number, "{length} bytes, {count} leaves");
        }
        let most = LONGEST_ITEM as u64;
        for (length, count, number) in [
            (0, 0, 0),
            (most, 1 << 32, 0),
            (most, LARGEST_SIZE - 1, 0),
            (0, LARGEST_SIZE, 6),
            (most, LARGEST_SIZE, 6),
            (most + 1, 0, 1),
            (most + 1, LARGEST_SIZE, 1),
            (u64::MAX, LARGEST_SIZE, 1),
        ] {
            assert_eq!(page_refusal(length, count), number, "{length} bytes, {count} leaves");
        }
    }

    /// Pages one by one or as joined leaf hashes, with joined calls of none and refused ones.
    fn cut(h: HashFunction, pages: &[Vec<u8>], random: &mut Random) -> Vec<Call> {
        let (mut calls, mut rest) = (Vec::new(), pages);
        while !rest.is_empty() {
            let most = if random.one_in(3) { rest.len() } else { rest.len().min(5) };
            let (now, later) = rest.split_at(random.below(most as u64 + 1) as usize);
            let joined = now.iter().map(|page| leaf_hash(h, page)).collect::<Vec<Hash>>().concat();
            if random.one_in(6) {
                calls.push(Call::Leaves([&joined[..], &[7; 7]].concat()));
            }
            if random.one_in(3) {
                calls.extend(now.iter().cloned().map(Call::Page));
            } else {
                calls.push(Call::Leaves(joined));
            }
            rest = later;
        }
        calls
    }

    /// Every length up to 300, in random cuts, over both hashes and weak ones: `grow` compares the ways.
    #[test]
    fn levels_equal_the_definition() {
        let random = &mut Random::new(300);
        let pages: Vec<Vec<u8>> = (0..300).map(|_| random.bytes(9)).collect();
        for (hashes, algorithm) in [(hash as Hashes, 0x00), (hash, 0xf0), (weak, 0x00), (weak, 0xf0)] {
            let h = hashes(algorithm).unwrap();
            let leaves: Vec<Hash> = pages.iter().map(|page| leaf_hash(h, page)).collect();
            for n in 0..=300 {
                let calls = under(algorithm, &cut(h, &pages[..n], random));
                let (grown, list) = (grow(hashes, algorithm, &calls), &leaves[..n]);
                assert_eq!(grown.tree, of_list(hashes, algorithm, list));
                assert_eq!((grown.number, grown.tree.root(hashes, algorithm)), (0, Ok(tree::root(h, list))));
                assert_eq!(Growing::new(algorithm).leaves(hashes, algorithm, &list.concat()), (0, grown.tree));
            }
        }
    }

    /// A call by another number, known or not, is 16 and changes nothing; it comes before 1, 10, 6 and 9.
    #[test]
    fn other_numbers() {
        let random = &mut Random::new(16);
        let longer = vec![0; LONGEST_ITEM + 1];
        for algorithm in KNOWN {
            let full = Growing { algorithm, ..made_up(LARGEST_SIZE, random) };
            for by in UNKNOWN.into_iter().chain([other(algorithm)]) {
                assert_eq!(full.page(hash, by, b"page"), (16, full.clone()));
                assert_eq!(full.page(hash, by, &longer), (16, full.clone()));
                assert_eq!([31, 32, 0].map(|length| full.leaves(hash, by, &longer[..length]).0), [16; 3]);
                assert_eq!((full.root(hash, by), full.root_into(hash, by, &mut [])), (Err(16), Err(16)));
            }
            assert_eq!((full.page(hash, algorithm, &longer).0, full.page(hash, algorithm, b"page").0), (1, 6));
            assert_eq!(full.root_into(hash, algorithm, &mut []), Err(9));
            assert_eq!(Growing::make(hash, algorithm), (0, Growing::new(algorithm)));
        }
        // A tree that was made with no hash's number: every call is 16, by its own number too.
        for algorithm in UNKNOWN {
            let (number, made) = Growing::make(hash, algorithm);
            assert_eq!((number, &made), (16, &Growing { algorithm, ..Growing::new(SHA256) }));
            for by in UNKNOWN.into_iter().chain(KNOWN) {
                assert_eq!((made.page(hash, by, b""), made.root(hash, by)), ((16, made.clone()), Err(16)));
            }
            let grown = grow(hash, algorithm, &[(algorithm, Call::Page(vec![])), (0x00, Call::Leaves(vec![]))]);
            assert_eq!(grown, Grown { number: 16, told: vec![(16, NOTHING); 2], tree: made });
        }
        // Refused calls among others.
        let calls = [(0xf0, Call::Page(b"a".into())), (0x00, Call::Page(b"b".into())), (0x1f0, Call::Leaves(vec![5; 31]))];
        let one = leaf_hash(hash(0xf0).unwrap(), b"a");
        assert_eq!(grow(hash, 0xf0, &calls).told, [(0, one), (16, one), (16, one)]);
        let zeros = hash(0xf0).unwrap()(&[&[1][..], &[0; 64]].concat());
        assert_eq!(hex(&zeros), "5ec1420cd14f308650cb6ac8dcd6bab89589f1f3dced7c1a17345f269e605291");
        assert_eq!(Growing::new(0xf0).leaves(hash, 0xf0, &[0; 64]).1.root(hash, 0xf0), Ok(zeros));
    }

    /// How a wrong program adds a leaf.
    type Add = fn(&mut Growing, &Hash);

    fn keeps_merged_hashes(tree: &mut Growing, leaf: &Hash) {
        let before = tree.hashes;
        tree.add(digest, leaf);
        for (level, hash) in tree.hashes.iter_mut().enumerate() {
            if tree.count >> level & 1 == 0 {
                *hash = before[level];
            }
        }
    }

    fn merges(tree: &mut Growing, leaf: &Hash, levels: usize, join: fn(&Hash, &Hash) -> Hash) {
        let mut hash = *leaf;
        for level in 0..levels {
            hash = join(&tree.hashes[level], &hash);
            tree.hashes[level] = NOTHING;
        }
        tree.hashes[levels] = hash;
        tree.count += 1;
    }

    const WRONG: [(&str, Add); 6] = [
        ("merged once too often", |tree, leaf| merges(tree, leaf, tree.count.trailing_ones() as usize + 1, node)),
        ("merged once too seldom", |tree, leaf| merges(tree, leaf, tree.count.trailing_ones().saturating_sub(1) as usize, node)),
        ("merged by the new count", |tree, leaf| merges(tree, leaf, (tree.count + 1).trailing_ones() as usize, node)),
        ("left and right exchanged", |tree, leaf| merges(tree, leaf, tree.count.trailing_ones() as usize, |left, right| node(right, left))),
        ("a merged hash kept in its place", keeps_merged_hashes),
        ("hashed again", |tree, hash| tree.add(digest, &leaf(hash))),
    ];

    /// How a wrong program folds the hashes that count, the lowest first.
    const WRONG_ROOTS: [(&str, fn(&[Hash]) -> Hash); 3] = [
        ("left and right exchanged", |hashes| hashes[1..].iter().fold(hashes[0], |right, left| node(&right, left))),
        ("the lowest paired with itself", |hashes| hashes.iter().fold(hashes[0], |right, left| node(left, &right))),
        ("folded from the highest", |hashes| hashes.iter().rev().copied().reduce(|left, right| node(&left, &right)).unwrap()),
    ];

    #[test]
    fn wrong_trees_are_caught() {
        let leaves = some_hashes(9, &mut Random::new(9));
        let differs = |add: Add| {
            let mut tree = Growing::new(SHA256);
            (1..=leaves.len()).any(|n| {
                add(&mut tree, &leaves[n - 1]);
                tree != of_list(hash, SHA256, &leaves[..n])
            })
        };
        for (what, add) in WRONG {
            assert!(differs(add), "{what}");
        }
        assert!(!differs(|tree, leaf| merges(tree, leaf, tree.count.trailing_ones() as usize, node)));
        let seven = of_list(hash, SHA256, &leaves[..7]);
        for (what, root) in WRONG_ROOTS {
            assert_ne!(root(&seven.hashes[..3]), tree::root(digest, &leaves[..7]), "{what}");
        }
    }

    #[test]
    #[should_panic(expected = "the two ways disagree")]
    fn ways_that_disagree_stop_the_program() {
        // A hash that answers otherwise each time.
        fn unsteady(_: &[u8]) -> Hash {
            use std::sync::atomic::{AtomicU8, Ordering};
            static CALLS: AtomicU8 = AtomicU8::new(0);
            [CALLS.fetch_add(1, Ordering::Relaxed); 32]
        }
        grow(|_| Some(unsteady), SHA256, &[(SHA256, Call::Page(vec![]))]);
    }

    // Any state, from the top down.

    /// The hash of the 2^level leaves from index * 2^level on, of the leaves
    /// that a state stands for and those that follow.
    fn subtree(state: &Growing, more: &[Hash], level: usize, index: u64) -> Hash {
        if (index as u128 + 1) << level <= state.count as u128 {
            assert_eq!((state.count >> level, index & 1), (index + 1, 0));
            state.hashes[level]
        } else if level == 0 {
            more[(index - state.count) as usize]
        } else {
            node(&subtree(state, more, level - 1, 2 * index), &subtree(state, more, level - 1, 2 * index + 1))
        }
    }

    /// A level that no leaf reached is as it was.
    fn after(state: &Growing, more: &[Hash]) -> Growing {
        let count = state.count + more.len() as u64;
        let mut after = Growing { count, ..state.clone() };
        for level in (0..LEVELS).filter(|level| count >> level != state.count >> level) {
            let is_there = count >> level & 1 == 1;
            after.hashes[level] = if is_there { subtree(state, more, level, (count >> level) - 1) } else { NOTHING };
        }
        after
    }

    /// The first k of n leaves, k the largest power of two smaller than n, and the rest.
    fn root_of(hashes: &[Hash; LEVELS], n: u64) -> Hash {
        match n {
            0 => digest(&[]),
            _ if n.is_power_of_two() => hashes[n.trailing_zeros() as usize],
            _ => {
                let k = tree::split(n);
                node(&hashes[k.trailing_zeros() as usize], &root_of(hashes, n - k))
            }
        }
    }

    #[test]
    fn any_state() {
        let random = &mut Random::new(33);
        for turn in 0..4_000 {
            let count = match turn % 4 {
                0 => random.draw() >> random.below(64),
                1 => (1 << random.below(64)) - random.below(2),
                2 => (1 << 32) + 20 - random.below(40),
                _ => LARGEST_SIZE - random.below(40),
            };
            let state = made_up(count, random);
            assert_eq!(state.root(hash, SHA256).unwrap(), root_of(&state.hashes, count));
            let more = some_hashes(random.below(20) as usize, random);
            let (number, one) = state.leaves(hash, SHA256, &more.concat());
            if count as u128 + more.len() as u128 > LARGEST_SIZE as u128 {
                assert_eq!((number, one), (6, state));
                continue;
            }
            assert_eq!((number, &one), (0, &after(&state, &more)));
            let mut each = state;
            for leaf in &more {
                (_, each) = each.leaves(hash, SHA256, leaf);
            }
            assert_eq!(each, one);
        }
    }
}
