//! Rounds of the growing tree: calls on made-up trees, and lists of calls from a new one, by both hashes and by numbers that no hash has.

use crate::forge::{any_node, any_nodes, some_page};
use crate::given::{hashes, keep, weak_sha256};
use crate::hold::Hold;
use crate::zeros::{zeros, MOST};
use reference::algorithm::{self, mostly, some_unknown, KNOWN};
use reference::growing::{of_list, Call, Growing};
use reference::item::LONGEST_ITEM;
use reference::proofs::near_power;
use reference::random::Random;
use reference::servers::spoil;
use reference::tree::{leaf_hash, Hash, HashFunction, LARGEST_SIZE, MOST_LEAVES};

/// Small, next to a power of two, to the highest level's or to the limit, or any.
fn some_count(random: &mut Random) -> u64 {
    match random.below(8) {
        0 | 1 => random.below(70),
        2 | 3 => near_power(random),
        4 | 5 => LARGEST_SIZE - random.below(6),
        6 => (1 << 63) - random.below(4),
        _ => random.draw() >> random.below(64),
    }
}

/// The hash of a number, or one of the two.
fn some_hash(algorithm: u64) -> HashFunction {
    hashes(algorithm).unwrap_or(weak_sha256)
}

/// Any hash at each level, or at those alone that count, as in a tree that calls return.
fn made_up(algorithm: u64, count: u64, random: &mut Random) -> Growing {
    let h = some_hash(algorithm);
    let mut tree = Growing { count, ..Growing::new(algorithm) };
    let is_everywhere = random.one_in(2);
    for (level, hash) in tree.hashes.iter_mut().enumerate() {
        if is_everywhere || count >> level & 1 == 1 {
            *hash = any_node(h, random);
        }
    }
    tree
}

/// The number of a call over a tree: mostly the tree's. Where no hash has that, either hash's at times.
fn some_number(algorithm: u64, random: &mut Random) -> u64 {
    if hashes(algorithm).is_none() && random.one_in(4) {
        return algorithm::some(random);
    }
    mostly(algorithm, random)
}

fn roots(hold: &mut Hold, tree: &Growing, random: &mut Random) {
    let room = *random.pick(&[0, 31, 32, 33, 64]);
    hold.growing_root(some_number(tree.algorithm, random), tree, &random.bytes(room));
}

/// A few calls on a made-up tree, and the root before and after each. One tree in ten has a number that no hash has.
pub fn tree_round(hold: &mut Hold, random: &mut Random) {
    let algorithm = if random.one_in(10) { some_unknown(random) } else { algorithm::some(random) };
    let h = some_hash(algorithm);
    let mut tree = made_up(algorithm, some_count(random), random);
    hold.new_tree(mostly(algorithm, random));
    roots(hold, &tree, random);
    for _ in 0..random.between(1, 3) {
        let by = some_number(algorithm, random);
        tree = if random.one_in(2) {
            hold.add_page(by, &tree, &some_page(random))
        } else {
            let mut joined = any_nodes(h, random.below(6) as usize, random).concat();
            if random.one_in(5) {
                spoil(&mut joined, random);
            }
            hold.add_leaves(by, &tree, &joined)
        };
        roots(hold, &tree, random);
    }
}

/// Pages one by one or as joined leaf hashes, joined calls of none and refused calls among them.
fn cut(h: HashFunction, pages: &[Vec<u8>], random: &mut Random) -> Vec<Call> {
    let (mut calls, mut rest) = (Vec::new(), pages);
    while !rest.is_empty() || random.one_in(2) {
        let most = if random.one_in(3) { rest.len() } else { rest.len().min(5) };
        let (now, later) = rest.split_at(random.below(most as u64 + 1) as usize);
        let mut joined = now.iter().map(|page| leaf_hash(h, page)).collect::<Vec<Hash>>().concat();
        match random.below(12) {
            0 => {
                joined.resize(joined.len() + random.between(1, 31) as usize, 7);
                calls.push(Call::Leaves(joined));
                continue;
            }
            1 if random.one_in(8) => {
                calls.push(Call::Page(vec![0; LONGEST_ITEM + 1]));
                continue;
            }
            1..=4 => calls.extend(now.iter().cloned().map(Call::Page)),
            _ => calls.push(Call::Leaves(joined)),
        }
        rest = later;
    }
    calls
}

/// Calls by one number; before one in eight of them the same call by another number, known or not.
fn with_strays(algorithm: u64, calls: Vec<Call>, random: &mut Random) -> Vec<(u64, Call)> {
    let mut all = Vec::new();
    for call in calls {
        if random.one_in(8) {
            let by = if random.one_in(2) { algorithm::other(algorithm) } else { some_unknown(random) };
            all.push((by, call.clone()));
        }
        all.push((algorithm, call));
    }
    all
}

/// The same pages in several cuts: one tree comes of all. By a number that no hash has, none is taken.
pub fn list_round(hold: &mut Hold, random: &mut Random) {
    let algorithm = algorithm::some(random);
    let h = hashes(algorithm).unwrap();
    let pages: Vec<Vec<u8>> = (0..random.below(41)).map(|_| some_page(random)).collect();
    let leaves: Vec<Hash> = pages.iter().map(|page| leaf_hash(h, page)).collect();
    let tree = of_list(hashes, algorithm, &leaves);
    for _ in 0..3 {
        let calls = with_strays(algorithm, cut(h, &pages, random), random);
        assert_eq!(hold.grow(algorithm, &calls), tree, "another cut, another tree");
    }
    let unknown = some_unknown(random);
    let calls = with_strays(if random.one_in(2) { unknown } else { algorithm }, cut(h, &pages[..pages.len().min(4)], random), random);
    assert_eq!(hold.grow(unknown, &calls), Growing::new(unknown), "a number that no hash has");
}

/// Lengths at their limits, over trees at the ends of the counts: 16 before 1, 10 and 6, and 1 and 10 before 6. What is long is
/// refused, and so not read.
pub fn limits(hold: &mut Hold, random: &mut Random) {
    keep(6);
    for algorithm in KNOWN {
        let [top, full] = [LARGEST_SIZE - 1, LARGEST_SIZE].map(|count| made_up(algorithm, count, random));
        for by in [algorithm, algorithm::other(algorithm), algorithm ^ 0x100] {
            hold.new_tree(by);
            for tree in [&Growing::new(algorithm), &top, &full] {
                for length in [1, LONGEST_ITEM + 1] {
                    hold.add_page(by, tree, &zeros()[..length]);
                }
                for length in [0, 1, 31, 32, 33, 64, MOST + 32, MOST + 64] {
                    hold.add_leaves(by, tree, &zeros()[..length]);
                }
            }
            // A new tree has room for these: a wrong one could read them all.
            for tree in [&top, &full] {
                for length in [MOST - 1, MOST, MOST + 1] {
                    hold.add_leaves(by, tree, &zeros()[..length]);
                }
            }
        }
    }
}

/// The longest page, where it is taken and where there is no room; and 2^32 joined hashes and more, where there is room for one fewer.
pub fn longest(hold: &mut Hold, random: &mut Random) {
    keep(6);
    for algorithm in KNOWN {
        for tree in [0, LARGEST_SIZE - 1, LARGEST_SIZE].map(|count| made_up(algorithm, count, random)) {
            hold.add_page(algorithm, &tree, &zeros()[..LONGEST_ITEM]);
        }
        for length in [MOST, MOST + 32] {
            let tree = made_up(algorithm, LARGEST_SIZE - MOST_LEAVES + 1, random);
            hold.add_leaves(algorithm, &tree, &zeros()[..length]);
        }
    }
}
