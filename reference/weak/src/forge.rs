//! Proofs of chosen bytes that a weak hash accepts, mostly. They agree on some levels and differ on others.

use crate::code::{Step, Two};
use reference::auditor::{join_head, Dispute, PageCall};
use reference::carry::{carry, consistency_places, full_subtree, inclusion_places, Carried, Known, PAIR};
use reference::proofs::near_power;
use reference::random::Random;
use reference::servers::{spoil, Log};
use reference::tree::{self, leaf_hash, Hash, HashFunction, LARGEST_SIZE};
use reference::verdict::Inclusion;
use reference::yields;

/// The bytes of the longest inclusion path.
pub const LONGEST: usize = 32 * 64;

/// A node need not be a value of the hash.
pub fn any_node(h: HashFunction, random: &mut Random) -> Hash {
    if random.one_in(2) {
        return random.hash();
    }
    h(&random.bytes(2))
}

pub fn any_nodes(h: HashFunction, count: usize, random: &mut Random) -> Vec<Hash> {
    (0..count).map(|_| any_node(h, random)).collect()
}

/// Mostly a small tree, at times one of any depth.
fn some_size(random: &mut Random) -> u64 {
    match random.below(12) {
        0..=8 => random.between(1, 40),
        9 => any_size(random),
        10 => near_power(random).max(1),
        _ => LARGEST_SIZE - random.below(3),
    }
}

/// Of any count of bits.
fn any_size(random: &mut Random) -> u64 {
    let most = LARGEST_SIZE >> random.below(64);
    random.between(1, most)
}

fn some_place(size: u64, random: &mut Random) -> u64 {
    match random.below(8) {
        0 => 0,
        1 => size - 1,
        // In one of the last full subtrees.
        2 | 3 => size - 1 - random.below(size.min(8)),
        _ => random.below(size),
    }
}

/// How many of a proof's nodes are changed, at most.
fn some_changes(random: &mut Random) -> u64 {
    *random.pick(&[1, 1, 1, 2, 2, 3, 40])
}

/// One to `most` nodes in the places of others.
fn change(h: HashFunction, nodes: &mut [Hash], most: u64, random: &mut Random) {
    if !nodes.is_empty() {
        for _ in 0..most {
            let at = random.below(nodes.len() as u64) as usize;
            nodes[at] = any_node(h, random);
        }
    }
}

/// How often a forger tries.
const TRIES: usize = 80;

/// Another leaf hash and path of one root, if one is found.
fn other_proof(
    h: HashFunction,
    leaf: &Hash,
    path: &[Hash],
    place: u64,
    size: u64,
    root: &Hash,
    random: &mut Random,
) -> Option<(Hash, Vec<Hash>)> {
    let changes = some_changes(random);
    let whole = [&[*leaf], path].concat();
    (0..TRIES).find_map(|_| {
        let mut nodes = whole.clone();
        change(h, &mut nodes, changes, random);
        let path = nodes.split_off(1);
        (yields::inclusion(h, &nodes[0], place, size, &path)? == *root).then_some((nodes[0], path))
    })
}

pub fn two(h: HashFunction, random: &mut Random) -> Two {
    let size = some_size(random);
    let place = some_place(size, random);
    two_at(h, place, size, random)
}

pub fn two_at(h: HashFunction, place: u64, size: u64, random: &mut Random) -> Two {
    let (leaf, path) = (any_node(h, random), any_nodes(h, yields::inclusion_count(place, size), random));
    let root = yields::inclusion(h, &leaf, place, size, &path).unwrap();
    let found = if random.one_in(6) { None } else { other_proof(h, &leaf, &path, place, size, &root, random) };
    let (leaf_two, path_two) = found.unwrap_or((leaf, path.clone()));
    Two { place, size, root: root.to_vec(), leaves: [leaf, leaf_two].map(|leaf| leaf.to_vec()), paths: [path.concat(), path_two.concat()] }
}

/// A first size, mostly of several one-bits: the way to the full subtree is long.
fn some_first(second: u64, random: &mut Random) -> u64 {
    match random.below(8) {
        0 => second,
        1 => 1 << random.below(second.ilog2() as u64 + 1),
        2..=4 => (0..4).map(|_| random.between(1, second)).max_by_key(|size| size.count_ones()).unwrap(),
        _ => random.between(1, second),
    }
}

pub fn step(h: HashFunction, random: &mut Random) -> Step {
    let second = some_size(random);
    let first = some_first(second, random);
    let place = some_place(first, random);
    step_at(h, place, first, second, random)
}

pub fn step_at(h: HashFunction, place: u64, first: u64, second: u64, random: &mut Random) -> Step {
    let inclusion = |leaf: &Hash, path: &[Hash]| yields::inclusion(h, leaf, place, first, path).unwrap();
    let (mut leaf, mut path) = (any_node(h, random), any_nodes(h, yields::inclusion_count(place, first), random));
    let nodes = any_nodes(h, yields::consistency_count(first, second), random);
    let (old, new);
    if first.is_power_of_two() || first == second {
        // The old root is any root.
        old = inclusion(&leaf, &path);
        new = if first == second { old } else { yields::consistency(h, first, second, &old, &nodes).unwrap().1 };
    } else {
        (old, new) = yields::consistency(h, first, second, &[0; 32], &nodes).unwrap();
        let by_consistency = Known::new(h, consistency_places(first, 0..second, true), &nodes);
        let (subtree, places) = (full_subtree(place, first), inclusion_places(place, 0..first));
        let below = places.iter().filter(|one| subtree.start <= one.start && one.end <= subtree.end).count();
        let above: Vec<Hash> = places[below..].iter().map(|one| by_consistency.hash(one)).collect();
        let changes = if random.one_in(3) { 0 } else { some_changes(random) };
        // Half of the proofs agree on S at first.
        let agreed = by_consistency.hash(&subtree);
        let in_subtree = |leaf: &Hash, path: &[Hash]| {
            let (place, size) = (place - subtree.start, subtree.end - subtree.start);
            yields::inclusion(h, leaf, place, size, path).unwrap()
        };
        let agrees = random.one_in(2)
            && (0..TRIES).any(|_| {
                (leaf, path) = (any_node(h, random), any_nodes(h, below, random));
                if below == 0 {
                    leaf = agreed;
                }
                in_subtree(&leaf, &path) == agreed
            });
        for _ in 0..TRIES {
            if !agrees {
                (leaf, path) = (any_node(h, random), any_nodes(h, below, random));
            }
            path.truncate(below);
            path.extend(&above);
            change(h, &mut path[below..], changes, random);
            if inclusion(&leaf, &path) == old {
                break;
            }
        }
    }
    let [leaf, old, new] = [leaf, old, new].map(|hash| hash.to_vec());
    Step { leaf, place, first, second, old, new, path: path.concat(), proof: nodes.concat() }
}

pub fn some_page(random: &mut Random) -> Vec<u8> {
    let length = random.below(4) as usize;
    random.bytes(length)
}

/// The nodes of a consistency path from a root, and the root that they yield; not always accepted.
fn forged_head(h: HashFunction, first: u64, second: u64, root: &Hash, honest: &[Hash], random: &mut Random) -> (Vec<Hash>, Hash) {
    if first == second {
        return (Vec::new(), *root);
    }
    let changes = some_changes(random);
    let mut forged = (Vec::new(), *root);
    for _ in 0..TRIES {
        let mut nodes = honest.to_vec();
        change(h, &mut nodes, changes, random);
        let (old, new) = yields::consistency(h, first, second, root, &nodes).unwrap();
        forged = (nodes, new);
        if old == *root {
            break;
        }
    }
    forged
}

/// The path of the first page under the last head, where no head is in conflict with it.
fn carried(h: HashFunction, one: &Dispute, heads: &[(u64, Hash, Vec<Hash>)]) -> Option<Vec<u8>> {
    let leaf = leaf_hash(h, &one.first.page);
    let (mut size, mut root, mut path) = (one.size, one.root.clone(), one.first.path.clone());
    for (new_size, new_root, nodes) in heads {
        let old = Inclusion { leaf: &leaf, place: one.first.place, size, root: &root, path: &path };
        let mut lent = [0; LONGEST];
        let Ok(Carried::Path(length)) = carry(h, &old, *new_size, new_root, &nodes.concat(), &mut lent, &mut [0; PAIR]) else {
            return None;
        };
        (size, root, path) = (*new_size, new_root.to_vec(), lent[..length].to_vec());
    }
    Some(path)
}

/// What the heads of a dispute are of: any leaves, or a log of any size.
enum List {
    Leaves(HashFunction, Vec<Hash>),
    Log(Log),
}

impl List {
    fn root(&self, size: u64) -> Hash {
        match self {
            List::Leaves(h, leaves) => tree::root(*h, &leaves[..size as usize]),
            List::Log(log) => log.root(size),
        }
    }

    fn path(&self, place: u64, size: u64) -> Vec<u8> {
        match self {
            List::Leaves(h, leaves) => tree::path(*h, place as usize, &leaves[..size as usize]).concat(),
            List::Log(log) => log.path(place, size),
        }
    }

    fn consistency_path(&self, first: u64, second: u64) -> Vec<Hash> {
        match self {
            List::Leaves(h, leaves) => tree::consistency_path(*h, first as usize, &leaves[..second as usize]),
            List::Log(log) => tree::hashes(&log.consistency_path(first, second)).unwrap(),
        }
    }
}

/// Heads of which those from one on are forged, and a second page that is the same, is another of
/// one leaf hash, or has another proof.
pub fn dispute(h: HashFunction, random: &mut Random) -> Dispute {
    if random.one_in(6) {
        let most = if random.one_in(2) { LARGEST_SIZE } else { any_size(random) };
        let log = Log::random(h, most, random);
        let sizes = log.sizes.clone();
        // A page that the first head has.
        let (place, page) = log.pages.range(..sizes[0]).next_back().unwrap();
        let (place, page) = (*place, page.clone());
        return dispute_of(h, List::Log(log), &sizes, place, page, random);
    }
    let count = random.between(1, 40);
    let mut sizes: Vec<u64> = (0..=random.below(6)).map(|_| random.between(1, count)).collect();
    sizes.sort();
    let place = some_place(sizes[0], random);
    let page = some_page(random);
    let mut leaves = any_nodes(h, count as usize, random);
    leaves[place as usize] = leaf_hash(h, &page);
    dispute_of(h, List::Leaves(h, leaves), &sizes, place, page, random)
}

fn dispute_of(h: HashFunction, list: List, sizes: &[u64], place: u64, page: Vec<u8>, random: &mut Random) -> Dispute {
    let path = list.path(place, sizes[0]);
    let first_root = list.root(sizes[0]);
    let mut root = first_root;
    let forged_from = random.below(2 * sizes.len() as u64) as usize;
    let mut heads = Vec::new();
    for at in 1..sizes.len() {
        let (first, second) = (sizes[at - 1], sizes[at]);
        let mut nodes = list.consistency_path(first, second);
        if at < forged_from {
            root = list.root(second);
        } else {
            (nodes, root) = forged_head(h, first, second, &root, &nodes, random);
        }
        heads.push((second, root, nodes));
    }
    let mut joined = Vec::new();
    heads.iter().for_each(|(size, root, nodes)| join_head(*size, root, &nodes.concat(), &mut joined));
    let first = PageCall { place, page: page.clone(), path: path.clone() };
    let mut one = Dispute { first, size: sizes[0], root: first_root.to_vec(), heads: joined, second_page: page, second_path: path };
    one.second_path = carried(h, &one, &heads).unwrap_or(one.second_path);
    second_page(h, &mut one, *sizes.last().unwrap(), &root, random);
    one
}

fn second_page(h: HashFunction, one: &mut Dispute, size: u64, root: &Hash, random: &mut Random) {
    let leaf = leaf_hash(h, &one.first.page);
    match random.below(4) {
        0 => (),
        1 => {
            let other = (0..TRIES).map(|_| some_page(random)).find(|page| leaf_hash(h, page) == leaf && *page != one.first.page);
            one.second_page = other.unwrap_or_default();
        }
        _ => {
            let path = tree::hashes(&one.second_path).unwrap();
            let changes = some_changes(random);
            for _ in 0..TRIES {
                let mut nodes = path.clone();
                if !random.one_in(3) {
                    change(h, &mut nodes, changes, random);
                }
                one.second_page = if random.one_in(3) { one.first.page.clone() } else { some_page(random) };
                one.second_path = nodes.concat();
                let leaf = leaf_hash(h, &one.second_page);
                if yields::inclusion(h, &leaf, one.first.place, size, &nodes) == Some(*root) {
                    break;
                }
            }
        }
    }
}

// Faults, one or two at once: a length, a number, a byte.

fn some_number(near: u64, random: &mut Random) -> u64 {
    match random.below(6) {
        0 => near.wrapping_add(1),
        1 => near.wrapping_sub(1),
        2 => *random.pick(&[0, 1, 1 << 32, 1 << 63, LARGEST_SIZE - 1, LARGEST_SIZE]),
        3 => near_power(random),
        _ => random.below(45),
    }
}

/// Bytes gone or more, and so that a hash has another length and a path another count.
fn fault(bytes: &mut Vec<u8>, random: &mut Random) {
    for _ in 0..random.between(1, 2) {
        spoil(bytes, random);
    }
}

pub fn fault_step(mut one: Step, random: &mut Random) -> Step {
    for _ in 0..random.between(1, 2) {
        match random.below(8) {
            0 => one.place = some_number(one.first, random),
            1 => one.first = some_number(one.second, random),
            2 => one.second = some_number(one.first, random),
            3 => fault(&mut one.leaf, random),
            4 => fault(&mut one.old, random),
            5 => fault(&mut one.new, random),
            6 => fault(&mut one.path, random),
            _ => fault(&mut one.proof, random),
        }
    }
    one
}

pub fn fault_two(mut one: Two, random: &mut Random) -> Two {
    for _ in 0..random.between(1, 2) {
        match random.below(7) {
            0 => one.place = some_number(one.size, random),
            1 => one.size = some_number(one.place, random),
            2 => fault(&mut one.root, random),
            which @ 3..=4 => fault(&mut one.leaves[which as usize - 3], random),
            which => fault(&mut one.paths[which as usize - 5], random),
        }
    }
    one
}

pub fn fault_dispute(mut one: Dispute, random: &mut Random) -> Dispute {
    for _ in 0..random.between(1, 2) {
        match random.below(10) {
            0 => one.first.place = some_number(one.size, random),
            1 => one.size = some_number(one.first.place, random),
            2 => fault(&mut one.root, random),
            3 => fault(&mut one.first.path, random),
            4 => fault(&mut one.second_path, random),
            5 => fault(&mut one.first.page, random),
            6 => fault(&mut one.second_page, random),
            7 => fault(&mut one.heads, random),
            // The size of the first head, and its count of nodes.
            8 if one.heads.len() >= 42 && random.one_in(2) => one.heads[..8].copy_from_slice(&some_number(one.size, random).to_be_bytes()),
            8 if one.heads.len() >= 42 => one.heads[41] = one.heads[41].wrapping_add(random.below(4) as u8).wrapping_sub(2),
            _ => one.heads.truncate(random.below(one.heads.len() as u64 + 1) as usize),
        }
    }
    one
}
