//! Proofs for requests: built from lists, made for any numbers, and damaged.

use crate::algorithm;
use crate::random::Random;
use crate::requests::Requests;
use crate::tree::{self, Hash, LARGEST_SIZE};
use crate::words::{bytes, number, short, Word};
use crate::{verdict, yields};

/// The numbers and strings of one verdict, and the number of its hash: inclusion has the
/// place, the size, the leaf hash and the root; consistency two sizes and two roots.
#[derive(Clone)]
pub struct Proof {
    pub algorithm: u64,
    pub is_inclusion: bool,
    pub numbers: [u64; 2],
    pub hashes: [Vec<u8>; 2],
    pub path: Vec<u8>,
}

impl Proof {
    pub fn inclusion(algorithm: u64, leaf: &Hash, place: u64, size: u64, root: &Hash, path: &[Hash]) -> Proof {
        let hashes = [leaf.to_vec(), root.to_vec()];
        Proof { algorithm, is_inclusion: true, numbers: [place, size], hashes, path: path.concat() }
    }

    pub fn consistency(algorithm: u64, first: u64, second: u64, first_root: &Hash, second_root: &Hash, path: &[Hash]) -> Proof {
        let hashes = [first_root.to_vec(), second_root.to_vec()];
        Proof { algorithm, is_inclusion: false, numbers: [first, second], hashes, path: path.concat() }
    }

    pub fn entry(&self) -> &'static str {
        if self.is_inclusion {
            "inclusion"
        } else {
            "consistency"
        }
    }

    pub fn ask(&self, requests: &mut Requests) {
        requests.ask(self.entry(), &self.words());
    }

    /// The verdict's number; 16 before all else.
    pub fn number(&self) -> u64 {
        let Some(h) = algorithm::hash(self.algorithm) else { return algorithm::REFUSED };
        let ([one, two], [first, second], path) = (self.numbers, &self.hashes, &self.path);
        if self.is_inclusion {
            verdict::inclusion(h, &verdict::Inclusion { leaf: first, place: one, size: two, root: second, path })
        } else {
            verdict::consistency(h, &verdict::Consistency { first: one, second: two, first_root: first, second_root: second, path })
        }
    }

    pub fn words(&self) -> Vec<Word> {
        let [algorithm, one, two] = [self.algorithm, self.numbers[0], self.numbers[1]].map(number);
        let [first, second] = &self.hashes;
        if self.is_inclusion {
            vec![algorithm, short(first), one, two, short(second), short(&self.path)]
        } else {
            vec![algorithm, one, two, short(first), short(second), short(&self.path)]
        }
    }

    pub fn with(&self, change: impl FnOnce(&mut Proof)) -> Proof {
        let mut changed = self.clone();
        change(&mut changed);
        changed
    }
}

fn flip(bytes: &mut [u8], random: &mut Random) {
    if !bytes.is_empty() {
        let at = random.below(bytes.len() as u64) as usize;
        bytes[at] ^= 1 << random.below(8);
    }
}

/// Damage of the numbers and the hashes, and of the path as a whole; another hash, and none.
pub fn damaged(proof: &Proof, random: &mut Random) -> Vec<Proof> {
    let mut all = Vec::new();
    for which in 0..2 {
        all.push(proof.with(|p| p.numbers[which] = p.numbers[which].wrapping_add(1)));
        all.push(proof.with(|p| p.numbers[which] = p.numbers[which].wrapping_sub(1)));
        all.push(proof.with(|p| flip(&mut p.hashes[which], random)));
    }
    all.push(proof.with(|p| p.hashes.swap(0, 1)));
    all.push(proof.with(|p| p.numbers.swap(0, 1)));
    all.push(proof.with(|p| p.path.extend(random.hash())));
    all.push(proof.with(|p| {
        p.path.splice(0..0, random.hash());
    }));
    all.push(proof.with(|p| p.algorithm = algorithm::other(p.algorithm)));
    all.push(proof.with(|p| p.algorithm = algorithm::some_unknown(random)));
    all
}

/// Each node of the path changed, dropped and doubled, and neighbours exchanged.
pub fn damaged_nodes(proof: &Proof, random: &mut Random) -> Vec<Proof> {
    let mut all = Vec::new();
    for at in (0..proof.path.len()).step_by(32) {
        all.push(proof.with(|p| flip(&mut p.path[at..at + 32], random)));
        all.push(proof.with(|p| drop(p.path.drain(at..at + 32))));
        all.push(proof.with(|p| {
            let node = p.path[at..at + 32].to_vec();
            p.path.splice(at..at, node);
        }));
        if at > 0 {
            all.push(proof.with(|p| p.path[at - 32..at + 32].rotate_left(32)));
        }
    }
    all
}

/// Lengths that no hash and no joined path have.
pub fn damaged_lengths(proof: &Proof, random: &mut Random) -> Vec<Proof> {
    let mut all = Vec::new();
    for which in 0..2 {
        for length in [0, 1, 31, 33, 64] {
            all.push(proof.with(|p| p.hashes[which].resize(length, 7)));
        }
    }
    for add in [1, 16, 31] {
        all.push(proof.with(|p| p.path.extend(random.bytes(add))));
    }
    for remove in [1, 16, 31] {
        all.push(proof.with(|p| p.path.truncate(p.path.len().saturating_sub(remove))));
    }
    all.push(proof.with(|p| p.path.clear()));
    // Two faults at once: the order is 16, 5, 10, 6, 7, 8.
    all.push(proof.with(|p| {
        p.algorithm = algorithm::some_unknown(random);
        p.hashes[random.below(2) as usize].pop();
    }));
    all.push(proof.with(|p| {
        p.algorithm = algorithm::some_unknown(random);
        p.path.push(0);
    }));
    all.push(proof.with(|p| {
        p.hashes[0].pop();
        p.path.push(0);
    }));
    all.push(proof.with(|p| {
        p.hashes[1].push(0);
        p.numbers = [0, 0];
    }));
    all.push(proof.with(|p| {
        p.path.push(0);
        p.numbers = [9, 3];
    }));
    all.push(proof.with(|p| {
        p.numbers[1] = 0;
        p.path.extend([0; 32]);
    }));
    all.push(proof.with(|p| {
        p.path.extend([0; 32]);
        flip(&mut p.hashes[1], random);
    }));
    all
}

/// A proof that is accepted, and with it what is not: a node more and one fewer,
/// a hash changed, no place of that size, or a first size of 0 or above the second, a
/// number that no hash has, and the other hash's, by which only a root that no node was
/// hashed for is right. Each has its number. A node more is the last one again, or else a copy of the first hash.
pub fn judged(proof: &Proof) -> Vec<(u64, Proof)> {
    let mut all = vec![(0, proof.clone())];
    let node = proof.path.last_chunk::<32>().copied().unwrap_or(proof.hashes[0][..].try_into().unwrap());
    all.push((7, proof.with(|p| p.path.extend(node))));
    if !proof.path.is_empty() {
        all.push((7, proof.with(|p| p.path.truncate(p.path.len() - 32))));
    }
    all.extend([0, 1].map(|which| (8, proof.with(|p| p.hashes[which][31] ^= 128))));
    let size = proof.numbers[1];
    let bad = if proof.is_inclusion { [Some(size), Some(u64::MAX)] } else { [Some(0), size.checked_add(1)] };
    all.extend(bad.into_iter().flatten().map(|bad| (6, proof.with(|p| p.numbers[0] = bad))));
    all.push((6, proof.with(|p| p.numbers[1] = 0)));
    all.push((16, proof.with(|p| p.algorithm ^= 0x100)));
    let is_hashed = if proof.is_inclusion { size > 1 } else { size > proof.numbers[0] };
    all.push((if is_hashed { 8 } else { 0 }, proof.with(|p| p.algorithm = algorithm::other(p.algorithm))));
    all
}

/// An accepted proof for any place and size: the leaf hash and the nodes are free,
/// and the root is the one they yield.
fn free_inclusion(algorithm: u64, place: u64, size: u64, mut free: impl FnMut() -> Hash) -> Proof {
    let leaf = free();
    let nodes: Vec<Hash> = (0..yields::inclusion_count(place, size)).map(|_| free()).collect();
    let root = yields::inclusion(algorithm::of(algorithm), &leaf, place, size, &nodes).unwrap();
    Proof::inclusion(algorithm, &leaf, place, size, &root, &nodes)
}

/// An accepted proof for any two sizes, the first above 0 and not above the second.
fn free_consistency(algorithm: u64, first: u64, second: u64, mut free: impl FnMut() -> Hash) -> Proof {
    let known = free();
    let nodes: Vec<Hash> = (0..yields::consistency_count(first, second)).map(|_| free()).collect();
    let (first_root, second_root) = match first == second {
        true => (known, known),
        false => yields::consistency(algorithm::of(algorithm), first, second, &known, &nodes).unwrap(),
    };
    Proof::consistency(algorithm, first, second, &first_root, &second_root, &nodes)
}

pub fn made_inclusion(algorithm: u64, place: u64, size: u64, random: &mut Random) -> Proof {
    free_inclusion(algorithm, place, size, || random.hash())
}

pub fn made_consistency(algorithm: u64, first: u64, second: u64, random: &mut Random) -> Proof {
    free_consistency(algorithm, first, second, || random.hash())
}

/// Of one byte over and over, which a request writes shorter.
pub fn plain_inclusion(algorithm: u64, place: u64, size: u64, byte: u8) -> Proof {
    free_inclusion(algorithm, place, size, || [byte; 32])
}

pub fn plain_consistency(algorithm: u64, first: u64, second: u64, byte: u8) -> Proof {
    free_consistency(algorithm, first, second, || [byte; 32])
}

/// The numbers below 2^64 that are a power of two, up to 2^64, or at most `far` from one.
pub fn next_to_powers(far: i128) -> Vec<u64> {
    let near = (0..=64).flat_map(|bit| (-far..=far).map(move |more| (1i128 << bit) + more));
    let mut numbers: Vec<u64> = near.filter_map(|number| number.try_into().ok()).collect();
    numbers.sort();
    numbers.dedup();
    numbers
}

/// Some places of a size above 1: the ends, those next to its split and to another
/// power of two, and any.
pub fn some_places(size: u64, random: &mut Random) -> Vec<u64> {
    let (split, power) = (tree::split(size), 1 << random.below(size.ilog2() as u64 + 1));
    let mut all = vec![0, 1, split - 1, split, split + 1, power - 1, power, size - 2, size - 1, random.below(size), random.below(size)];
    all.retain(|place| *place < size);
    all.sort();
    all.dedup();
    all
}

/// Sizes next to 2^32, which a word of 32 bits does not hold, to the middle and to the end of the numbers.
pub const LARGE: [u64; 17] = [
    (1 << 31) - 1,
    1 << 31,
    (1 << 31) + 1,
    3 << 30,
    (1 << 32) - 2,
    (1 << 32) - 1,
    1 << 32,
    (1 << 32) + 1,
    (1 << 32) + 2,
    1 << 33,
    (1 << 63) - 1,
    1 << 63,
    (1 << 63) + 1,
    3 << 62,
    LARGEST_SIZE - 2,
    LARGEST_SIZE - 1,
    LARGEST_SIZE,
];

/// Leaves, the root and all proofs of a list, by the hash of a number.
pub struct List {
    pub algorithm: u64,
    pub leaves: Vec<Hash>,
    pub root: Hash,
}

impl List {
    pub fn new(algorithm: u64, leaves: Vec<Hash>) -> List {
        let root = tree::root(algorithm::of(algorithm), &leaves);
        List { algorithm, leaves, root }
    }

    pub fn random(algorithm: u64, count: usize, random: &mut Random) -> List {
        List::new(algorithm, (0..count).map(|_| random.hash()).collect())
    }

    pub fn size(&self) -> u64 {
        self.leaves.len() as u64
    }

    pub fn word(&self) -> Word {
        bytes(&self.leaves.concat())
    }

    pub fn inclusion(&self, place: u64) -> Proof {
        let nodes = tree::path(algorithm::of(self.algorithm), place as usize, &self.leaves);
        Proof::inclusion(self.algorithm, &self.leaves[place as usize], place, self.size(), &self.root, &nodes)
    }

    pub fn consistency(&self, first: u64) -> Proof {
        let h = algorithm::of(self.algorithm);
        let first_root = tree::root(h, &self.leaves[..first as usize]);
        let nodes = tree::consistency_path(h, first as usize, &self.leaves);
        Proof::consistency(self.algorithm, first, self.size(), &first_root, &self.root, &nodes)
    }
}

// Random proofs, by both hashes.

/// A size above 0, of any count of bits.
fn random_size(random: &mut Random) -> u64 {
    match random.below(10) {
        0..=3 => random.between(1, 70),
        4..=7 => {
            let largest = LARGEST_SIZE >> random.below(64);
            random.between(1, largest)
        }
        8 => *random.pick(&LARGE),
        _ => near_power(random).max(1),
    }
}

/// Next to a power of two, 2^64 included; it may be 0.
pub fn near_power(random: &mut Random) -> u64 {
    ((1u128 << random.below(65)) as u64).wrapping_add(random.below(5)).wrapping_sub(2)
}

/// None, one or two faults; the number of the hash is another or none at times.
fn random_faults(mut proof: Proof, random: &mut Random) -> Proof {
    for _ in 0..*random.pick(&[0, 0, 1, 1, 1, 2]) {
        let all = match random.below(6) {
            0..=2 => damaged(&proof, random),
            3..=4 if proof.path.len() % 32 == 0 => damaged_nodes(&proof, random),
            _ => damaged_lengths(&proof, random),
        };
        if !all.is_empty() {
            proof = random.pick(&all).clone();
        }
    }
    if algorithm::KNOWN.contains(&proof.algorithm) {
        proof.algorithm = algorithm::mostly(proof.algorithm, random);
    }
    proof
}

pub fn random_inclusion(random: &mut Random) -> Proof {
    let size = random_size(random);
    let place = if random.one_in(4) { size - 1 } else { random.below(size) };
    random_faults(made_inclusion(algorithm::some(random), place, size, random), random)
}

pub fn random_consistency(random: &mut Random) -> Proof {
    let second = random_size(random);
    let first = match random.below(6) {
        0 => second,
        1 => 1 << random.below(second.ilog2() as u64 + 1),
        _ => 1 + random.below(second),
    };
    random_faults(made_consistency(algorithm::some(random), first, second, random), random)
}

#[cfg(test)]
mod tests {
    use super::*;

    #[test]
    fn numbers_next_to_powers() {
        let near = next_to_powers(2);
        assert_eq!(near[..12], [0, 1, 2, 3, 4, 5, 6, 7, 8, 9, 10, 14]);
        assert_eq!(near[near.len() - 4..], [(1 << 63) + 1, (1 << 63) + 2, u64::MAX - 1, u64::MAX]);
        assert_eq!(next_to_powers(0).len(), 64);
        let random = &mut Random::new(64);
        let drawn: Vec<u64> = (0..20_000).map(|_| near_power(random)).collect();
        assert!(near.iter().all(|number| drawn.contains(number)));
        assert!(drawn.iter().all(|number| near.contains(number)));
    }

    /// Next to every power of two, at all kinds of places.
    #[test]
    fn judged_proofs_have_their_numbers() {
        let random = &mut Random::new(7);
        let mut longest = [0; 2];
        for size in next_to_powers(1) {
            let places = if size > 1 { some_places(size, random) } else { (0..size).collect() };
            for (turn, place) in places.into_iter().enumerate() {
                let number = algorithm::KNOWN[turn % 2];
                let made = [made_inclusion(number, place, size, random), made_consistency(number, place + 1, size, random)];
                let plain = [plain_inclusion(number, place, size, 5), plain_consistency(number, place + 1, size, 5)];
                for proof in made.into_iter().chain(plain) {
                    for (number, one) in judged(&proof) {
                        assert_eq!(one.number(), number, "{:?} of {:?}, {} bytes", one.numbers, proof.numbers, one.path.len());
                    }
                    let count = proof.path.len() / 32;
                    longest[proof.is_inclusion as usize] = count.max(longest[proof.is_inclusion as usize]);
                }
            }
        }
        assert_eq!(longest, [65, 64]);
    }
}
