//! Carrying an inclusion proof forward, and comparing two of them. With SHA-256 and SM3
//! only refusals, paths and 'same' can be met; the collision branches are run in
//! the unit tests of `carry`, over a weak hash.

use crate::algorithm::{self, known, KNOWN};
use crate::carry::{self, consistency_places, full_subtree, inclusion_places, Carried, Compared, Known};
use crate::proofs::{made_inclusion, near_power, next_to_powers, plain_inclusion, some_places, List, Proof};
use crate::random::Random;
use crate::requests::{lines_that_are_no_request, with_unknown, Asked, Entry, Layer, Requests};
use crate::tree::{node_hash, split, Hash, LARGEST_SIZE};
use crate::verdict::Inclusion;
use crate::words::{bytes, number, repeated, short, Word};
use crate::yields;

pub const LAYER: Layer = Layer {
    name: "carry",
    entries: &[
        Entry { name: "carry", answer: carry, random: random_carry },
        Entry { name: "compare", answer: compare, random: random_compare },
    ],
    lists: None,
    cases,
    full,
};

// Answers.

fn carry(words: &[Word]) -> Option<Vec<Word>> {
    let [algorithm, leaf, place, first, first_root, path, second, second_root, step, lent, pair] = words else { return None };
    let old = Inclusion {
        leaf: leaf.as_bytes()?,
        place: place.as_number()?,
        size: first.as_number()?,
        root: first_root.as_bytes()?,
        path: path.as_bytes()?,
    };
    let (mut lent, mut pair) = (lent.as_bytes()?.to_vec(), pair.as_bytes()?.to_vec());
    let (second, second_root, step) = (second.as_number()?, second_root.as_bytes()?, step.as_bytes()?);
    // 16 before all else.
    let by = known(algorithm.as_number()?);
    let answer = by.and_then(|h| carry::carry(h, &old, second, second_root, step, &mut lent, &mut pair));
    let (refusal, collision, count) = match answer {
        Ok(Carried::Path(count)) => (0, 0, count as u64),
        Ok(Carried::Collision) => (0, 1, 0),
        Err(refusal) => (refusal, 0, 0),
    };
    Some(vec![number(refusal), number(collision), number(count), bytes(&lent), bytes(&pair)])
}

fn compare(words: &[Word]) -> Option<Vec<Word>> {
    let [algorithm, place, size, root, leaf_one, path_one, leaf_two, path_two, pair] = words else { return None };
    let one = Inclusion {
        leaf: leaf_one.as_bytes()?,
        place: place.as_number()?,
        size: size.as_number()?,
        root: root.as_bytes()?,
        path: path_one.as_bytes()?,
    };
    let mut pair = pair.as_bytes()?.to_vec();
    let (leaf_two, path_two) = (leaf_two.as_bytes()?, path_two.as_bytes()?);
    let by = known(algorithm.as_number()?);
    let (refusal, collision) = match by.and_then(|h| carry::compare(h, &one, leaf_two, path_two, &mut pair)) {
        Ok(Compared::Same) => (0, 0),
        Ok(Compared::Collision) => (0, 1),
        Err(refusal) => (refusal, 0),
    };
    Some(vec![number(refusal), number(collision), bytes(&pair)])
}

// Requests.

/// An inclusion proof and a consistency proof from its size and root. The number of the
/// hash that goes out for both is the inclusion proof's.
#[derive(Clone)]
pub struct Carry {
    pub old: Proof,
    pub step: Proof,
    /// The lengths of both lent buffers.
    pub lent: usize,
    pub pair: usize,
}

impl Carry {
    /// Buffers that fit.
    fn new(old: Proof, step: Proof) -> Carry {
        let lent = 32 * yields::inclusion_count(old.numbers[0], step.numbers[1]);
        Carry { old, step, lent, pair: carry::PAIR }
    }

    pub fn of_list(list: &List, place: u64, first: u64) -> Carry {
        let old = List::new(list.algorithm, list.leaves[..first as usize].to_vec());
        Carry::new(old.inclusion(place), list.consistency(first))
    }

    pub fn made(algorithm: u64, place: u64, first: u64, second: u64, random: &mut Random) -> Carry {
        Carry::free(algorithm, place, first, second, || random.hash())
    }

    /// Of one byte over and over, which a request writes shorter where no node is
    /// hashed from others.
    fn plain(algorithm: u64, place: u64, first: u64, second: u64, byte: u8) -> Carry {
        Carry::free(algorithm, place, first, second, || [byte; 32])
    }

    /// Proofs that agree, for any numbers: the parts that both know are free.
    fn free(algorithm: u64, place: u64, first: u64, second: u64, mut free: impl FnMut() -> Hash) -> Carry {
        let subtree = if first == second { 0..first } else { full_subtree(place, first) };
        let mut known = Known::new(algorithm::of(algorithm), vec![], &[]).with(place..place + 1, &free());
        let siblings = inclusion_places(place, 0..first).into_iter();
        for below in siblings.filter(|part| part.start >= subtree.start && part.end <= subtree.end) {
            known = known.with(below, &free());
        }
        for part in consistency_places(first, 0..second, true).into_iter().filter(|part| *part != subtree) {
            known = known.with(part, &free());
        }
        let nodes = |places: Vec<carry::Leaves>| places.iter().map(|part| known.hash(part)).collect::<Vec<Hash>>();
        let (first_root, second_root) = (known.hash(&(0..first)), known.hash(&(0..second)));
        let old = nodes(inclusion_places(place, 0..first));
        let step = nodes(consistency_places(first, 0..second, true));
        Carry::new(
            Proof::inclusion(algorithm, &known.hash(&(place..place + 1)), place, first, &first_root, &old),
            Proof::consistency(algorithm, first, second, &first_root, &second_root, &step),
        )
    }

    /// The first size and root go out once.
    fn words(&self, byte: u8) -> Vec<Word> {
        vec![
            number(self.old.algorithm),
            short(&self.old.hashes[0]),
            number(self.old.numbers[0]),
            number(self.old.numbers[1]),
            short(&self.old.hashes[1]),
            short(&self.old.path),
            number(self.step.numbers[1]),
            short(&self.step.hashes[1]),
            short(&self.step.path),
            repeated(self.lent, byte),
            repeated(self.pair, !byte),
        ]
    }

    fn ask(&self, requests: &mut Requests) {
        requests.ask("carry", &self.words(0xa5));
    }

    pub fn with(&self, change: impl FnOnce(&mut Carry)) -> Carry {
        let mut changed = self.clone();
        change(&mut changed);
        changed
    }

    /// A path that is carried, and with it what is not: each with its number. Where
    /// another number than 9 is given, there is no room either. By the other hash only what
    /// no node was hashed for is right.
    fn judged(&self) -> Vec<(u64, Carry)> {
        let without_room = |change: &dyn Fn(&mut Carry)| {
            self.with(|c| {
                (c.lent, c.pair) = (0, 0);
                change(c);
            })
        };
        // The last node again, or else a copy of the leaf hash.
        let more = |path: &mut Vec<u8>| path.extend(path.last_chunk::<32>().copied().unwrap_or(self.old.hashes[0][..].try_into().unwrap()));
        let fewer = |path: &mut Vec<u8>| path.truncate(path.len() - 32);
        let mut all = vec![
            (0, self.clone()),
            (9, self.with(|c| c.pair = 129)),
            (6, without_room(&|c| c.old.numbers[0] = c.old.numbers[1])),
            (6, without_room(&|c| c.old.numbers[0] = u64::MAX)),
            (6, without_room(&|c| c.step.numbers[1] = c.old.numbers[1] - 1)),
            (7, without_room(&|c| more(&mut c.old.path))),
            (7, without_room(&|c| more(&mut c.step.path))),
            (8, without_room(&|c| c.old.hashes[0][0] ^= 1)),
            (8, without_room(&|c| c.step.hashes[1][31] ^= 128)),
        ];
        all.push((16, without_room(&|c| c.old.algorithm ^= 0x100)));
        let [first, second] = self.step.numbers;
        if second > 1 && (first > 1 || second > first) {
            all.push((8, without_room(&|c| c.old.algorithm = algorithm::other(c.old.algorithm))));
        }
        if self.lent > 0 {
            all.push((9, self.with(|c| c.lent -= 1)));
        }
        if !self.old.path.is_empty() {
            all.push((7, without_room(&|c| fewer(&mut c.old.path))));
        }
        if !self.step.path.is_empty() {
            all.push((7, without_room(&|c| fewer(&mut c.step.path))));
        }
        all
    }

    /// One fault, or two that show the order.
    pub fn damaged(&self, random: &mut Random) -> Vec<Carry> {
        let flip = |bytes: &mut Vec<u8>, at: u64| {
            if let Some(byte) = bytes.get_mut(at as usize) {
                *byte ^= 16;
            }
        };
        let at = random.below(64);
        let extra = random.hash();
        vec![
            self.with(|c| c.lent += 5),
            self.with(|c| c.lent = c.lent.saturating_sub(1)),
            self.with(|c| c.lent = 0),
            self.with(|c| c.pair = 129),
            self.with(|c| c.pair = 0),
            self.with(|c| c.pair = 140),
            self.with(|c| flip(&mut c.old.hashes[0], at % 32)),
            self.with(|c| flip(&mut c.old.hashes[1], at % 32)),
            self.with(|c| flip(&mut c.step.hashes[1], at % 32)),
            self.with(|c| flip(&mut c.old.path, at)),
            self.with(|c| flip(&mut c.step.path, at)),
            self.with(|c| c.old.path.extend(extra)),
            self.with(|c| c.step.path.extend(extra)),
            self.with(|c| c.step.path.push(0)),
            self.with(|c| c.old.path.push(0)),
            self.with(|c| c.old.hashes[0].truncate(31)),
            self.with(|c| c.old.hashes[1].push(1)),
            self.with(|c| c.step.hashes[1].clear()),
            self.with(|c| c.old.numbers[0] = c.old.numbers[0].wrapping_add(1)),
            self.with(|c| c.old.numbers[1] = c.old.numbers[1].wrapping_add(1)),
            self.with(|c| c.step.numbers[1] = c.step.numbers[1].wrapping_add(1)),
            self.with(|c| c.step.numbers[1] = c.step.numbers[1].wrapping_sub(1)),
            self.with(|c| c.old.algorithm = algorithm::other(c.old.algorithm)),
            self.with(|c| c.old.algorithm = algorithm::some_unknown(random)),
            self.with(|c| {
                c.old.algorithm = algorithm::some_unknown(random);
                c.old.hashes[0].clear();
            }),
            // The inclusion's number first, 9 last.
            self.with(|c| {
                c.old.path.extend(extra);
                c.step.hashes[1].clear();
            }),
            self.with(|c| {
                c.step.path.extend(extra);
                c.lent = 0;
                c.pair = 0;
            }),
        ]
    }
}

/// Words of a comparison of a proof with another leaf and path, by the first proof's hash.
fn compare_words(one: &Proof, two: &Proof, pair: usize) -> Vec<Word> {
    vec![
        number(one.algorithm),
        number(one.numbers[0]),
        number(one.numbers[1]),
        short(&one.hashes[1]),
        short(&one.hashes[0]),
        short(&one.path),
        short(&two.hashes[0]),
        short(&two.path),
        repeated(pair, 0x5a),
    ]
}

/// A proof with itself, and each of the two damaged.
fn ask_compared(requests: &mut Requests, proof: &Proof, random: &mut Random) {
    for pair in [130, 129, 131, 0] {
        requests.ask("compare", &compare_words(proof, proof, pair));
    }
    let mut others = crate::proofs::damaged(proof, random);
    others.extend(crate::proofs::damaged_lengths(proof, random));
    let other = random.pick(&others);
    requests.ask("compare", &compare_words(proof, other, 130));
    requests.ask("compare", &compare_words(other, proof, 130));
    requests.ask("compare", &compare_words(other, random.pick(&others), 0));
}

/// Place, first and second size: to 2^32 and past it, then up to paths of 64 nodes,
/// by consistency paths of up to 65.
const LARGE: [(u64, u64, u64); 8] = [
    ((1 << 31) + 5, (1 << 32) - 1, 1 << 32),
    (7, 1 << 32, (1 << 32) + 1),
    (0, LARGEST_SIZE - 1, LARGEST_SIZE),
    (LARGEST_SIZE - 2, LARGEST_SIZE - 1, LARGEST_SIZE),
    (5, 1 << 63, LARGEST_SIZE),
    (1 << 63, (1 << 63) + 1, LARGEST_SIZE),
    (7, LARGEST_SIZE, LARGEST_SIZE),
    (2, 3, LARGEST_SIZE),
];

/// Others of which no node is hashed from others, so that all can be of one byte.
const PLAIN: [(u64, u64, u64); 12] = [
    (0, 1, 1 << 32),
    ((1 << 32) - 1, 1 << 32, (1 << 32) + 1),
    (1 << 32, (1 << 32) + 1, 1 << 63),
    (1 << 62, 1 << 63, (1 << 63) + 1),
    ((1 << 63) - 2, (1 << 63) - 1, LARGEST_SIZE - 1),
    (0, 1, LARGEST_SIZE),
    (2, 3, LARGEST_SIZE),
    ((1 << 63) - 1, 1 << 63, LARGEST_SIZE),
    (1 << 63, (1 << 63) + 1, LARGEST_SIZE),
    (LARGEST_SIZE - 3, LARGEST_SIZE - 2, LARGEST_SIZE),
    (0, LARGEST_SIZE, LARGEST_SIZE),
    (LARGEST_SIZE - 1, LARGEST_SIZE, LARGEST_SIZE),
];

/// Sizes at which proofs are compared.
const COMPARED: [u64; 4] = [(1 << 32) + 1, 1 << 63, LARGEST_SIZE - 1, LARGEST_SIZE];

fn cases(requests: &mut Requests) {
    let random = &mut Random::new(130);

    // The papers' cases, with seven leaves a b c d e f j.
    for algorithm in KNOWN {
        let list = List::random(algorithm, 7, random);
        let node = |left: &Hash, right: &Hash| node_hash(algorithm::of(algorithm), left, right);
        let [a, b, c, d, e, f, j] = list.leaves[..] else { unreachable!() };
        let (g, h, i) = (node(&a, &b), node(&c, &d), node(&e, &f));
        let (k, l) = (node(&g, &h), node(&i, &j));
        let carried: [(u64, u64, [Hash; 3]); 3] = [(0, 3, [b, h, l]), (2, 3, [d, g, l]), (5, 6, [e, j, k])];
        for (place, first, path) in carried {
            let one = Carry::of_list(&list, place, first);
            let answer = carry(&words_as_read(&one)).unwrap();
            assert_eq!(answer[..4], [number(0), number(0), number(96), bytes(&path.concat())]);
            one.ask(requests);
        }
    }

    // Every place and first size of small lists, and more of some.
    for (size, algorithm) in [1, 2, 3, 5, 7].into_iter().flat_map(|size| KNOWN.map(|algorithm| (size, algorithm))) {
        let list = List::random(algorithm, size, random);
        for first in 1..=size as u64 {
            for place in 0..first {
                let one = Carry::of_list(&list, place, first);
                one.ask(requests);
                if size == 7 && (first == 3 && place == 2 || first == 6 && place == 5) {
                    one.damaged(random).iter().for_each(|other| other.ask(requests));
                }
            }
        }
        for place in (0..size as u64).step_by(2) {
            ask_compared(requests, &list.inclusion(place), random);
        }
    }
    for (turn, (place, first, second)) in LARGE.into_iter().enumerate() {
        Carry::made(KNOWN[turn % 2], place, first, second, random).ask(requests);
    }
    for (turn, (place, first, second)) in PLAIN.into_iter().enumerate() {
        Carry::plain(KNOWN[turn % 2], place, first, second, 7).judged().iter().for_each(|(_, one)| one.ask(requests));
        Carry::plain(KNOWN[(turn + 1) % 2], place, first, second, 7).ask(requests);
    }
    for (at, size) in COMPARED.into_iter().enumerate() {
        for (turn, place) in [0, split(size), size - 1].into_iter().enumerate() {
            ask_compared(requests, &plain_inclusion(KNOWN[(at + turn) % 2], place, size, at as u8), random);
        }
    }
    for algorithm in KNOWN {
        let proof = made_inclusion(algorithm, LARGEST_SIZE / 3, LARGEST_SIZE, random);
        requests.ask("compare", &compare_words(&proof, &proof, 130));
    }
    second_hash_cases(false).iter().for_each(|(_, (name, words))| requests.ask(name, words));

    lines_that_are_no_request(requests, "carry 0");
    for line in [
        "carry",
        "carry 32*01 0 1 32*01 x 1 32*01 x x 130*00",
        "carry 0 32*01 0 1 32*01 x 1 32*01 x x",
        "carry 0 32*01 0 1 32*01 x 1 32*01 x x 130",
        "carry 1 32*01 0 1 32*01 x 1 32*01 x x 130",
        "carry 0 32*01 0 1 32*01 x 1 32*01 x x 130*00 x",
        "carry 0 32*01 x 1 32*01 x 1 32*01 x x 130*00",
        "carry x 32*01 0 1 32*01 x 1 32*01 x x 130*00",
        "carry 18446744073709551616 32*01 0 1 32*01 x 1 32*01 x x 130*00",
        "compare",
        "compare 0 1 32*01 32*01 x 32*01 x 130*00",
        "compare 0 0 1 32*01 32*01 x 32*01 x",
        "compare 0 0 1 32*01 32*01 x 32*01 x 130",
        "compare 240 0 1 32*01 32*01 x 32*01 x 130*00 x",
        "compare x 0 1 32*01 32*01 x 32*01 x 130*00",
    ] {
        requests.line(line.as_bytes());
    }
}

/// The words of a carry as they are read.
fn words_as_read(one: &Carry) -> Vec<Word> {
    let mut line = Vec::new();
    crate::words::write_line(Some("carry"), &one.words(0), &mut line);
    line.pop();
    crate::words::read_line(&line).unwrap().1
}

/// Request 7, a second hash: both entries with each of their numbers, by both hashes, and 16
/// in its place by numbers that no hash has. Of two faults the earlier has the number: there is
/// no room wherever another number than 9 is given.
fn second_hash_cases(all_wanted: bool) -> Vec<(u64, Asked)> {
    let random = &mut Random::new(0xf0);
    let mut all = Vec::new();
    for algorithm in KNOWN {
        let list = List::random(algorithm, 5, random);
        let one = Carry::of_list(&list, 1, 3);
        let mut carries: Vec<(u64, Carry)> = one.judged().into_iter().filter(|(_, c)| c.old.algorithm == algorithm).collect();
        carries.push((5, one.with(|c| (c.pair, c.old.hashes[0]) = (0, vec![0; 31]))));
        carries.push((5, one.with(|c| (c.pair, c.step.hashes[1]) = (0, vec![0; 33]))));
        carries.push((10, one.with(|c| (c.pair, c.old.path) = (0, vec![0; 31]))));
        carries.push((10, one.with(|c| (c.pair, c.step.path) = (0, vec![0; 33]))));
        all.extend(carries.iter().map(|(refusal, one)| (*refusal, ("carry", one.words(0xa5)))));

        let proof = list.inclusion(1);
        let others = crate::proofs::judged(&proof).into_iter().filter(|(refusal, one)| one.algorithm == algorithm && *refusal != 6);
        let mut others: Vec<(u64, Proof)> = others.skip(1).collect();
        others.push((5, proof.with(|p| p.hashes[0].truncate(31))));
        others.push((10, proof.with(|p| p.path.push(0))));
        // Only the second proof's leaf hash and path go out: its root is the first's.
        let bad_root = proof.with(|p| p.hashes[1][31] ^= 128);
        let compared = |refusal: u64, one: &Proof, two: &Proof, pair: usize| (refusal, ("compare", compare_words(one, two, pair)));
        all.extend([compared(0, &proof, &proof, 130), compared(9, &proof, &proof, 129), compared(8, &bad_root, &proof, 0)]);
        all.push(compared(6, &proof.with(|p| p.numbers[0] = 5), &proof, 0));
        for (refusal, other) in others.iter().filter(|(_, other)| other.hashes[1] == proof.hashes[1]) {
            all.extend([compared(*refusal, other, &proof, 0), compared(*refusal, &proof, other, 0)]);
        }
    }
    let mut all = with_unknown(all, all_wanted);
    // Right proofs by the other hash.
    for (size, algorithm) in [1, 2, 3, 5].into_iter().flat_map(|size| KNOWN.map(|algorithm| (size, algorithm))) {
        let list = List::random(algorithm, size, random);
        for (first, place) in (1..=size as u64).flat_map(|first| (0..first).map(move |place| (first, place))) {
            let one = Carry::of_list(&list, place, first).with(|c| c.old.algorithm = algorithm::other(algorithm));
            all.push((if size == 1 { 0 } else { 8 }, ("carry", one.words(0x5a))));
        }
        let proof = list.inclusion(0).with(|p| p.algorithm = algorithm::other(algorithm));
        all.push((if size == 1 { 0 } else { 8 }, ("compare", compare_words(&proof, &proof, 130))));
    }
    all
}

/// Every place, first and second size up to 24 leaves, carried and compared: by the one hash
/// and the other in turn.
fn full(requests: &mut Requests) {
    let random = &mut Random::new(24);
    for (size, turn) in (1..=24).flat_map(|size| [(size, 0), (size, 1)]) {
        let list = List::random(KNOWN[turn], size, random);
        for first in 1..=size as u64 {
            for place in 0..first {
                let one = Carry::of_list(&list, place, first);
                one.ask(requests);
                if (first + place) % 2 != turn as u64 {
                    continue;
                }
                let all = one.damaged(random);
                for _ in 0..3 {
                    random.pick(&all).ask(requests);
                }
            }
        }
        for place in 0..size as u64 {
            ask_compared(requests, &list.inclusion(place), random);
        }
    }
    full_large(requests, random);
    second_hash_cases(true).iter().for_each(|(_, (name, words))| requests.ask(name, words));
}

/// Second sizes next to every power of two up to the largest: from first sizes and
/// for places at the ends, next to powers of two and anywhere.
fn full_large(requests: &mut Requests, random: &mut Random) {
    for second in next_to_powers(2).into_iter().filter(|second| *second > 24) {
        let middle = split(second);
        let firsts = [1, middle, middle + 1, second - 1, second, random.between(1, second), 1 << random.below(64)];
        for (turn, first) in firsts.into_iter().enumerate() {
            let first = first.min(second);
            for (more, place) in [0, first - 1, random.below(first)].into_iter().enumerate() {
                let one = Carry::made(KNOWN[(turn + more) % 2], place, first, second, random);
                one.ask(requests);
                let all = one.damaged(random);
                random.pick(&all).ask(requests);
            }
        }
        for algorithm in KNOWN {
            let place = random.below(second);
            let first = random.between(place + 1, second);
            Carry::made(algorithm, place, first, second, random).judged().iter().for_each(|(_, one)| one.ask(requests));
            let proof = made_inclusion(algorithm, place, second, random);
            requests.ask("compare", &compare_words(&proof, &proof, 130));
        }
        for (turn, place) in some_places(second, random).into_iter().enumerate() {
            ask_compared(requests, &plain_inclusion(KNOWN[turn % 2], place, second, place as u8), random);
        }
    }
}

// Random requests.

/// Half of the sizes small, the others of any count of bits or next to a power of two.
fn random_numbers(random: &mut Random) -> (u64, u64, u64) {
    let second = match random.below(6) {
        0 => near_power(random).max(1),
        1 | 2 => (random.draw() >> random.below(64)).max(1),
        _ => random.between(1, 40),
    };
    let first = match random.below(5) {
        0 => second,
        1 => 1 << random.below(second.ilog2() as u64 + 1),
        _ => 1 + random.below(second),
    };
    let place = if random.one_in(3) { first - 1 } else { random.below(first) };
    (place, first, second)
}

/// None, one or two faults, by both hashes.
pub fn some_carry(random: &mut Random) -> Carry {
    let (place, first, second) = random_numbers(random);
    let mut one = Carry::made(algorithm::some(random), place, first, second, random);
    for _ in 0..*random.pick(&[0, 0, 1, 1, 2]) {
        let all = one.damaged(random);
        one = random.pick(&all).clone();
    }
    one
}

fn random_carry(random: &mut Random) -> Vec<Word> {
    let one = some_carry(random);
    let byte = random.byte();
    one.words(byte)
}

/// A proof twice, each damaged at times, and a length of the pair buffer. The hash is the
/// first proof's, and another or none at times.
pub fn some_compared(random: &mut Random) -> ([Proof; 2], usize) {
    let (place, size, _) = random_numbers(random);
    let good = made_inclusion(algorithm::some(random), place, size, random);
    let mut proofs = [good.clone(), good];
    for proof in &mut proofs {
        if random.one_in(4) {
            let mut all = crate::proofs::damaged(proof, random);
            all.extend(crate::proofs::damaged_lengths(proof, random));
            *proof = random.pick(&all).clone();
        }
    }
    if KNOWN.contains(&proofs[0].algorithm) {
        proofs[0].algorithm = algorithm::mostly(proofs[0].algorithm, random);
    }
    (proofs, *random.pick(&[130, 130, 130, 131, 129, 65, 0, 200]))
}

fn random_compare(random: &mut Random) -> Vec<Word> {
    let ([one, two], pair) = some_compared(random);
    compare_words(&one, &two, pair)
}

#[cfg(test)]
mod tests {
    use super::*;
    use std::collections::{BTreeMap, BTreeSet};

    #[test]
    fn made_proofs_are_carried() {
        let random = &mut Random::new(9);
        for _ in 0..2_000 {
            let (place, first, second) = random_numbers(random);
            let one = Carry::made(algorithm::some(random), place, first, second, random);
            let answer = carry(&words_as_read(&one)).unwrap();
            assert_eq!(answer[..3], [number(0), number(0), number(one.lent as u64)], "{place} from {first} to {second}");
            let path = answer[3].as_bytes().unwrap();
            let mut new = one.old.clone();
            new.numbers[1] = second;
            new.hashes[1] = one.step.hashes[1].clone();
            new.path = path.to_vec();
            assert_eq!(new.number(), 0);
        }
    }

    /// The numbers of both tables and of random ones, up to the longest paths.
    #[test]
    fn judged_carries_have_their_numbers() {
        let random = &mut Random::new(64);
        let (mut longest, mut plain) = ((0, 0), 0);
        let any: Vec<_> = (0..300).map(|_| random_numbers(random)).collect();
        for (place, first, second) in LARGE.into_iter().chain(PLAIN).chain(any) {
            let [made, plain] = [algorithm::some(random), algorithm::some(random)];
            for one in [Carry::made(made, place, first, second, random), Carry::plain(plain, place, first, second, 7)] {
                for (refusal, one) in one.judged() {
                    let answer = carry(&words_as_read(&one)).unwrap();
                    assert_eq!(answer[0], number(refusal), "{place} from {first} to {second}");
                }
                longest = (longest.0.max(one.lent / 32), longest.1.max(one.step.path.len() / 32));
            }
        }
        assert_eq!(longest, (64, 65));
        for (place, first, second) in PLAIN {
            let one = Carry::plain(algorithm::some(random), place, first, second, 7);
            plain += [&one.old.path, &one.step.path].iter().filter(|path| path.iter().all(|byte| *byte == 7)).count();
        }
        assert_eq!(plain, 2 * PLAIN.len());
    }

    #[test]
    fn second_hash_cases_have_their_numbers() {
        let all = second_hash_cases(true);
        let mut met: BTreeMap<&str, BTreeSet<u64>> = BTreeMap::new();
        for (refusal, (name, words)) in &all {
            let mut line = Vec::new();
            crate::words::write_line(Some(name), words, &mut line);
            line.pop();
            let words = crate::words::read_line(&line).unwrap().1;
            let answer = if *name == "carry" { carry(&words) } else { compare(&words) }.unwrap();
            assert_eq!(answer[0], number(*refusal), "{name} {words:?}");
            if *refusal != 0 {
                // No lent byte is changed.
                let lent = if *name == "carry" { 2 } else { 1 };
                assert_eq!(answer[answer.len() - lent..], words[words.len() - lent..]);
            }
            met.entry(name).or_default().insert(*refusal);
        }
        assert!(["carry", "compare"].iter().all(|name| met[name].iter().copied().eq([0, 5, 6, 7, 8, 9, 10, 16])), "{met:?}");
    }
}
