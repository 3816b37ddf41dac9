//! The tree: root, inclusion path and consistency path built into lent buffers,
//! both verdicts, and the counts of a path's nodes.

use crate::algorithm::{self, known, KNOWN};
use crate::proofs::{
    self, damaged, damaged_lengths, damaged_nodes, judged, made_consistency, made_inclusion, near_power, next_to_powers, plain_consistency,
    plain_inclusion, some_places, List, Proof,
};
use crate::random::Random;
use crate::requests::{lines_that_are_no_request, with_unknown, Asked, Entry, Layer, Requests};
use crate::tree::{self, node_hash, split, Hash, HashFunction, LARGEST_SIZE};
use crate::words::{bytes, number, repeated, Word};
use crate::yields::{CONSISTENCY_COUNTS, INCLUSION_COUNTS};
use crate::{verdict, yields};

pub const LAYER: Layer = Layer {
    name: "tree",
    entries: &[
        Entry { name: "root", answer: root, random: random_root },
        Entry { name: "path", answer: path, random: random_path },
        Entry { name: "consistency_path", answer: consistency_path, random: random_consistency_path },
        Entry { name: "inclusion", answer: inclusion, random: random_inclusion },
        Entry { name: "consistency", answer: consistency, random: random_consistency },
        Entry { name: "inclusion_count", answer: inclusion_count, random: random_numbers },
        Entry { name: "subproof_count", answer: subproof_count, random: random_subproof_count },
    ],
    lists: None,
    cases,
    full,
};

// Answers.

fn built(answer: Result<usize, u64>, lent: &[u8]) -> Option<Vec<Word>> {
    let (refusal, count) = match answer {
        Ok(count) => (0, count as u64),
        Err(refusal) => (refusal, 0),
    };
    Some(vec![number(refusal), number(count), bytes(lent)])
}

/// A builder over the hash of a number; 16 before all else.
fn build(algorithm: &Word, lent: &Word, build: impl FnOnce(HashFunction, &mut [u8]) -> Result<usize, u64>) -> Option<Vec<Word>> {
    let mut lent = lent.as_bytes()?.to_vec();
    built(known(algorithm.as_number()?).and_then(|h| build(h, &mut lent)), &lent)
}

fn root(words: &[Word]) -> Option<Vec<Word>> {
    let [algorithm, leaves, lent] = words else { return None };
    let leaves = leaves.as_bytes()?;
    build(algorithm, lent, |h, lent| tree::build_root(h, leaves, lent))
}

fn path(words: &[Word]) -> Option<Vec<Word>> {
    let [algorithm, leaves, place, lent] = words else { return None };
    let (leaves, place) = (leaves.as_bytes()?, place.as_number()?);
    build(algorithm, lent, |h, lent| tree::build_path(h, leaves, place, lent))
}

fn consistency_path(words: &[Word]) -> Option<Vec<Word>> {
    let [algorithm, leaves, first, lent] = words else { return None };
    let (leaves, first) = (leaves.as_bytes()?, first.as_number()?);
    build(algorithm, lent, |h, lent| tree::build_consistency_path(h, leaves, first, lent))
}

fn judged_by(algorithm: &Word, judge: impl FnOnce(HashFunction) -> u64) -> Option<Vec<Word>> {
    Some(vec![number(known(algorithm.as_number()?).map_or_else(|refusal| refusal, judge))])
}

fn inclusion(words: &[Word]) -> Option<Vec<Word>> {
    let [algorithm, leaf, place, size, root, path] = words else { return None };
    let proof = verdict::Inclusion {
        leaf: leaf.as_bytes()?,
        place: place.as_number()?,
        size: size.as_number()?,
        root: root.as_bytes()?,
        path: path.as_bytes()?,
    };
    judged_by(algorithm, |h| verdict::inclusion(h, &proof))
}

fn consistency(words: &[Word]) -> Option<Vec<Word>> {
    let [algorithm, first, second, first_root, second_root, path] = words else { return None };
    let proof = verdict::Consistency {
        first: first.as_number()?,
        second: second.as_number()?,
        first_root: first_root.as_bytes()?,
        second_root: second_root.as_bytes()?,
        path: path.as_bytes()?,
    };
    judged_by(algorithm, |h| verdict::consistency(h, &proof))
}

fn inclusion_count(words: &[Word]) -> Option<Vec<Word>> {
    let [place, size] = words else { return None };
    let count = yields::inclusion_count(place.as_number()?, size.as_number()?);
    Some(vec![number(count as u64)])
}

fn subproof_count(words: &[Word]) -> Option<Vec<Word>> {
    let [first, second, known] = words else { return None };
    let count = yields::subproof_count(first.as_number()?, second.as_number()?, known.as_flag()?);
    Some(vec![number(count as u64)])
}

/// The builders of a path: the entry, its smallest number, and its count of nodes.
type PathEntry = (&'static str, u64, fn(u64, u64) -> usize);
const PATH_ENTRIES: [PathEntry; 2] = [("path", 0, yields::inclusion_count), ("consistency_path", 1, yields::consistency_count)];

// Committed cases.

fn cases(requests: &mut Requests) {
    let random = &mut Random::new(9162);
    for algorithm in KNOWN {
        papers_cases(algorithm, requests, random);

        // Small lists: built with room for more.
        for size in 0..=6 {
            let list = List::random(algorithm, size, random);
            requests.ask("root", &[number(algorithm), list.word(), repeated(32 + size, 5)]);
            for (entry, smallest, count) in PATH_ENTRIES {
                for at in smallest..size as u64 + smallest {
                    let room = 32 * count(at, size as u64);
                    requests.ask(entry, &[number(algorithm), list.word(), number(at), repeated(room + (size + at as usize) % 3, 6)]);
                }
            }
        }
        // Longer ones of equal leaves.
        for size in (7..=17).chain([31, 32, 33, 63, 64, 65, 100, 127, 128, 129, 1_000]) {
            let leaves = repeated(32 * size, size as u8);
            requests.ask("root", &[number(algorithm), leaves.clone(), repeated(32, 0)]);
            for (entry, smallest, count) in PATH_ENTRIES {
                let at = smallest + random.below(size as u64);
                requests.ask(entry, &[number(algorithm), leaves.clone(), number(at), repeated(32 * count(at, size as u64), 1)]);
            }
        }
        let list = List::random(algorithm, 23, random);
        requests.ask("root", &[number(algorithm), list.word(), repeated(32, 0)]);
        for (entry, smallest, _) in PATH_ENTRIES {
            for _ in 0..3 {
                let at = smallest + random.below(list.size());
                requests.ask(entry, &[number(algorithm), list.word(), number(at), repeated(192, 1)]);
            }
        }
    }
    refused_builds(requests);

    // Judged: small lists whole, by both hashes, and damaged, by the one and the other in turn; longer ones whole.
    for size in 1..=8 {
        for (turn, algorithm) in KNOWN.into_iter().enumerate() {
            let list = List::random(algorithm, size, random);
            for at in 0..size as u64 {
                for proof in [list.inclusion(at), list.consistency(at + 1)] {
                    proof.ask(requests);
                    if (size as u64 + at + proof.is_inclusion as u64) % 2 != turn as u64 {
                        continue;
                    }
                    let mut all = Vec::new();
                    if size < 4 || size == 7 && at % 2 == 0 {
                        all.extend(damaged(&proof, random));
                    }
                    if size == 3 || size == 7 && at == 6 {
                        all.extend(damaged_nodes(&proof, random));
                    }
                    if size == 1 || size == 7 && at == 2 {
                        all.extend(damaged_lengths(&proof, random));
                    }
                    all.iter().for_each(|proof| proof.ask(requests));
                }
            }
        }
    }
    for (turn, size) in [9, 16, 10, 15].into_iter().enumerate() {
        let list = List::random(KNOWN[turn / 2], size, random);
        for at in 0..size as u64 {
            list.inclusion(at).ask(requests);
            list.consistency(at + 1).ask(requests);
        }
    }
    for (size, algorithm) in [21, 31, 32, 33, 40].into_iter().flat_map(|size| KNOWN.map(|algorithm| (size, algorithm))) {
        let list = List::random(algorithm, size, random);
        for _ in 0..2 {
            list.inclusion(random.below(size as u64)).ask(requests);
            list.consistency(1 + random.below(size as u64)).ask(requests);
        }
    }
    large_cases(requests, random);
    // No place and no first size of these.
    for numbers in [[0, 0], [1, 0], [u64::MAX, 0], [u64::MAX, 1], [u64::MAX, u64::MAX], [0, u64::MAX], [1 << 32, 1 << 32]] {
        for (algorithm, is_inclusion) in KNOWN.into_iter().zip([true, false]) {
            let hash = random.hash().to_vec();
            Proof { algorithm, is_inclusion, numbers, hashes: [hash.clone(), hash], path: vec![] }.ask(requests);
        }
    }
    second_hash_cases(false).iter().for_each(|(_, (name, words))| requests.ask(name, words));

    counted(requests);

    lines_that_are_no_request(requests, "root 0");
    for line in [
        "root",
        "root 0 x",
        "root x 32*00",
        "root 0 x 32",
        "root 0 0 32*00",
        "root x x 32*00",
        "root 0 x 32*00 x",
        "root 18446744073709551616 x 32*00",
        "path 0 32*00 0",
        "path 32*00 0 32*00",
        "path 240 32*00 x 32*00",
        "path 0 32*00 0 0",
        "path 0 32*00 18446744073709551616 32*00",
        "path 0 32*00 0 32*00 0",
        "path x 32*00 0 32*00",
        "consistency_path 0 32*00 1",
        "consistency_path 0 32*00 1*00 x",
        "consistency_path 0 1 32*00 x",
        "consistency_path 1*f0 32*00 1 x",
        "inclusion 32*01 0 1 32*01 x",
        "inclusion 0 32*01 0 1 32*01",
        "inclusion 0 32*01 0 1 32*01 x x",
        "inclusion 0 32*01 0 1 32*01 0",
        "inclusion 0 1 0 1 32*01 x",
        "inclusion 0 32*01 x 1 32*01 x",
        "inclusion x 32*01 0 1 32*01 x",
        "inclusion 1 32*01 0 1 32*01 0",
        "inclusion 240x 32*01 0 1 32*01 x",
        "consistency 1 1 32*01 32*01 x",
        "consistency 0 1 1 32*01 32*01",
        "consistency 0 1 1 32*01 32*01 x x",
        "consistency 0 32*01 1 1 32*01 x",
        "consistency 0 1 1 1 32*01 x",
        "consistency x 1 1 32*01 32*01 x",
        "inclusion_count",
        "inclusion_count 1",
        "inclusion_count 1 2 0",
        "inclusion_count x01 2",
        "inclusion_count 1 x02",
        "inclusion_count 1 18446744073709551616",
        "subproof_count 1 2",
        "subproof_count 1 2 1 1",
        "subproof_count 1 2 2",
        "subproof_count 1 2 18446744073709551615",
        "subproof_count 1 2 x01",
        "subproof_count 1 2 1*01",
        "subproof_count 18446744073709551616 2 1",
        "digest 0 x",
    ] {
        requests.line(line.as_bytes());
    }
}

/// The papers' cases, with seven leaves a b c d e f j.
fn papers_cases(algorithm: u64, requests: &mut Requests, random: &mut Random) {
    let list = List::random(algorithm, 7, random);
    let by = algorithm::of(algorithm);
    let node = |left: &Hash, right: &Hash| node_hash(by, left, right);
    let inclusion =
        |leaf: &Hash, place: u64, size: u64, root: &Hash, path: &[Hash]| Proof::inclusion(algorithm, leaf, place, size, root, path);
    let consistency =
        |first: u64, second: u64, one: &Hash, two: &Hash, path: &[Hash]| Proof::consistency(algorithm, first, second, one, two, path);
    let [a, b, c, d, e, f, j] = list.leaves[..] else { unreachable!() };
    let (g, h, i) = (node(&a, &b), node(&c, &d), node(&e, &f));
    let (k, l) = (node(&g, &h), node(&i, &j));
    let root = node(&k, &l);
    assert_eq!(root, list.root);
    requests.ask("root", &[number(algorithm), list.word(), repeated(32, 0)]);
    let paths: [(u64, &[Hash]); 4] = [(0, &[b, h, l]), (3, &[c, g, l]), (4, &[f, j, k]), (6, &[i, k])];
    for (place, path) in paths {
        assert_eq!(tree::path(by, place as usize, &list.leaves), path);
        requests.ask("path", &[number(algorithm), list.word(), number(place), repeated(32 * path.len(), 0)]);
        inclusion(&list.leaves[place as usize], place, 7, &root, path).ask(requests);
    }
    let first_roots = [(3, node(&g, &c)), (4, k), (6, node(&k, &i))];
    let paths: [&[Hash]; 3] = [&[c, d, g, l], &[l], &[i, j, k]];
    for ((first, first_root), path) in first_roots.into_iter().zip(paths) {
        assert_eq!(tree::consistency_path(by, first as usize, &list.leaves), path);
        requests.ask("consistency_path", &[number(algorithm), list.word(), number(first), repeated(32 * path.len(), 0)]);
        consistency(first, 7, &first_root, &root, path).ask(requests);
    }
    // The flag passed on when m > k would lose i.
    consistency(6, 7, &node(&k, &i), &root, &[j, k]).ask(requests);
    // A power of two brings its own root: it isn't in the path.
    consistency(4, 7, &k, &root, &[k, l]).ask(requests);
    // An odd last node paired with itself.
    inclusion(&j, 6, 7, &node(&k, &node(&i, &node(&j, &j))), &[j, i, k]).ask(requests);

    inclusion(&a, 0, 1, &a, &[]).ask(requests);
    inclusion(&a, 0, 1, &b, &[]).ask(requests);
    inclusion(&a, 0, 1, &a, &[b]).ask(requests);
    inclusion(&a, 1, 1, &a, &[]).ask(requests);
    consistency(4, 4, &k, &k, &[]).ask(requests);
    consistency(4, 4, &k, &l, &[]).ask(requests);
    consistency(4, 4, &k, &k, &[l]).ask(requests);
    consistency(0, 7, &k, &root, &[l]).ask(requests);
    consistency(7, 3, &root, &k, &[l]).ask(requests);
    for size in [1 << 32, (1 << 32) + 1, 1 << 63, LARGEST_SIZE - 1, LARGEST_SIZE] {
        made_inclusion(algorithm, 5, size, random).ask(requests);
    }
}

/// The cases by hand of request 3, full-size logs, as its readings list them: a and
/// b are any hashes, and each case has the number that must be given.
fn full_size_cases(algorithm: u64) -> Vec<(u64, Proof)> {
    const PAST: u64 = (1 << 32) + 1;
    const LAST: u64 = LARGEST_SIZE;
    let (a, b) = ([0xa1; 32], [0xb2; 32]);
    let node = |left: &Hash, right: &Hash| node_hash(algorithm::of(algorithm), left, right);
    let inclusion =
        |leaf: &Hash, place: u64, size: u64, root: &Hash, path: &[Hash]| Proof::inclusion(algorithm, leaf, place, size, root, path);
    let consistency =
        |first: u64, second: u64, one: &Hash, two: &Hash, path: &[Hash]| Proof::consistency(algorithm, first, second, one, two, path);
    let at_the_start = |count: usize| inclusion(&a, 0, LAST, &(0..64).fold(a, |root, _| node(&root, &b)), &vec![b; count]);
    let at_the_end = |root: &Hash| inclusion(&a, LAST - 1, LAST, root, &[b; 63]);
    vec![
        (0, inclusion(&a, 1 << 32, PAST, &node(&b, &a), &[b])),
        (7, inclusion(&a, 0, PAST, &node(&b, &a), &[b])),
        (0, consistency(1 << 32, PAST, &a, &node(&a, &b), &[b])),
        (0, at_the_start(64)),
        (7, at_the_start(63)),
        (7, at_the_start(65)),
        (6, inclusion(&a, LAST, LAST, &a, &[b; 64])),
        (0, at_the_end(&(0..63).fold(a, |root, _| node(&b, &root)))),
        (8, at_the_end(&a)),
        (0, consistency(LAST, LAST, &a, &a, &[])),
        (7, consistency(LAST, LAST, &a, &a, &[b])),
    ]
}

/// Request 7, a second hash: what each entry gives, by both hashes, and 16 in its place by
/// numbers that no hash has. Then every proof of small lists, judged by the other hash.
fn second_hash_cases(all_wanted: bool) -> Vec<(u64, Asked)> {
    let random = &mut Random::new(0xf0);
    let mut all = Vec::new();
    for algorithm in KNOWN {
        let list = List::random(algorithm, 3, random);
        let leaves = list.word();
        let cut = bytes(&list.leaves.concat()[1..]);
        let build = |entry: &'static str, at: Option<u64>, leaves: &Word, room: usize| {
            let at = at.map(number);
            (entry, [&[number(algorithm), leaves.clone()][..], at.as_slice(), &[repeated(room, 7)]].concat())
        };
        all.push((0, build("root", None, &leaves, 33)));
        all.push((10, build("root", None, &cut, 31)));
        all.push((9, build("root", None, &leaves, 31)));
        for (entry, at, outside) in [("path", 0, 3), ("consistency_path", 2, 4)] {
            let room = if entry == "path" { 64 } else { 32 };
            all.push((0, build(entry, Some(at), &leaves, room + 1)));
            all.push((10, build(entry, Some(outside), &cut, 0)));
            all.push((6, build(entry, Some(outside), &leaves, 0)));
            all.push((9, build(entry, Some(at), &leaves, room - 1)));
        }
        for proof in [list.inclusion(0), list.consistency(2)] {
            let lengths = [0, 1].map(|which| (5, proof.with(|p| p.hashes[which].truncate(31))));
            let refused = [(10, proof.with(|p| p.path.push(0)))];
            let judged = judged(&proof).into_iter().filter(|(_, one)| one.algorithm == algorithm);
            all.extend(lengths.into_iter().chain(refused).chain(judged).map(|(refusal, one)| (refusal, (one.entry(), one.words()))));
        }
    }
    let mut all = with_unknown(all, all_wanted);
    for (size, algorithm) in (1..=7).flat_map(|size| KNOWN.map(|algorithm| (size, algorithm))) {
        let list = List::random(algorithm, size, random);
        for at in 0..size as u64 {
            for proof in [list.inclusion(at), list.consistency(at + 1)] {
                let (refusal, one) = judged(&proof).pop().expect("the other hash");
                assert_eq!(refusal, if size == 1 || !proof.is_inclusion && at + 1 == size as u64 { 0 } else { 8 });
                all.push((refusal, (one.entry(), one.words())));
            }
        }
    }
    // By hand: the root has 31 bytes.
    for (refusal, algorithm) in [(16, 0xef), (5, 0xf0), (16, 0xf1), (5, 0x00), (16, 0x01), (16, 0x100), (16, 0x1f0)] {
        let words = vec![number(algorithm), repeated(32, 1), number(0), number(1), repeated(31, 1), bytes(&[])];
        all.push((refusal, ("inclusion", words)));
    }
    all
}

/// Sizes up to the largest: of made proofs a few with any nodes, which are long,
/// and many with nodes of one byte.
fn large_cases(requests: &mut Requests, random: &mut Random) {
    for algorithm in KNOWN {
        full_size_cases(algorithm).iter().for_each(|(_, proof)| proof.ask(requests));
    }
    for (turn, (at, size)) in [
        (1 << 31, (1 << 31) + 1),
        ((1 << 32) - 2, 1 << 32),
        (1 << 31, (1 << 32) + 1),
        ((1 << 32) - 1, (1 << 32) + 1),
        (5, 1 << 63),
        ((1 << 63) - 1, LARGEST_SIZE - 1),
        (2, LARGEST_SIZE),
        (LARGEST_SIZE - 2, LARGEST_SIZE),
    ]
    .into_iter()
    .enumerate()
    {
        made_inclusion(KNOWN[turn % 2], at, size, random).ask(requests);
        made_consistency(KNOWN[(turn + 1) % 2], at + 1, size, random).ask(requests);
    }
    for (turn, size) in next_to_powers(1).into_iter().filter(|size| *size > 9).enumerate() {
        let places = [0, split(size), size - 1, split(size) - 1, size - 2, size / 3, (split(size) + 1).min(size - 1)];
        let [one, two] = [KNOWN[turn % 2], KNOWN[(turn + 1) % 2]];
        plain_inclusion(one, places[turn % 7], size, turn as u8).ask(requests);
        plain_consistency(two, places[(turn + 3) % 7] + 1, size, turn as u8).ask(requests);
    }
    let numbers =
        [(1 << 32, (1 << 32) + 1), (5, 1 << 63), (1 << 63, LARGEST_SIZE - 1), (0, LARGEST_SIZE), (LARGEST_SIZE - 2, LARGEST_SIZE)];
    for (turn, (at, size)) in numbers.into_iter().enumerate() {
        let [one, two] = [KNOWN[turn % 2], KNOWN[(turn + 1) % 2]];
        for proof in [plain_inclusion(one, at, size, 3), plain_consistency(two, at + 1, size, 4)] {
            judged(&proof).iter().for_each(|(_, proof)| proof.ask(requests));
            damaged(&proof, random).iter().filter(|other| other.path == proof.path).for_each(|proof| proof.ask(requests));
        }
    }
}

/// 10, then 6, then 9, each alone and before the others, by the one hash and the other in turn.
fn refused_builds(requests: &mut Requests) {
    let mut turns = KNOWN.map(number).into_iter().cycle();
    let mut turn = || turns.next().unwrap();
    for length in [0, 1, 31, 32, 33, 64, 96, 1_280] {
        for lent in [0, 1, 31, 32, 33] {
            requests.ask("root", &[turn(), repeated(length, 3), repeated(lent, 4)]);
        }
        for at in [0, 1, 2, 3, 40, 41, u64::MAX] {
            for lent in [0, 31, 64] {
                let algorithm = turn();
                requests.ask("path", &[algorithm.clone(), repeated(length, 3), number(at), repeated(lent, 4)]);
                requests.ask("consistency_path", &[algorithm, repeated(length, 3), number(at), repeated(lent, 4)]);
            }
        }
    }
}

/// Counts by hand, and those of numbers in and out of the papers' range.
fn counted(requests: &mut Requests) {
    for (place, size, _) in INCLUSION_COUNTS {
        requests.ask("inclusion_count", &[number(place), number(size)]);
    }
    for (first, second, _) in CONSISTENCY_COUNTS {
        requests.ask("subproof_count", &[number(first), number(second), number(1)]);
        requests.ask("subproof_count", &[number(first), number(second), number(0)]);
    }
    let numbers = [0, 1, 2, 7, u64::MAX];
    for (one, two) in numbers.iter().flat_map(|one| numbers.map(|two| (*one, two))) {
        requests.ask("inclusion_count", &[number(one), number(two)]);
        requests.ask("subproof_count", &[number(one), number(two), number(1)]);
        requests.ask("subproof_count", &[number(one), number(two), number(0)]);
    }
}

/// All places and all first sizes of every list of up to 40 leaves, by both hashes: built into
/// buffers that fit, are too short and too long, judged, and judged damaged, by the one hash and
/// the other in turn.
fn full(requests: &mut Requests) {
    let random = &mut Random::new(40);
    for (size, turn) in (0..=40).flat_map(|size| [(size, 0), (size, 1)]) {
        let algorithm = KNOWN[turn];
        let list = List::random(algorithm, size, random);
        for lent in [0, 31, 32, 40] {
            requests.ask("root", &[number(algorithm), list.word(), repeated(lent, 5)]);
        }
        for (entry, smallest, count) in PATH_ENTRIES {
            for at in smallest..size as u64 + smallest {
                let room = 32 * count(at, size as u64);
                for lent in [room, room + 9, room.saturating_sub(1)] {
                    requests.ask(entry, &[number(algorithm), list.word(), number(at), repeated(lent, 6)]);
                }
            }
            for at in [size as u64, size as u64 + 1, 0, u64::MAX] {
                requests.ask(entry, &[number(algorithm), list.word(), number(at), repeated(192, 6)]);
            }
        }
        for at in 0..size as u64 {
            for proof in [list.inclusion(at), list.consistency(at + 1)] {
                proof.ask(requests);
                if (size as u64 + at + proof.is_inclusion as u64) % 2 != turn as u64 {
                    continue;
                }
                damaged(&proof, random).iter().for_each(|proof| proof.ask(requests));
                damaged_nodes(&proof, random).iter().for_each(|proof| proof.ask(requests));
                if random.one_in(10) {
                    damaged_lengths(&proof, random).iter().for_each(|proof| proof.ask(requests));
                }
            }
        }
    }
    full_large(requests, random);
    second_hash_cases(true).iter().for_each(|(_, (name, words))| requests.ask(name, words));
}

/// Sizes next to every power of two up to the largest, at the ends, next to powers
/// of two and anywhere: judged, and judged damaged, by the one hash and the other in turn.
fn full_large(requests: &mut Requests, random: &mut Random) {
    for size in next_to_powers(2).into_iter().filter(|size| *size > 40) {
        for (turn, at) in some_places(size, random).into_iter().enumerate() {
            let [one, two] = [KNOWN[turn % 2], KNOWN[(turn + 1) % 2]];
            for proof in [made_inclusion(one, at, size, random), made_consistency(two, at + 1, size, random)] {
                proof.ask(requests);
                let kinds = [damaged(&proof, random), damaged_nodes(&proof, random), damaged_lengths(&proof, random)];
                for others in kinds.iter().filter(|others| !others.is_empty()) {
                    random.pick(others).ask(requests);
                }
            }
            for algorithm in KNOWN {
                let byte = turn as u8;
                for proof in [plain_inclusion(algorithm, at, size, byte), plain_consistency(algorithm, at + 1, size, byte)] {
                    judged(&proof).iter().for_each(|(_, proof)| proof.ask(requests));
                }
            }
        }
    }
}

// Random requests.

/// Leaves and their count.
fn random_leaves(random: &mut Random) -> (Word, u64) {
    let count = match random.below(40) {
        0..=25 => random.below(12),
        26..=37 => random.below(41),
        38 => random.below(300),
        _ => 1 << random.below(9),
    };
    let byte = random.byte();
    if random.one_in(20) {
        let length = 32 * count + random.below(32);
        return (bytes(&random.bytes(length as usize)), count);
    }
    if random.one_in(5) {
        return (repeated(32 * count as usize, byte), count);
    }
    (bytes(&random.bytes(32 * count as usize)), count)
}

/// About the room that is needed.
fn random_room(needed: u64, random: &mut Random) -> Word {
    let room = match random.below(6) {
        0 => random.below(needed + 1),
        1 => needed.saturating_sub(1),
        2 => needed + random.below(70),
        _ => needed,
    };
    repeated(room as usize, random.byte())
}

/// Both known numbers about equally, and some that no hash has.
fn random_algorithm(random: &mut Random) -> Word {
    number(algorithm::mostly(algorithm::some(random), random))
}

fn random_root(random: &mut Random) -> Vec<Word> {
    let (leaves, _) = random_leaves(random);
    vec![random_algorithm(random), leaves, random_room(32, random)]
}

fn random_built_path(random: &mut Random, (_, smallest, count): PathEntry) -> Vec<Word> {
    let (leaves, size) = random_leaves(random);
    let at = match random.below(20) {
        0 => size,
        1 => size + 1,
        2 => random.draw() >> random.below(64),
        3 => 0,
        _ => smallest + random.below(size.max(1)),
    };
    let fits = at >= smallest && at < size + smallest;
    let needed = if fits { 32 * count(at, size) as u64 } else { 64 };
    vec![random_algorithm(random), leaves, number(at), random_room(needed, random)]
}

fn random_path(random: &mut Random) -> Vec<Word> {
    random_built_path(random, PATH_ENTRIES[0])
}

fn random_consistency_path(random: &mut Random) -> Vec<Word> {
    random_built_path(random, PATH_ENTRIES[1])
}

fn random_inclusion(random: &mut Random) -> Vec<Word> {
    proofs::random_inclusion(random).words()
}

fn random_consistency(random: &mut Random) -> Vec<Word> {
    proofs::random_consistency(random).words()
}

/// A number of any length in bits, or one next to a power of two.
fn any_number(random: &mut Random) -> u64 {
    if random.one_in(2) {
        return random.draw() >> random.below(64);
    }
    near_power(random)
}

/// A place or first size, and a size: half of the time in range, else next to each other or any two.
fn random_numbers(random: &mut Random) -> Vec<Word> {
    let size = any_number(random);
    let at = match random.below(4) {
        0 => any_number(random),
        1 => size.wrapping_add(random.below(5)).wrapping_sub(2),
        _ => random.below(size.max(1)),
    };
    vec![number(at), number(size)]
}

fn random_subproof_count(random: &mut Random) -> Vec<Word> {
    let mut words = random_numbers(random);
    words.push(number(random.below(2)));
    words
}

#[cfg(test)]
mod tests {
    use super::*;
    use crate::requests::{answer, layer};
    use std::collections::BTreeSet;

    fn ask(line: &str) -> String {
        String::from_utf8(answer(&[layer("tree").unwrap()], line.as_bytes())).unwrap()
    }

    #[test]
    fn answers() {
        let (five, empty) = ("05".repeat(32), "e3b0c44298fc1c149afbf4c8996fb92427ae41e4649b934ca495991b7852b855");
        assert_eq!(ask("root 0 x 33*07"), format!("0 32 x{empty}07\n"));
        assert_eq!(ask("root 240 32*05 32*00"), format!("0 32 x{five}\n"));
        assert_eq!(ask("root 0 32*05 1*00"), "9 0 x00\n");
        assert_eq!(ask("path 0 64*05 1 33*07"), format!("0 32 x{five}07\n"));
        assert_eq!(ask("path 0 64*05 2 1*07"), "6 0 x07\n");
        assert_eq!(ask("consistency_path 240 64*05 2 1*07"), "0 0 x07\n");
        assert_eq!(ask("inclusion 0 32*05 0 1 32*05 x"), "0\n");
        assert_eq!(ask("consistency 0 4 4 32*05 32*06 x"), "8\n");
        let empty = "1ab21d8355cfa17f8e61194831e81a8f22bec8c728fefb747ed035eb5082aa2b";
        assert_eq!(ask("root 240 x 33*07"), format!("0 32 x{empty}07\n"));
        assert_eq!(ask("root 1 x 33*07"), format!("16 0 x{}\n", "07".repeat(33)));
        assert_eq!(ask("path 256 64*05 2 1*07"), "16 0 x07\n");
        assert_eq!(ask("consistency_path 496 64*05 2 1*07"), "16 0 x07\n");
        assert_eq!(ask("inclusion 241 32*05 0 1 32*05 x"), "16\n");
        assert_eq!(ask("consistency 18446744073709551615 4 4 32*05 32*06 x"), "16\n");
        assert_eq!(ask("inclusion_count 6 7"), "2\n");
        assert_eq!(ask("subproof_count 4 7 1"), "1\n");
        assert_eq!(ask("subproof_count 4 7 0"), "2\n");
        assert_eq!(ask("subproof_count 4 7 2"), "?\n");
    }

    fn ask_proof(proof: &Proof) -> String {
        let mut requests = Vec::new();
        proof.ask(&mut Requests::new(&mut requests));
        ask(String::from_utf8(requests).unwrap().trim_end())
    }

    #[test]
    fn full_size_cases_have_their_numbers() {
        for (number, proof) in KNOWN.into_iter().flat_map(full_size_cases) {
            assert_eq!(ask_proof(&proof), format!("{number}\n"), "{:?}", proof.numbers);
        }
    }

    #[test]
    fn second_hash_cases_have_their_numbers() {
        let all = second_hash_cases(true);
        for (refusal, (name, words)) in &all {
            let mut requests = Vec::new();
            Requests::new(&mut requests).ask(name, words);
            let answer = ask(String::from_utf8(requests).unwrap().trim_end());
            assert_eq!(answer.split_whitespace().next().unwrap(), refusal.to_string(), "{name} {words:?}");
        }
        // Each entry gives each of its numbers, and 16 where it would.
        for (entry, numbers) in [
            ("root", &[0, 9, 10, 16][..]),
            ("path", &[0, 6, 9, 10, 16]),
            ("consistency_path", &[0, 6, 9, 10, 16]),
            ("inclusion", &[0, 5, 6, 7, 8, 10, 16]),
            ("consistency", &[0, 5, 6, 7, 8, 10, 16]),
        ] {
            let met: BTreeSet<u64> = all.iter().filter(|(_, asked)| asked.0 == entry).map(|(refusal, _)| *refusal).collect();
            assert_eq!(met.into_iter().collect::<Vec<_>>(), numbers, "{entry}");
        }
    }

    /// Made proofs as they are read, of any nodes and of nodes of one byte, which are written shorter.
    #[test]
    fn made_proofs_are_accepted() {
        let random = &mut Random::new(1);
        for size in next_to_powers(1).into_iter().filter(|size| *size > 1) {
            for (turn, at) in [0, size / 2, size - 1].into_iter().enumerate() {
                let [one, two] = [KNOWN[turn % 2], KNOWN[(turn + 1) % 2]];
                let made = [made_inclusion(one, at, size, random), made_consistency(two, at + 1, size, random)];
                let plain = [plain_inclusion(two, at, size, 9), plain_consistency(one, at + 1, size, 9)];
                for (number, proof) in made.iter().chain(&plain).flat_map(judged) {
                    assert_eq!(ask_proof(&proof), format!("{number}\n"), "{:?}", proof.numbers);
                }
            }
        }
    }
}
