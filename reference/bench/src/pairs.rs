//! The verdicts, the root and the items, each beside one other way of the same
//! work: ours and the other in turn.

use crate::library::OURS;
use crate::{best, ratio};
use mta::{mta_carry, mta_compare, mta_consistency_item, mta_item, mta_node, mta_root};
use reference::algorithm::SHA256;
use reference::carry::{carry, PAIR};
use reference::item::{self, Fields, LONGEST_PATH};
use reference::layers::carry::Carry;
use reference::proofs::{made_consistency, made_inclusion, Proof};
use reference::random::Random;
use reference::sha256::digest;
use reference::tree::{self, Hash, LARGEST_SIZE};
use reference::verdict::Inclusion;
use std::hint::black_box;
use std::time::Instant;

/// Many short turns, so that some of each are undisturbed; fewer of the root.
pub const TURNS: usize = 10_001;
pub const TURNS_OF_ROOT: usize = 101;
pub const TURN_NANOSECONDS: f64 = 20_000.0;

enum Target {
    /// Our time divided by the other's.
    AtMost(f64),
    /// The other's time divided by ours.
    AtLeast(f64),
    /// The other's time divided by ours, for knowledge.
    Open,
}

struct Pair {
    name: String,
    other_name: String,
    ours: Box<dyn FnMut()>,
    other: Box<dyn FnMut()>,
    target: Target,
}

pub fn node(left: &Hash, right: &Hash) -> Hash {
    let mut out = [0; 32];
    assert_eq!(unsafe { mta_node(SHA256, left.as_ptr(), 32, right.as_ptr(), 32, out.as_mut_ptr(), 32) }, 0);
    out
}

/// So many node hashes, each of the one before.
pub fn bare_nodes(count: usize) {
    let (mut hash, right) = ([7; 32], [8; 32]);
    for _ in 0..count {
        hash = node(black_box(&hash), black_box(&right));
    }
    black_box(hash);
}

/// The node hashes that the definition needs: one for each node of an inclusion
/// path; for consistency one at each split, and one more where the first size
/// reaches into the second part.
pub fn needed(proof: &Proof) -> usize {
    if proof.is_inclusion {
        return proof.path.len() / 32;
    }
    let ([mut first, mut second], mut count) = (proof.numbers, 0);
    while first < second {
        let k = tree::split(second);
        if first <= k {
            (second, count) = (k, count + 1);
        } else {
            (first, second, count) = (first - k, second - k, count + 2);
        }
    }
    count
}

/// Ones and zeros in turn, as many as the last place has.
pub fn alternating(size: u64) -> u64 {
    0xaaaa_aaaa_aaaa_aaaa >> (size - 1).leading_zeros()
}

/// Proofs at sizes whose paths have 10, 20 and 32 nodes, and the longest ones.
pub fn verdicts(random: &mut Random) -> Vec<(String, Proof)> {
    let mut all = Vec::new();
    for nodes in [10, 20, 32] {
        let size = 1 << nodes;
        all.push(("inclusion", made_inclusion(SHA256, alternating(size), size, random)));
    }
    all.push(("inclusion", made_inclusion(SHA256, 0, LARGEST_SIZE, random)));
    for nodes in [10, 20, 32] {
        let size = 1 << nodes;
        all.push(("consistency", made_consistency(SHA256, alternating(size), size, random)));
    }
    all.push(("consistency from 3", made_consistency(SHA256, 3, LARGEST_SIZE, random)));
    for nodes in [10, 20, 32] {
        all.push(("consistency from 1", made_consistency(SHA256, 1, 1 << nodes, random)));
    }
    all.into_iter().map(|(name, proof)| (format!("{name}, {} nodes", proof.path.len() / 32), proof)).collect()
}

fn judged(name: String, proof: Proof) -> Pair {
    let (hashes, most) = (needed(&proof), if proof.is_inclusion { 1.05 } else { 1.08 });
    Pair {
        name,
        other_name: format!("{hashes} node hashes"),
        ours: Box::new(move || assert_eq!(OURS.judge(black_box(&proof)), 0)),
        other: Box::new(move || bare_nodes(hashes)),
        target: Target::AtMost(most),
    }
}

/// An inclusion proof of place 0, a consistency proof to the next size, and the path there.
#[derive(Clone)]
struct Log {
    one: Carry,
    longer: Vec<u8>,
}

impl Log {
    fn new(size: u64, random: &mut Random) -> Log {
        let one = Carry::made(SHA256, 0, size - 1, size, random);
        let ([leaf, root], [_, new]) = (&one.old.hashes, &one.step.hashes);
        let old = Inclusion { leaf, place: 0, size: size - 1, root, path: &one.old.path };
        let mut longer = vec![0; one.lent];
        carry(digest, &old, size, new, &one.step.path, &mut longer, &mut [0; PAIR]).unwrap();
        Log { one, longer }
    }

    fn judged(&self) {
        assert_eq!(OURS.judge(&self.one.old), 0);
    }

    fn carried(&self) {
        let (mut out, mut pair, mut written, mut collided) = ([0; 2048], [0; PAIR], 0, true);
        let Carry { old, step, .. } = &self.one;
        let number = unsafe {
            mta_carry(
                SHA256,
                old.hashes[0].as_ptr(),
                32,
                0,
                old.numbers[1],
                step.numbers[1],
                old.hashes[1].as_ptr(),
                32,
                step.hashes[1].as_ptr(),
                32,
                old.path.as_ptr(),
                old.path.len(),
                step.path.as_ptr(),
                step.path.len(),
                out.as_mut_ptr(),
                self.longer.len(),
                pair.as_mut_ptr(),
                pair.len(),
                &mut written,
                &mut collided,
            )
        };
        assert_eq!((number, collided, &out[..written as usize]), (0, false, &self.longer[..]));
    }

    fn compared(&self) {
        let (mut pair, mut collided) = ([0; PAIR], true);
        let old = &self.one.old;
        let (leaf, path) = (old.hashes[0].as_ptr(), old.path.as_ptr());
        let number = unsafe {
            mta_compare(
                SHA256,
                0,
                old.numbers[1],
                old.hashes[1].as_ptr(),
                32,
                leaf,
                32,
                path,
                old.path.len(),
                leaf,
                32,
                path,
                old.path.len(),
                pair.as_mut_ptr(),
                pair.len(),
                &mut collided,
            )
        };
        assert_eq!((number, collided), (0, false));
    }
}

fn forward(random: &mut Random) -> Vec<Pair> {
    let mut all = Vec::new();
    for (levels, size) in [(32, 1 << 32), (64, LARGEST_SIZE)] {
        let log = Log::new(size, random);
        let mut pair = |name: &str, job: fn(&Log)| {
            let (one, two) = (log.clone(), log.clone());
            all.push(Pair {
                name: format!("{name}, {levels} levels"),
                other_name: "inclusion verdict".to_string(),
                ours: Box::new(move || job(black_box(&one))),
                other: Box::new(move || black_box(&two).judged()),
                target: Target::AtMost(4.0),
            });
        };
        pair("carry", Log::carried);
        pair("compare", Log::compared);
    }
    all
}

fn plain_root(leaves: &[Hash]) -> Hash {
    match leaves {
        [] => digest(&[]),
        [one] => *one,
        _ => {
            let (first, rest) = leaves.split_at(leaves.len().next_power_of_two() / 2);
            node(&plain_root(first), &plain_root(rest))
        }
    }
}

fn our_root(joined: &[u8]) -> Hash {
    let mut out = [0; 32];
    assert_eq!(unsafe { mta_root(SHA256, joined.as_ptr(), joined.len(), out.as_mut_ptr(), 32) }, 0);
    out
}

fn root(random: &mut Random) -> Pair {
    let leaves: Vec<Hash> = (0..65_536).map(|_| random.hash()).collect();
    let joined = leaves.concat();
    assert_eq!(our_root(&joined), plain_root(&leaves));
    assert_eq!(our_root(&joined), tree::root(digest, &leaves));
    Pair {
        name: "root, 65,536 leaves".to_string(),
        other_name: "recursion in Rust".to_string(),
        ours: Box::new(move || {
            black_box(our_root(black_box(&joined)));
        }),
        other: Box::new(move || {
            black_box(plain_root(black_box(&leaves)));
        }),
        target: Target::AtLeast(0.90),
    }
}

fn our_read(input: &[u8]) {
    let mut place = 1;
    assert_eq!(unsafe { mta_item(input.as_ptr(), input.len(), &mut place) }, 0);
}

fn our_write(f: &Fields, out: &mut [u8]) {
    let mut length = 0;
    let (log, path) = (&f.log_id, &f.path);
    let number = unsafe {
        mta_consistency_item(log.as_ptr(), log.len(), f.size, f.second, path.as_ptr(), path.len(), out.as_mut_ptr(), out.len(), &mut length)
    };
    assert_eq!((number, length), (0, out.len() as u64));
}

fn other_read(input: &[u8]) {
    assert!(black_box(item::read(input)).is_ok());
}

fn other_write(fields: &Fields, out: &mut [u8]) {
    assert_eq!(item::write(0x0105, fields, out), Ok(out.len()));
}

/// Read, written, and both. The fields lie ready for both writers.
fn items(random: &mut Random) -> Vec<Pair> {
    let fields = Fields { log_id: random.bytes(32), size: 5, second: 9, path: random.bytes(LONGEST_PATH), ..Fields::default() };
    let input = item::encode(0x0105, &fields).unwrap();
    let mut out = vec![0; input.len()];
    our_write(&fields, &mut out);
    assert_eq!(out, input);
    let pair = |name: &str, is_read: bool, is_written: bool, target: Target| {
        let job = |read: fn(&[u8]), write: fn(&Fields, &mut [u8])| -> Box<dyn FnMut()> {
            let (fields, input, mut out) = (fields.clone(), input.clone(), out.clone());
            Box::new(move || {
                if is_read {
                    read(black_box(&input));
                }
                if is_written {
                    write(black_box(&fields), black_box(&mut out));
                }
            })
        };
        let other_name = "reference".to_string();
        Pair { name: name.to_string(), other_name, ours: job(our_read, our_write), other: job(other_read, other_write), target }
    };
    vec![
        pair("1,985 nodes read", true, false, Target::Open),
        pair("1,985 nodes written", false, true, Target::Open),
        pair("1,985 nodes, both", true, true, Target::AtLeast(0.8)),
    ]
}

/// Nanoseconds of one of so many times.
pub fn time(job: &mut dyn FnMut(), times: usize) -> f64 {
    let start = Instant::now();
    for _ in 0..times {
        job();
    }
    start.elapsed().as_nanos() as f64 / times as f64
}

pub fn print_table() {
    let random = &mut Random::new(7);
    let mut pairs: Vec<Pair> = verdicts(random).into_iter().map(|(name, proof)| judged(name, proof)).collect();
    pairs.extend(forward(random));
    pairs.push(root(random));
    pairs.extend(items(random));

    println!("{TURNS} turns of each, of the root {TURNS_OF_ROOT}; nanoseconds of the best turn");
    println!("ratio, of the best turns (and the median of each turn's): of a verdict our time / the time of the bare node hashes,");
    println!("of carrying and comparing our time / the inclusion verdict's,");
    println!("of the others the other's time / ours");
    println!();
    println!("{:<30}{:>14}  {:<20}{:>14}{:>18}  target", "", "ours", "other", "", "ratio");
    for mut pair in pairs {
        let one = best(&[0; 3].map(|_| time(&mut pair.other, 1)));
        let times = ((TURN_NANOSECONDS / one) as usize).max(1);
        let turns = if one < 1e6 { TURNS } else { TURNS_OF_ROOT };
        let (mut ours, mut other) = (Vec::new(), Vec::new());
        for _ in 0..turns {
            ours.push(time(&mut pair.ours, times));
            other.push(time(&mut pair.other, times));
        }
        let (above, below, target) = match pair.target {
            Target::AtMost(most) => (&ours, &other, format!("at most {most:.2}")),
            Target::AtLeast(least) => (&other, &ours, format!("at least {least:.2}")),
            Target::Open => (&other, &ours, String::new()),
        };
        let ratio = ratio(above, below);
        let line = format!("{:<30}{:>14.1}  {:<20}{:>14.1}{ratio:>18}  {target}", pair.name, best(&ours), pair.other_name, best(&other));
        println!("{}", line.trim_end());
    }
}
