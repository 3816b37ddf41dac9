//! Both verdicts and mta_root, by both hashes and by numbers that no hash has.

use crate::compare::{show, Lent, Tally};
use crate::hash::some_number;
use mta::{mta_consistency, mta_inclusion, mta_root};
use reference::algorithm::{known, KNOWN, UNKNOWN};
use reference::proofs::{
    damaged, damaged_lengths, damaged_nodes, judged, made_consistency, made_inclusion, next_to_powers, random_consistency,
    random_inclusion, some_places, Proof, LARGE,
};
use reference::random::Random;
use reference::tree::{build_root, MOST_LEAVES};
use std::ffi::{c_int, c_void};

/// The number must be the recursive definition's, and what is accepted that of
/// RFC 9162's bottom-up algorithms. It is told.
fn verdict(proof: &Proof, tally: &mut Tally, random: &mut Random) -> u64 {
    let (expected, by) = (proof.number(), proof.algorithm);
    let ([one, two], [first, second], path) = (proof.numbers, &proof.hashes, &proof.path);
    let [mut a, mut b, mut c] = [first, second, path].map(|bytes| Lent::new(bytes, random));
    let found = unsafe {
        if proof.is_inclusion {
            mta_inclusion(by, a.pointer(), a.length(), one, two, b.pointer(), b.length(), c.pointer(), c.length())
        } else {
            mta_consistency(by, one, two, a.pointer(), a.length(), b.pointer(), b.length(), c.pointer(), c.length())
        }
    };
    let entry = if proof.is_inclusion { "mta_inclusion" } else { "mta_consistency" };
    let is_memory_right = a.holds(first) && b.holds(second) && c.holds(path);
    tally.count(entry, expected, found, is_memory_right, || format!("{:?}", proof.words()));
    expected
}

/// Sizes next to every power of two, up to 2^64 - 1: what is accepted and what is
/// refused at all kinds of places; then every fault of some.
fn verdict_edges(tally: &mut Tally, random: &mut Random) {
    let mut longest = [0; 2];
    for size in next_to_powers(1) {
        let places = if size > 1 { some_places(size, random) } else { (0..size).collect() };
        for (turn, place) in places.into_iter().enumerate() {
            let [one, two] = [KNOWN[turn % 2], KNOWN[(turn + 1) % 2]];
            for proof in [made_inclusion(one, place, size, random), made_consistency(two, place + 1, size, random)] {
                for (number, one) in judged(&proof) {
                    assert_eq!(verdict(&one, tally, random), number);
                }
                let longest = &mut longest[proof.is_inclusion as usize];
                *longest = proof.path.len().max(*longest);
            }
        }
    }
    assert_eq!(longest, [32 * 65, 32 * 64]);
    for (turn, size) in LARGE.into_iter().enumerate() {
        let [one, two] = [KNOWN[turn % 2], KNOWN[(turn + 1) % 2]];
        for proof in [made_inclusion(one, size / 3, size, random), made_consistency(two, size / 3, size, random)] {
            let all = [damaged(&proof, random), damaged_nodes(&proof, random), damaged_lengths(&proof, random)].concat();
            for one in &all {
                verdict(one, tally, random);
                // 16 before all else.
                let unknown = one.with(|p| p.algorithm = UNKNOWN[turn % UNKNOWN.len()]);
                assert_eq!(verdict(&unknown, tally, random), 16);
            }
        }
    }
    // By hand: a root of 31 bytes.
    let proof = made_inclusion(0xf0, 0, 3, random).with(|p| p.hashes[1].truncate(31));
    let numbers = [0xef, 0xf0, 0x1f0, 0x00, 0x01].map(|by| verdict(&proof.with(|p| p.algorithm = by), tally, random));
    assert_eq!(numbers, [16, 5, 16, 5, 16]);
}

fn root(by: u64, leaves: &[u8], out: &[u8], tally: &mut Tally, random: &mut Random) {
    let mut after = out.to_vec();
    let expected = known(by).and_then(|h| build_root(h, leaves, &mut after)).err().unwrap_or(0);
    let (mut a, mut b) = (Lent::new(leaves, random), Lent::new(out, random));
    let found = unsafe { mta_root(by, a.pointer(), a.length(), b.pointer(), b.length()) };
    let is_memory_right = a.holds(leaves) && b.holds(&after);
    tally.count("mta_root", expected, found, is_memory_right, || format!("by {by:#x}, {}, out of {}", show(leaves), out.len()));
}

extern "C" {
    fn mmap(at: *mut c_void, length: usize, protection: c_int, flags: c_int, file: c_int, offset: i64) -> *mut c_void;
    fn munmap(at: *mut c_void, length: usize) -> c_int;
}

/// Over 2^32 leaves, and lengths near it that are no multiple of 32: addresses
/// without memory, since no leaf is read.
fn too_many_leaves(tally: &mut Tally, random: &mut Random) {
    const MOST: usize = 32 * MOST_LEAVES as usize;
    const PRIVATE_ANONYMOUS_NO_RESERVE: c_int = 0x02 | 0x20 | 0x4000;
    let space = unsafe { mmap(std::ptr::null_mut(), MOST + 64, 0, PRIVATE_ANONYMOUS_NO_RESERVE, -1, 0) };
    assert!(space as isize != -1, "no addresses for 2^32 leaves");
    for length in [MOST - 1, MOST + 1, MOST + 32, MOST + 64] {
        for (out, by) in [0, 31, 32].into_iter().flat_map(|out| KNOWN.into_iter().chain(UNKNOWN).map(move |by| (out, by))) {
            let content = random.bytes(out);
            let mut lent = Lent::new(&content, random);
            let found = unsafe { mta_root(by, space as *const u8, length, lent.pointer(), lent.length()) };
            let expected = if KNOWN.contains(&by) { 10 } else { 16 };
            tally.count("mta_root", expected, found, lent.holds(&content), || format!("by {by:#x}, {length} bytes, out of {out}"));
        }
    }
    unsafe { munmap(space, MOST + 64) };
}

pub fn edges(tally: &mut Tally, random: &mut Random) {
    verdict_edges(tally, random);
    for count in 0..=140 {
        let leaves = random.bytes(32 * count);
        for by in KNOWN.into_iter().chain([UNKNOWN[count % UNKNOWN.len()]]) {
            for out in [32, 33, 100] {
                root(by, &leaves, &random.bytes(out), tally, random);
            }
            for out in [0, 1, 31] {
                root(by, &leaves, &random.bytes(out), tally, random);
                root(by, &leaves[1.min(leaves.len())..], &random.bytes(out), tally, random);
            }
            for add in [1, 16, 31] {
                root(by, &[&leaves[..], &random.bytes(add)].concat(), &random.bytes(40), tally, random);
            }
        }
    }
    for count in [255, 256, 257, 1_000, 1_023, 1_024, 1_025, 4_095, 4_097, 65_535, 65_536, 65_537] {
        let leaves = random.bytes(32 * count);
        for by in KNOWN {
            root(by, &leaves, &random.bytes(40), tally, random);
        }
        for by in [0x00, 0xf0, 0x100] {
            root(by, &leaves, &random.bytes(31), tally, random);
            root(by, &leaves[..32 * count - 1], &random.bytes(40), tally, random);
        }
    }
    too_many_leaves(tally, random);
}

pub fn some_verdict(tally: &mut Tally, random: &mut Random) {
    let proof = if random.one_in(2) { random_inclusion(random) } else { random_consistency(random) };
    verdict(&proof, tally, random);
}

pub fn some(tally: &mut Tally, random: &mut Random) {
    let most = *random.pick(&[10, 40, 40, 150]);
    let leaves = 32 * random.below(most) + if random.one_in(6) { random.below(32) } else { 0 };
    let out = if random.one_in(6) { random.below(32) } else { random.between(32, 80) };
    let (leaves, out) = (random.bytes(leaves as usize), random.bytes(out as usize));
    root(some_number(random), &leaves, &out, tally, random);
}
