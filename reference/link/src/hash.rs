//! mta_digest, mta_leaf, mta_node, by both hashes and by numbers that no hash has, mta_step and
//! mta_sm3_step.

use crate::compare::{show, Lent, Tally};
use mta::{mta_digest, mta_leaf, mta_node, mta_sm3_step, mta_step};
use reference::algorithm::{self, KNOWN, SHA256, SM3, UNKNOWN};
use reference::random::Random;
use reference::tree::{leaf_hash, node_hash, Hash, HashFunction};
use reference::{sha256, sm3};

/// The longest item, and the longest hash input: one more for the 0x00.
const LONGEST_ITEM: usize = 33_554_432;
const LONGEST_INPUT: usize = 33_554_433;

struct Into {
    name: &'static str,
    entry: unsafe extern "C" fn(u64, *const u8, usize, *mut u8, usize) -> u32,
    longest: usize,
    hash: fn(HashFunction, &[u8]) -> Hash,
}

const DIGEST: Into = Into { name: "mta_digest", entry: mta_digest, longest: LONGEST_INPUT, hash: |h, input| h(input) };
const LEAF: Into = Into { name: "mta_leaf", entry: mta_leaf, longest: LONGEST_ITEM, hash: leaf_hash };

/// Checks 16, 1, then 9.
fn into(which: &Into, by: u64, input: &[u8], out: &[u8], tally: &mut Tally, random: &mut Random) -> u64 {
    let mut after = out.to_vec();
    let expected = match algorithm::hash(by) {
        None => 16,
        Some(_) if input.len() > which.longest => 1,
        Some(_) if out.len() < 32 => 9,
        Some(h) => {
            after[..32].copy_from_slice(&(which.hash)(h, input));
            0
        }
    };
    let (mut a, mut b) = (Lent::new(input, random), Lent::new(out, random));
    let found = unsafe { (which.entry)(by, a.pointer(), a.length(), b.pointer(), b.length()) };
    let is_memory_right = a.holds(input) && b.holds(&after);
    tally.count(which.name, expected, found, is_memory_right, || format!("by {by:#x}, {}, out of {}", show(input), out.len()));
    expected
}

/// Checks 16, 5, then 9.
fn node(by: u64, left: &[u8], right: &[u8], out: &[u8], tally: &mut Tally, random: &mut Random) {
    let mut after = out.to_vec();
    let expected = match (algorithm::hash(by), left.try_into(), right.try_into()) {
        (None, _, _) => 16,
        (Some(_), Ok(_), Ok(_)) if out.len() < 32 => 9,
        (Some(h), Ok(left), Ok(right)) => {
            after[..32].copy_from_slice(&node_hash(h, left, right));
            0
        }
        _ => 5,
    };
    let [mut a, mut b, mut c] = [left, right, out].map(|bytes| Lent::new(bytes, random));
    let found = unsafe { mta_node(by, a.pointer(), a.length(), b.pointer(), b.length(), c.pointer(), c.length()) };
    let is_memory_right = a.holds(left) && b.holds(right) && c.holds(&after);
    tally.count("mta_node", expected, found, is_memory_right, || {
        format!("by {by:#x}, {}, {}, out of {}", show(left), show(right), out.len())
    });
}

type StepEntry = unsafe extern "C" fn(*mut u32, usize, *const u8, usize, *mut u32, usize) -> u32;

/// A block step that works in so many words.
struct Step<const WORDS: usize> {
    name: &'static str,
    entry: StepEntry,
    step: fn(&mut [u32; 8], &[u8; 64], &mut [u32; WORDS]),
    initial: [u32; 8],
}

const SHA256_STEP: Step<64> = Step { name: "mta_step", entry: mta_step, step: sha256::step, initial: sha256::INITIAL };
const SM3_STEP: Step<{ sm3::WORDS }> = Step { name: "mta_sm3_step", entry: mta_sm3_step, step: sm3::step, initial: sm3::INITIAL };

/// Checks 5, then 9.
fn step<const WORDS: usize>(
    which: &Step<WORDS>,
    state: &[u32],
    block: &[u8],
    schedule: &[u32],
    tally: &mut Tally,
    random: &mut Random,
) -> (u64, Vec<u32>, Vec<u32>) {
    let (mut state_after, mut schedule_after) = (state.to_vec(), schedule.to_vec());
    let shapes = (
        <&mut [u32; 8]>::try_from(&mut state_after[..]),
        <&[u8; 64]>::try_from(block),
        <&mut [u32; WORDS]>::try_from(&mut schedule_after[..]),
    );
    let expected = match shapes {
        (_, Err(_), _) => 5,
        (Ok(state), Ok(block), Ok(schedule)) => {
            (which.step)(state, block, schedule);
            0
        }
        _ => 9,
    };
    let (mut a, mut b, mut c) = (Lent::new(state, random), Lent::new(block, random), Lent::new(schedule, random));
    let found = unsafe { (which.entry)(a.pointer(), a.length(), b.pointer(), b.length(), c.pointer(), c.length()) };
    let is_memory_right = a.holds(&state_after) && b.holds(block) && c.holds(&schedule_after);
    tally.count(which.name, expected, found, is_memory_right, || format!("{state:x?}, {}, schedule of {}", show(block), schedule.len()));
    (expected, state_after, schedule_after)
}

fn step_edges<const WORDS: usize>(which: &Step<WORDS>, tally: &mut Tally, random: &mut Random) {
    for state in [0, 1, 7, 8, 9, 64] {
        for block in [0, 1, 32, 63, 64, 65, 128] {
            for schedule in [0, 1, 8, 63, 64, 65, 68, 128, 131, 132, 133] {
                let [state, schedule] = [state, schedule].map(|count| words(count, random));
                step(which, &state, &random.bytes(block), &schedule, tally, random);
            }
        }
    }
    for byte in [0u8, 1, 0x7f, 0x80, 255] {
        for word in [0, 1, 0x7fff_ffff, 0x8000_0000, u32::MAX] {
            step(which, &[word; 8], &[byte; 64], &[word; WORDS], tally, random);
            step(which, &which.initial, &[byte; 64], &[word; WORDS], tally, random);
        }
    }
}

/// GB/T 32905-2016, appendix A.1: `abc` padded is one block.
fn padded_abc(tally: &mut Tally, random: &mut Random) {
    let mut block = [0; 64];
    block[..4].copy_from_slice(b"abc\x80");
    block[63] = 24;
    let (number, state, words) = step(&SM3_STEP, &sm3::INITIAL, &block, &[0; sm3::WORDS], tally, random);
    assert_eq!((number, state[0], state[7]), (0, 0x66c7f0f4, 0x8f4ba8e0));
    let some = [0, 15, 16, 67, 68, 131].map(|at| words[at]);
    assert_eq!(some, [0x61626380, 0x18, 0x9092e200, 0xb99c0545, 0x61626380, 0x49e260d5]);
    step(&SHA256_STEP, &sha256::INITIAL, &block, &[0; 64], tally, random);
}

pub fn edges(tally: &mut Tally, random: &mut Random) {
    for which in [&DIGEST, &LEAF] {
        for by in KNOWN {
            for count in 0..=300 {
                let (input, out) = (random.bytes(count), random.bytes(32));
                into(which, by, &input, &out, tally, random);
            }
            for multiple in (320..=4_096).step_by(64) {
                for count in [multiple - 10, multiple - 9, multiple - 8, multiple - 2, multiple - 1, multiple, multiple + 1] {
                    let (input, out) = (random.bytes(count), random.bytes(33));
                    into(which, by, &input, &out, tally, random);
                }
            }
        }
        for by in KNOWN.into_iter().chain([1, 0x1f0]) {
            for input in [0, 1, 64, 100_000] {
                for out in (0..=70).chain([128, 1_000]) {
                    let (input, out) = (random.bytes(input), random.bytes(out));
                    into(which, by, &input, &out, tally, random);
                }
            }
        }
        // Every number of 16 bits, and each with one bit more than a known one.
        let powers = (0..64).flat_map(|bit| KNOWN.map(|known| known ^ 1 << bit));
        for by in (0..=0xffff).chain(powers).chain(UNKNOWN) {
            let expected = into(which, by, b"abc", &[7; 33], tally, random);
            assert_eq!(expected, if KNOWN.contains(&by) { 0 } else { 16 });
        }
    }
    // The limits, with and without room.
    let mut long: Vec<u8> = (0..LONGEST_INPUT + 1).map(|i| (i * 31 + i / 251) as u8).collect();
    assert_eq!(into(&DIGEST, 0x01, &long, &[7; 32], tally, random), 16);
    for count in (LONGEST_ITEM - 1..=LONGEST_INPUT + 1).rev() {
        long.truncate(count);
        for which in [&DIGEST, &LEAF] {
            // What is refused is not hashed, so all numbers come; else each hash has a room of its own.
            let calls = match count > which.longest {
                true => KNOWN.into_iter().chain(UNKNOWN).flat_map(|by| [(by, 0), (by, 31), (by, 40)]).collect(),
                false => vec![(SHA256, 0), (SM3, 31), (SHA256, 40), (SM3, 40), (1, 0), (0x100, 31), (0x1f0, 40)],
            };
            for (by, out) in calls {
                into(which, by, &long, &random.bytes(out), tally, random);
            }
        }
    }
    drop(long);
    for left in [0, 1, 31, 32, 33, 64] {
        for right in [0, 1, 31, 32, 33, 64] {
            for out in [0, 1, 31, 32, 33, 64, 300] {
                let [left, right, out] = [left, right, out].map(|count| random.bytes(count));
                for by in KNOWN.into_iter().chain(UNKNOWN) {
                    node(by, &left, &right, &out, tally, random);
                }
            }
        }
    }
    for byte in [0u8, 1, 0x7f, 0x80, 255] {
        for by in KNOWN {
            node(by, &[byte; 32], &[!byte; 32], &[byte; 32], tally, random);
            node(by, &[byte; 32], &[byte; 32], &[byte; 32], tally, random);
        }
    }
    step_edges(&SHA256_STEP, tally, random);
    step_edges(&SM3_STEP, tally, random);
    padded_abc(tally, random);
}

fn words(count: usize, random: &mut Random) -> Vec<u32> {
    (0..count).map(|_| random.draw() as u32).collect()
}

/// Mostly the right length.
fn length(right: usize, random: &mut Random) -> usize {
    match random.below(20) {
        0 => random.below(3 * right as u64) as usize,
        1 => right + 1,
        2 => right - 1,
        _ => right,
    }
}

/// Both numbers about equally, and some that no hash has.
pub fn some_number(random: &mut Random) -> u64 {
    algorithm::mostly(algorithm::some(random), random)
}

fn some_step<const WORDS: usize>(which: &Step<WORDS>, tally: &mut Tally, random: &mut Random) {
    let (state, block, schedule) = (length(8, random), length(64, random), length(WORDS, random));
    let (state, block, schedule) = (words(state, random), random.bytes(block), words(schedule, random));
    step(which, &state, &block, &schedule, tally, random);
}

pub fn some(tally: &mut Tally, random: &mut Random) {
    for which in [&DIGEST, &LEAF] {
        let most = *random.pick(&[130, 130, 400, 2_000]);
        let (input, out) = (random.below(most) as usize, length(32, random));
        let (input, out) = (random.bytes(input), random.bytes(out));
        into(which, some_number(random), &input, &out, tally, random);
    }
    let [left, right, out] = [32; 3].map(|right| {
        let count = length(right, random);
        random.bytes(count)
    });
    node(some_number(random), &left, &right, &out, tally, random);
    some_step(&SHA256_STEP, tally, random);
    some_step(&SM3_STEP, tally, random);
}
