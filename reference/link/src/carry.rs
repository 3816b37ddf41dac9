//! mta_carry and mta_compare, by both hashes and by numbers that no hash has. No two strings of
//! one SHA-256 or SM3 value are known, so no call here has `collided` set.

use crate::compare::{show, Lent, Tally};
use mta::{mta_carry, mta_compare};
use reference::algorithm::{self, known, KNOWN, UNKNOWN};
use reference::carry::{self, Carried, Compared, PAIR};
use reference::layers::carry::{some_carry, some_compared, Carry};
use reference::proofs::{damaged, damaged_lengths, damaged_nodes, made_inclusion, List, Proof, LARGE};
use reference::random::Random;
use reference::tree::LARGEST_SIZE;
use reference::verdict::Inclusion;

fn inclusion(proof: &Proof) -> Inclusion<'_> {
    let ([place, size], [leaf, root], path) = (proof.numbers, &proof.hashes, &proof.path);
    Inclusion { leaf, place, size, root, path }
}

/// The old size and root come from the inclusion proof. A refused call leaves both results as they were. The number that it must have.
fn carry(one: &Carry, tally: &mut Tally, random: &mut Random) -> u64 {
    let Carry { old, step, lent, pair } = one;
    let (out, pair) = (random.bytes(*lent), random.bytes(*pair));
    let (mut out_after, mut pair_after) = (out.clone(), pair.clone());
    let ([leaf, root], [_, new_root]) = (&old.hashes, &step.hashes);
    let by = old.algorithm;
    let answer =
        known(by).and_then(|h| carry::carry(h, &inclusion(old), step.numbers[1], new_root, &step.path, &mut out_after, &mut pair_after));
    let (length_before, flag_before) = (random.draw(), random.byte() & 1);
    let (expected, length, is_collision) = match answer {
        Ok(Carried::Path(length)) => (0, length as u64, 0),
        Ok(Carried::Collision) => (0, 0, 1),
        Err(number) => (number, length_before, flag_before),
    };
    assert!(expected == 0 || (&out_after, &pair_after) == (&out, &pair), "a refusal changes no byte");
    let [mut a, mut b, mut c] = [leaf, root, new_root].map(|bytes| Lent::new(bytes, random));
    let [mut d, mut e, mut f, mut g] = [&old.path, &step.path, &out, &pair].map(|bytes| Lent::new(bytes, random));
    let mut written = Lent::new(&[length_before], random);
    let mut collided = Lent::new(&[flag_before], random);
    let found = unsafe {
        mta_carry(
            by,
            a.pointer(),
            a.length(),
            old.numbers[0],
            old.numbers[1],
            step.numbers[1],
            b.pointer(),
            b.length(),
            c.pointer(),
            c.length(),
            d.pointer(),
            d.length(),
            e.pointer(),
            e.length(),
            f.pointer(),
            f.length(),
            g.pointer(),
            g.length(),
            written.pointer(),
            collided.pointer().cast(),
        )
    };
    let is_read_right = a.holds(leaf) && b.holds(root) && c.holds(new_root) && d.holds(&old.path) && e.holds(&step.path);
    let is_written_right = f.holds(&out_after) && g.holds(&pair_after) && written.holds(&[length]) && collided.holds(&[is_collision]);
    tally.count("mta_carry", expected, found, is_read_right && is_written_right, || {
        format!("{:?} to {:?}, out of {}, pair of {}", old.words(), step.words(), out.len(), pair.len())
    });
    expected
}

/// The place, size and root come from the first proof. A refused call leaves the result as it was. The number that it must have.
fn compare([one, two]: [&Proof; 2], pair: usize, tally: &mut Tally, random: &mut Random) -> u64 {
    let pair = random.bytes(pair);
    let mut after = pair.clone();
    let ([place, size], [leaf, root], [other, _]) = (one.numbers, &one.hashes, &two.hashes);
    let (flag_before, by) = (random.byte() & 1, one.algorithm);
    let (expected, is_collision) = match known(by).and_then(|h| carry::compare(h, &inclusion(one), other, &two.path, &mut after)) {
        Ok(Compared::Same) => (0, 0),
        Ok(Compared::Collision) => (0, 1),
        Err(number) => (number, flag_before),
    };
    assert!(expected == 0 || after == pair, "a refusal changes no byte");
    let [mut a, mut b, mut c] = [root, leaf, &one.path].map(|bytes| Lent::new(bytes, random));
    let [mut d, mut e, mut f] = [other, &two.path, &pair].map(|bytes| Lent::new(bytes, random));
    let mut collided = Lent::new(&[flag_before], random);
    let found = unsafe {
        mta_compare(
            by,
            place,
            size,
            a.pointer(),
            a.length(),
            b.pointer(),
            b.length(),
            c.pointer(),
            c.length(),
            d.pointer(),
            d.length(),
            e.pointer(),
            e.length(),
            f.pointer(),
            f.length(),
            collided.pointer().cast(),
        )
    };
    let is_read_right = a.holds(root) && b.holds(leaf) && c.holds(&one.path) && d.holds(other) && e.holds(&two.path);
    let is_written_right = f.holds(&after) && collided.holds(&[is_collision]);
    tally.count("mta_compare", expected, found, is_read_right && is_written_right, || {
        format!("{:?} with {}, {}, pair of {}", one.words(), show(other), show(&two.path), pair.len())
    });
    expected
}

/// A path that is carried, then with faults, without a place, and in rooms next to the path's length and to the pair's.
fn carry_and_damaged(one: &Carry, tally: &mut Tally, random: &mut Random) {
    for other in [vec![one.clone()], one.damaged(random)].concat() {
        carry(&other, tally, random);
        // 16 before all else.
        let by = algorithm::some_unknown(random);
        assert_eq!(carry(&other.with(|c| c.old.algorithm = by), tally, random), 16);
    }
    for place in [one.old.numbers[1], u64::MAX] {
        assert_eq!(carry(&one.with(|c| c.old.numbers[0] = place), tally, random), 6);
    }
    for lent in [0, 1, one.lent.saturating_sub(32), one.lent.saturating_sub(1), one.lent, one.lent + 1, one.lent + 32] {
        for pair in [0, PAIR - 1, PAIR, PAIR + 1] {
            let number = carry(&one.with(|c| (c.lent, c.pair) = (lent, pair)), tally, random);
            assert_eq!(number, if lent < one.lent || pair < PAIR { 9 } else { 0 });
        }
    }
}

/// A proof that is accepted with itself, without a place, and with faults in the first, in the second and in both.
fn compare_and_damaged(proof: &Proof, tally: &mut Tally, random: &mut Random) {
    for pair in [0, 1, 65, PAIR - 1, PAIR, PAIR + 1, 2 * PAIR] {
        assert_eq!(compare([proof, proof], pair, tally, random), if pair < PAIR { 9 } else { 0 });
    }
    for place in [proof.numbers[1], u64::MAX] {
        assert_eq!(compare([&proof.with(|p| p.numbers[0] = place), proof], PAIR, tally, random), 6);
    }
    let all = [damaged(proof, random), damaged_nodes(proof, random), damaged_lengths(proof, random)].concat();
    for other in &all {
        let pair = *random.pick(&[0, PAIR - 1, PAIR, PAIR + 9]);
        compare([proof, other], pair, tally, random);
        compare([other, proof], pair, tally, random);
        compare([other, random.pick(&all)], pair, tally, random);
        let by = algorithm::some_unknown(random);
        assert_eq!(compare([&other.with(|p| p.algorithm = by), proof], pair, tally, random), 16);
        assert_eq!(compare([&proof.with(|p| p.algorithm = by), other], pair, tally, random), 16);
    }
    for by in UNKNOWN {
        assert_eq!(compare([&proof.with(|p| p.algorithm = by), proof], PAIR, tally, random), 16);
    }
}

pub fn edges(tally: &mut Tally, random: &mut Random) {
    for (size, by) in (1..=9).flat_map(|size| KNOWN.map(|by| (size, by))) {
        let (list, another) = (List::random(by, size, random), List::random(by, size, random));
        for first in 1..=size as u64 {
            for place in 0..first {
                let one = Carry::of_list(&list, place, first);
                if (first + place + size as u64) % 2 == (by == KNOWN[0]) as u64 {
                    carry_and_damaged(&one, tally, random);
                } else {
                    carry(&one, tally, random);
                }
                // By the other hash only what no node was hashed for is right.
                let number = carry(&one.with(|c| c.old.algorithm = algorithm::other(by)), tally, random);
                assert_eq!(number, if size == 1 { 0 } else { 8 });
                // Two proofs that are accepted, under two roots.
                let other = Carry::of_list(&another, place, first);
                carry(&one.with(|c| c.step = other.step), tally, random);
            }
        }
        for place in 0..size as u64 {
            let proof = list.inclusion(place);
            if (place + size as u64) % 2 == (by == KNOWN[0]) as u64 {
                compare_and_damaged(&proof, tally, random);
            }
            for other in 0..size as u64 {
                compare([&proof, &list.inclusion(other)], PAIR, tally, random);
                compare([&proof, &another.inclusion(other)], PAIR, tally, random);
            }
        }
    }
    // To 2^32 and past it, then to the middle and to the end of the numbers.
    const PAST: u64 = (1 << 32) + 1;
    const HALF: u64 = 1 << 63;
    const LAST: u64 = LARGEST_SIZE;
    let mut longest = (0, 0);
    for (turn, (place, first, second)) in [
        (0, PAST - 2, PAST - 1),
        (PAST - 2, PAST - 1, PAST),
        (PAST - 1, PAST, PAST),
        (PAST - 1, PAST, HALF),
        (0, HALF - 1, HALF),
        (HALF - 2, HALF - 1, LAST - 1),
        (5, HALF, HALF + 1),
        (HALF - 1, HALF, LAST),
        (HALF, HALF + 1, LAST),
        (0, 1, LAST),
        (2, 3, LAST),
        (LAST / 3, LAST - 1, LAST),
        (LAST - 2, LAST - 1, LAST),
        (0, LAST, LAST),
        (LAST - 1, LAST, LAST),
    ]
    .into_iter()
    .enumerate()
    {
        let one = Carry::made(KNOWN[turn % 2], place, first, second, random);
        carry_and_damaged(&one, tally, random);
        compare_and_damaged(&made_inclusion(KNOWN[(turn + 1) % 2], place, first, random), tally, random);
        longest = (longest.0.max(one.lent), longest.1.max(one.step.path.len()));
    }
    assert_eq!(longest, (32 * 64, 32 * 65));
    let (one, proof) = (Carry::made(KNOWN[1], 2, 5, 9, random), made_inclusion(KNOWN[0], 2, 5, random));
    for large in [&[0][..], &LARGE].concat() {
        carry(&one.with(|c| c.old.numbers[0] = large), tally, random);
        carry(&one.with(|c| c.old.numbers[1] = large), tally, random);
        carry(&one.with(|c| c.step.numbers[1] = large), tally, random);
        for numbers in [[large, 5], [2, large], [large, large]] {
            compare([&Proof { numbers, ..proof.clone() }, &proof], PAIR, tally, random);
        }
    }
}

pub fn some(tally: &mut Tally, random: &mut Random) {
    let one = some_carry(random);
    carry(&one, tally, random);
    let ([one, two], pair) = some_compared(random);
    compare([&one, &two], pair, tally, random);
}
