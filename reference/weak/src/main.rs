//! weak SEED [COUNT]: the text of octets, tree, growing, carry and auditor, as Rust over two hashes of few
//! values, held against the reference on COUNT rounds of forged proofs and growing trees. Each kind
//! of collision and of refusal must come up by both hashes, each wrong edit must be found, and the translation must
//! refuse what it does not know. The last line is `N passed, M failed`; the status is not 0 where M is above 0.

mod code;
mod forge;
mod given;
mod growing;
mod hold;
mod texts;
/// The build's, tried here on texts.
#[allow(dead_code)]
mod translate;
mod zeros;
mod variants {
    include!(concat!(env!("OUT_DIR"), "/variants.rs"));
}

use code::{Code, COMPARED};
use hold::Hold;
use reference::algorithm::{self, mostly, some_unknown, KNOWN};
use reference::auditor::{disputes, Call, Dispute, Offer, PageCall, Second, Stored};
use reference::carry::PAIR;
use reference::item::LONGEST_ITEM;
use reference::proofs::next_to_powers;
use reference::random::Random;
use reference::servers::{spoil, with_strays, Server, KINDS};
use reference::tree::{HashFunction, LARGEST_SIZE};
use reference::yields;
use std::path::Path;
use zeros::{zeros, MOST};

/// How many bits of the hash are kept, in turn: one value, 2, 4, 8, 16, 64.
const BITS: [u32; 6] = [0, 1, 2, 3, 4, 6];

/// What must come up in every run.
const WANTED: &str = include_str!("../wanted.txt");

fn some_pair(random: &mut Random) -> Vec<u8> {
    let length = match random.below(10) {
        0 => PAIR - 1,
        1 => random.below(PAIR as u64) as usize,
        2..=5 => PAIR,
        _ => PAIR + random.between(1, 80) as usize,
    };
    random.bytes(length)
}

/// A buffer for so many bytes: exact, longer, a byte or a node short, or of any length.
fn some_out(needed: usize, random: &mut Random) -> Vec<u8> {
    let length = match random.below(10) {
        0 => needed.saturating_sub(1),
        1 => needed.saturating_sub(32),
        2 => random.below(needed as u64 + 1) as usize,
        3..=5 => needed,
        _ => needed + random.between(1, 80) as usize,
    };
    random.bytes(length)
}

/// One of the two numbers, with its hash.
fn some_hash(random: &mut Random) -> (u64, HashFunction) {
    let algorithm = algorithm::some(random);
    (algorithm, given::hashes(algorithm).unwrap())
}

/// The numbers of a few calls, mostly this one; where what they are about is damaged, all again by numbers that no hash has.
fn some_numbers(algorithm: u64, is_damaged: bool, random: &mut Random) -> Vec<[u64; 3]> {
    let mut all = vec![[(); 3].map(|()| mostly(algorithm, random))];
    if is_damaged {
        all.push([(); 3].map(|()| some_unknown(random)));
    }
    all
}

fn carry_round(hold: &mut Hold, random: &mut Random) {
    let (algorithm, h) = some_hash(random);
    let mut one = forge::step(h, random);
    let is_damaged = random.one_in(5);
    if is_damaged {
        one = forge::fault_step(one, random);
    }
    let needed = 32 * yields::inclusion_count(one.place, one.second);
    for numbers in some_numbers(algorithm, is_damaged, random) {
        hold.carry(numbers[0], &one, &some_out(needed, random), &some_pair(random));
        hold.inclusion(numbers[1], &one.leaf, one.place, one.first, &one.old, &one.path);
        hold.consistency(numbers[2], one.first, one.second, &one.old, &one.new, &one.proof);
    }
}

fn compare_round(hold: &mut Hold, random: &mut Random) {
    let (algorithm, h) = some_hash(random);
    let mut one = forge::two(h, random);
    let is_damaged = random.one_in(5);
    if is_damaged {
        one = forge::fault_two(one, random);
    }
    for numbers in some_numbers(algorithm, is_damaged, random) {
        hold.compare(numbers[0], &one, &some_pair(random));
        hold.inclusion(numbers[1], &one.leaves[1], one.place, one.size, &one.root, &one.paths[1]);
    }
}

fn dispute_round(hold: &mut Hold, random: &mut Random) {
    let (algorithm, h) = some_hash(random);
    let mut one = forge::dispute(h, random);
    let is_damaged = random.one_in(4);
    if is_damaged {
        one = forge::fault_dispute(one, random);
    }
    for numbers in some_numbers(algorithm, is_damaged, random) {
        hold.dispute(numbers[0], &one, &some_pair(random));
    }
}

fn tree_round(hold: &mut Hold, random: &mut Random) {
    let (algorithm, h) = some_hash(random);
    let count = random.below(41);
    let mut leaves = forge::any_nodes(h, count as usize, random).concat();
    if random.one_in(8) {
        spoil(&mut leaves, random);
    }
    let [place, first] = [0, 1].map(|_| random.below(count + 2));
    let is_path = count > 0 && place < count;
    let needed = if is_path && random.one_in(2) { 32 * yields::inclusion_count(place, count) } else { 32 * random.below(7) as usize };
    let out = some_out(needed, random);
    hold.builders(mostly(algorithm, random), &leaves, place, first, &out);
    hold.octets(&leaves, &out, random);
    hold.tools(&leaves, random);
}

/// A list of calls to one auditor, some by another number, and the dispute of every two accepted pages at one place, by the
/// number of the calls and at times by another.
fn list_round(hold: &mut Hold, random: &mut Random) {
    let (kind, most) = (*random.pick(&KINDS), *random.pick(&[8, 16, 32, 64, 64, LARGEST_SIZE]));
    let (algorithm, _) = some_hash(random);
    let calls = Server::random(given::hashes, algorithm, kind, most, random).calls(30, 20, random);
    let calls = with_strays(algorithm, calls, random);
    hold.empty();
    let mut record = Stored::EMPTY;
    let mut accepted = Vec::new();
    for (by, call) in &calls {
        let number = match call {
            Call::Offer(one) => {
                let (number, after) = hold.offer(*by, &record, one);
                record = after;
                number
            }
            Call::Page(one) => hold.ask(*by, &record, one),
        };
        accepted.push(number == 0);
    }
    hold.list_left(&record);
    let all = disputes(&calls, &accepted);
    for (by, one) in all.iter().take(12) {
        // Every accepted call went by the number that the record holds.
        assert_eq!(*by, record.algorithm);
        hold.dispute(*by, one, &some_pair(random));
        if random.one_in(8) {
            hold.dispute(if random.one_in(2) { algorithm::other(*by) } else { some_unknown(random) }, one, &some_pair(random));
        }
    }
    #[cfg(journal)]
    keep_journal(hold, &calls, &accepted, &all, random);
}

/// The heads of each dispute lie in the journal, from what is used at the first page to what is used at the second.
#[cfg(journal)]
fn keep_journal(hold: &mut Hold, calls: &[(u64, Call)], accepted: &[bool], all: &[(u64, Dispute)], random: &mut Random) {
    let mut journal = random.bytes(4000);
    let mut used = 0;
    let mut used_at = Vec::new();
    for ((_, call), accepted) in calls.iter().zip(accepted) {
        used_at.push(used);
        if let (Call::Offer(one), true) = (call, accepted) {
            let (answer, after) = hold.append(&journal, used, one.size, &one.root, &one.path);
            // What does not fit is refused and leaves all as it was: a longer one is lent.
            (used, journal) = match answer {
                Ok(end) => (end, after),
                Err(_) => {
                    let longer = [after, random.bytes(4000)].concat();
                    let (answer, after) = hold.append(&longer, used, one.size, &one.root, &one.path);
                    (answer.unwrap(), after)
                }
            };
        }
    }
    let parts = (0..calls.len()).flat_map(|second| (0..second).map(move |first| (first, second)));
    let pages = parts.filter(|(first, second)| match (&calls[*first].1, &calls[*second].1) {
        (Call::Page(one), Call::Page(two)) => accepted[*first] && accepted[*second] && one.place == two.place,
        _ => false,
    });
    let kept: Vec<&[u8]> = pages.map(|(first, second)| &journal[used_at[first]..used_at[second]]).collect();
    assert!(kept.iter().zip(all).all(|(kept, (_, one))| **kept == one.heads[..]) && kept.len() == all.len());
}

/// A head joined on in any place of a buffer of any length, damaged at times.
#[cfg(journal)]
fn journal_round(hold: &mut Hold, random: &mut Random) {
    let one = forge::step(some_hash(random).1, random);
    let (mut root, mut path) = (one.new, one.proof);
    match random.below(8) {
        0 => spoil(&mut root, random),
        1 => spoil(&mut path, random),
        _ => (),
    }
    let used = random.below(100) as usize;
    let journal = some_out(used + 42 + path.len(), random);
    let used = if random.one_in(20) { usize::MAX - random.below(50) as usize } else { used };
    let _ = hold.append(&journal, used, random.draw() >> random.below(64), &root, &path);
}

/// A record that no list of calls returns, with an offer and a page: its number is that of the proofs, or another, or that of no hash.
fn record_round(hold: &mut Hold, random: &mut Random) {
    let (algorithm, h) = some_hash(random);
    let mut record = Stored { held: !random.one_in(4), algorithm: mostly(algorithm, random), ..Stored::EMPTY };
    record.id.fill_with(|| random.below(2) as u8);
    record.id_length = *random.pick(&[0, 1, 2, 3, 126, 127, 128, u64::MAX]);
    // Small ones, or up to the last; one in four is equal.
    let earliest = if random.one_in(8) { u64::MAX - 3 } else { 0 };
    record.timestamp = earliest + random.below(3);
    let one = forge::step(h, random);
    (record.size, record.root) = (one.first, one.old[..].try_into().unwrap());
    let length = if random.one_in(4) { *random.pick(&[0, 1, 127, 128]) } else { record.id_length.min(127) as usize };
    let mut log_id: Vec<u8> = record.id.iter().copied().cycle().take(length).collect();
    if random.one_in(8) {
        spoil(&mut log_id, random);
    }
    let mut offer = Offer { log_id, timestamp: earliest + random.below(4), size: one.second, root: one.new, path: one.proof };
    match random.below(11) {
        0 => spoil(&mut offer.root, random),
        1 => spoil(&mut offer.path, random),
        2 => offer.path.clear(),
        3 => offer.size = *random.pick(&[0, record.size, record.size.wrapping_sub(1), 1 << 32, LARGEST_SIZE]),
        4 => record.size = *random.pick(&[0, 1, offer.size, 1 << 32, LARGEST_SIZE - 1, LARGEST_SIZE]),
        5 => (offer.size, offer.path) = (record.size, vec![]),
        6 => (offer.size, offer.path, offer.root) = (record.size, vec![], record.root.to_vec()),
        // The held head with nodes, and its root at another size.
        7 => (offer.size, offer.path, offer.root) = (record.size, vec![7; 32 * random.between(1, 2) as usize], record.root.to_vec()),
        8 => offer.root = record.root.to_vec(),
        _ => (),
    }
    record.second = some_second(&record, &offer, random);
    let [offered, asked] = [(); 2].map(|()| mostly(if random.one_in(2) { record.algorithm } else { algorithm }, random));
    hold.offer(offered, &record, &offer);
    let mut page = PageCall { place: one.place, page: random.bytes(1), path: one.path };
    if random.one_in(8) {
        spoil(&mut page.path, random);
    }
    hold.ask(asked, &record, &page);
}

/// Nothing; the very head that is offered; one of the held size; any.
fn some_second(record: &Stored, offer: &Offer, random: &mut Random) -> Second {
    let number = *random.pick(&[1, 7, 8, 12, 13, u32::MAX]);
    let root = offer.root[..].try_into().unwrap_or(record.root);
    let Stored { id, id_length, .. } = *record;
    let (timestamp, size) = (random.below(5), random.draw() >> random.below(64));
    match random.below(4) {
        0 => Second::EMPTY,
        1 => Second { number, id, id_length, timestamp: offer.timestamp, size: offer.size, root },
        2 => Second { number, id, id_length, timestamp, size: record.size, root: random.hash() },
        _ => Second { number: number & random.draw() as u32, id: [random.byte(); 127], id_length: size, timestamp, size, root },
    }
}

/// One size, by one hash: of each verdict what is accepted and no place, of carrying a path's room and a byte fewer, and a head of that size
/// as the first and as a later one, also with the timestamp that is held.
fn size_round(hold: &mut Hold, algorithm: u64, size: u64, random: &mut Random) {
    let h = given::hashes(algorithm).unwrap();
    for place in [0, size - 1, random.below(size)] {
        hold.compare(algorithm, &forge::two_at(h, place, size, random), &random.bytes(PAIR));
        let one = forge::step_at(h, place, random.between(place + 1, size), size, random);
        let count = yields::inclusion_count(place, size);
        for room in [32 * count, (32 * count).saturating_sub(1)] {
            hold.carry(algorithm, &one, &random.bytes(room), &random.bytes(PAIR));
        }
        hold.consistency(algorithm, one.first, size, &one.old, &one.new, &one.proof);
        let (leaf, path) = (forge::any_node(h, random), forge::any_nodes(h, count, random));
        let root = yields::inclusion(h, &leaf, place, size, &path).unwrap();
        for place in [place, size, u64::MAX] {
            hold.inclusion(algorithm, &leaf, place, size, &root, &path.concat());
        }
        let held = Stored { held: true, algorithm, size: one.first, root: one.old[..].try_into().unwrap(), id_length: 2, ..Stored::EMPTY };
        let offer = |timestamp: u64, path: &[u8]| Offer { log_id: vec![0; 2], timestamp, size, root: one.new.clone(), path: path.to_vec() };
        for timestamp in [0, 1] {
            hold.offer(algorithm, &held, &offer(timestamp, &one.proof));
        }
        hold.offer(algorithm, &Stored::EMPTY, &offer(1, &[]));
    }
}

/// A consistency path of 65 nodes, the longest, by each hash.
fn longest_proof(hold: &mut Hold, random: &mut Random) {
    for algorithm in KNOWN {
        let one = forge::step_at(given::hashes(algorithm).unwrap(), random.below(3), 3, LARGEST_SIZE, random);
        hold.carry(algorithm, &one, &random.bytes(forge::LONGEST), &random.bytes(PAIR));
    }
}

/// Pages at the limit and over it, once for each hash; and 16 before them.
fn long_pages(hold: &mut Hold, random: &mut Random) {
    given::keep(0);
    let [most, over] = [LONGEST_ITEM, LONGEST_ITEM + 1].map(|length| vec![7; length]);
    let call = |page: &[u8]| PageCall { place: 0, page: page.to_vec(), path: vec![] };
    for algorithm in KNOWN {
        let root = given::hashes(algorithm).unwrap()(&[]);
        let second = Second { number: 8, size: 2, ..Second::EMPTY };
        let record = Stored { held: true, algorithm, size: 1, root, second, ..Stored::EMPTY };
        for page in [&most, &over] {
            hold.ask(algorithm, &record, &call(page));
            hold.ask(algorithm, &Stored::EMPTY, &call(page));
        }
        for by in [algorithm::other(algorithm), algorithm ^ 0x100] {
            hold.ask(by, &record, &call(&over));
        }
        for (first, second) in [(&most[..], &[1][..]), (&over, &[1]), (&[1], &most), (&[1], &over), (&over, &over)] {
            for root in [root.to_vec(), vec![]] {
                let one = Dispute { first: call(first), size: 1, root, heads: vec![], second_page: second.to_vec(), second_path: vec![] };
                hold.dispute(algorithm, &one, &some_pair(random));
                if first.len().max(second.len()) > LONGEST_ITEM {
                    hold.dispute(algorithm ^ 0x100, &one, &some_pair(random));
                }
            }
        }
    }
    #[cfg(journal)]
    for length in [32 * 65_535, 32 * 65_535 + 1, 32 * 65_536, 32 * 65_536 + 1] {
        let _ = hold.append(&vec![1; 3_000_000], 5, 1 << 40, &[2; 32], &vec![3; length]);
    }
}

/// Joined hashes next to 2^32, once.
fn most_leaves(hold: &mut Hold) {
    for length in [MOST - 32, MOST - 1, MOST, MOST + 1, MOST + 31, MOST + 32, MOST + 64] {
        hold.bad_leaves(&zeros()[..length]);
    }
}

/// All rounds; where a wrong program is sought, up to its first fault.
fn rounds(code: &dyn Code, seed: u64, count: u64, is_sought: bool) -> Hold<'_> {
    let random = &mut Random::new(seed);
    let mut hold = Hold::new(code);
    most_leaves(&mut hold);
    // A wrong program that joins more would read them all.
    if is_sought && hold.failed > 0 {
        return hold;
    }
    growing::limits(&mut hold, random);
    // Next to every power of two, from the largest on.
    let mut sizes: Vec<u64> = next_to_powers(1).into_iter().filter(|size| *size > 0).collect();
    for turn in 0..count {
        given::keep(BITS[turn as usize % BITS.len()]);
        if let Some(size) = sizes.pop() {
            KNOWN.iter().for_each(|algorithm| size_round(&mut hold, *algorithm, size, random));
            longest_proof(&mut hold, random);
        }
        compare_round(&mut hold, random);
        carry_round(&mut hold, random);
        dispute_round(&mut hold, random);
        tree_round(&mut hold, random);
        growing::tree_round(&mut hold, random);
        record_round(&mut hold, random);
        #[cfg(journal)]
        journal_round(&mut hold, random);
        if turn % 5 == 0 {
            growing::list_round(&mut hold, random);
        }
        if turn % 25 == 0 {
            list_round(&mut hold, random);
        }
        if is_sought && hold.failed > 0 {
            return hold;
        }
    }
    if !is_sought {
        long_pages(&mut hold, random);
        growing::longest(&mut hold, random);
    }
    hold
}

#[derive(Default)]
struct Tally {
    passed: u64,
    failed: u64,
}

impl Tally {
    fn count(&mut self, is_right: bool, what: impl FnOnce() -> String) {
        if is_right {
            self.passed += 1;
        } else {
            self.failed += 1;
            println!("FAILED: {}", what());
        }
    }
}

fn translation(tally: &mut Tally) {
    for (text, is_taken) in texts::own_tests() {
        let source = |_: &Path| Ok(text.to_string());
        let krate = translate::Crate { source: &source, root: "here".to_string(), prelude: String::new() };
        let found = krate.module(Path::new("x.rt"), Path::new("x"), "x", true, &mut translate::Done::default());
        match found {
            Ok(found) if is_taken => {
                let lines = |text: &str| text.lines().map(str::trim_end).filter(|line| !line.is_empty()).collect::<Vec<_>>().join("\n");
                tally.count(lines(&found) == lines(texts::TAKEN), || format!("translated otherwise:\n{found}"));
            }
            found => tally.count(found.is_ok() == is_taken, || format!("{found:?} of {text:?}")),
        }
    }
}

fn main() {
    let numbers: Vec<Option<u64>> = std::env::args().skip(1).map(|word| word.parse().ok()).collect();
    let (seed, count) = match numbers[..] {
        [Some(seed)] => (seed, 10_000),
        [Some(seed), Some(count)] => (seed, count),
        _ => {
            eprintln!("weak SEED [COUNT]");
            std::process::exit(2);
        }
    };
    hold::quiet_while_tried();
    let mut tally = Tally::default();
    println!("seed {seed}, {count} rounds; {}", variants::TRANSLATED);
    for name in variants::PUBLIC {
        tally.count(COMPARED.contains(name), || format!("public, and not compared: {name}"));
    }
    translation(&mut tally);
    let is_full = WANTED.lines().count() > 365 && variants::CODES.len() > 108;
    tally.count(is_full, || "kinds or wrong programs are gone".to_string());

    let hold = rounds(variants::CODES[0].1, seed, count, false);
    hold.shown.iter().for_each(|one| println!("DISAGREEMENT: {one}"));
    println!("{:>8}{:>8}{:>8}", "SHA-256", "SM3", "neither");
    hold.kinds.iter().for_each(|(kind, [sha256, sm3, neither])| println!("{sha256:>8}{sm3:>8}{neither:>8}  {kind}"));
    tally.passed += hold.calls - hold.failed;
    tally.failed += hold.failed;
    for kind in WANTED.lines().filter(|kind| cfg!(journal) || !kind.starts_with("journal: ")) {
        let [sha256, sm3, neither] = hold.kinds.get(kind).copied().unwrap_or_default();
        tally.count(neither > 0 || sha256 > 0 && sm3 > 0, || format!("did not come up by both hashes: {kind}"));
    }

    for (name, code) in &variants::CODES[1..] {
        let hold = rounds(*code, seed, count, true);
        if let Some((entry, _)) = hold.shown.first().and_then(|one| one.split_once(" of ")) {
            println!("found by {entry}, in {} calls: {name}", hold.calls);
        }
        tally.count(hold.failed > 0, || format!("not found: {name}"));
    }
    println!("{} passed, {} failed", tally.passed, tally.failed);
    std::process::exit((tally.failed > 0).into());
}
