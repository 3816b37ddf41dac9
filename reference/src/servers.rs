//! Logs of any size, and the servers that an auditor meets: honest, forgetful
//! and forging ones.

use crate::algorithm::{self, Hashes};
use crate::auditor::{self, Call, Head, Offer, PageCall, Record};
use crate::carry::{consistency_places, inclusion_places, parts, Leaves};
use crate::proofs::near_power;
use crate::random::Random;
use crate::tree::{leaf_hash, node_hash, Hash, HashFunction, LARGEST_SIZE};
use crate::yields;
use std::collections::BTreeMap;

/// A log of which some pages and some sizes matter: a full subtree that has none
/// of these pages, and that none of these sizes cuts, is one hash.
#[derive(Clone)]
pub struct Log {
    h: HashFunction,
    seed: u64,
    /// The sizes at which it was signed, rising.
    pub sizes: Vec<u64>,
    pub pages: BTreeMap<u64, Vec<u8>>,
}

impl Log {
    /// Up to `most` leaves; up to six sizes and four pages matter.
    pub fn random(h: HashFunction, most: u64, random: &mut Random) -> Log {
        let mut sizes: Vec<u64> = (0..random.between(1, 6)).map(|_| some_size(most, random)).collect();
        sizes.sort();
        sizes.dedup();
        let mut pages = BTreeMap::new();
        for _ in 0..random.between(1, 4) {
            let size = *random.pick(&sizes);
            let place = if random.one_in(4) { size - 1 } else { random.below(size) };
            pages.insert(place, some_page(random));
        }
        // Places at the ends.
        pages.insert(*random.pick(&[0, sizes[0] - 1]), some_page(random));
        Log { h, seed: random.draw(), sizes, pages }
    }

    fn hash(&self, leaves: &Leaves) -> Hash {
        let length = leaves.end - leaves.start;
        if let (1, Some(page)) = (length, self.pages.get(&leaves.start)) {
            return leaf_hash(self.h, page);
        }
        let cut = self.sizes.iter().any(|size| leaves.start < *size && *size < leaves.end);
        let asked = self.pages.range(leaves.clone()).next().is_some();
        if length.is_power_of_two() && !cut && !asked {
            return (self.h)(&[self.seed, leaves.start, leaves.end].map(u64::to_be_bytes).concat());
        }
        let (first, rest) = parts(leaves);
        node_hash(self.h, &self.hash(&first), &self.hash(&rest))
    }

    fn nodes(&self, places: Vec<Leaves>) -> Vec<u8> {
        places.iter().flat_map(|leaves| self.hash(leaves)).collect()
    }

    pub fn root(&self, size: u64) -> Hash {
        self.hash(&(0..size))
    }

    pub fn path(&self, place: u64, size: u64) -> Vec<u8> {
        self.nodes(inclusion_places(place, 0..size))
    }

    pub fn consistency_path(&self, first: u64, second: u64) -> Vec<u8> {
        self.nodes(consistency_places(first, 0..second, true))
    }
}

/// Up to `most`: any, one next to a power of two, or the last.
fn some_size(most: u64, random: &mut Random) -> u64 {
    match random.below(8) {
        0 | 1 => near_power(random).clamp(1, most),
        2 => most,
        _ => random.between(1, most),
    }
}

fn some_page(random: &mut Random) -> Vec<u8> {
    let count = *random.pick(&[0, 1, 2, 3, 40, 54, 55, 63, 64, 100]);
    random.bytes(count)
}

#[derive(Clone, Copy, Debug, PartialEq, Eq)]
pub enum Kind {
    Honest,
    /// Loses or changes a page, or drops the end of its list, and goes on as if nothing was.
    Forgetful,
    /// Every second call is spoilt, or forged where the hash lets it; at times a refused head comes again.
    Forging,
}

pub const KINDS: [Kind; 3] = [Kind::Honest, Kind::Forgetful, Kind::Forging];

pub struct Server {
    hashes: Hashes,
    /// The number of its hash, and the hash.
    algorithm: u64,
    h: HashFunction,
    kind: Kind,
    id: Vec<u8>,
    log: Log,
    /// The same log with another page.
    other: Log,
    clock: u64,
    at: usize,
    /// The size of the last head that was signed.
    signed: Option<u64>,
}

impl Server {
    pub fn random(hashes: Hashes, algorithm: u64, kind: Kind, most: u64, random: &mut Random) -> Server {
        let h = hashes(algorithm).expect("a known number");
        let log = Log::random(h, most, random);
        let mut other = log.clone();
        let place = *random.pick(&log.pages.keys().copied().collect::<Vec<u64>>());
        other.pages.insert(place, some_page(random));
        let id_length = *random.pick(&[2, 2, 3, 5, 32, 126, 127]);
        let (id, clock) = (random.bytes(id_length), random.below(1000));
        Server { hashes, algorithm, h, kind, id, log, other, clock, at: 0, signed: None }
    }

    /// `count` calls by the server's hash, each made knowing the record before it. A forger
    /// tries `tries` times to be accepted.
    pub fn calls(mut self, count: usize, tries: usize, random: &mut Random) -> Vec<Call> {
        let mut record = Record::EMPTY;
        let mut calls = Vec::new();
        for turn in 0..count {
            let call = if turn == 0 && !random.one_in(4) || random.one_in(3) {
                Call::Offer(self.some_offer(&record, tries, random))
            } else {
                Call::Page(self.some_page(&record, tries, random))
            };
            if let Call::Offer(offer) = &call {
                record = auditor::offer(self.hashes, self.algorithm, &record, offer).1;
            }
            if self.kind == Kind::Forgetful && random.one_in(8) {
                if random.one_in(2) {
                    std::mem::swap(&mut self.log, &mut self.other);
                } else {
                    self.at = self.at.saturating_sub(1);
                }
            }
            calls.push(call);
        }
        calls
    }

    /// The last head again, at times with a later timestamp, or one of another size,
    /// always with a later timestamp: one millisecond has one head.
    fn some_offer(&mut self, record: &Record, tries: usize, random: &mut Random) -> Offer {
        if random.one_in(2) {
            self.at = (self.at + random.below(3) as usize).min(self.log.sizes.len() - 1);
        }
        let size = self.log.sizes[self.at];
        self.clock += random.below(3).max((self.signed != Some(size)) as u64);
        let mut offer = self.offer(size, record);
        if let (Some(_), Kind::Forging) = (&record.held, self.kind) {
            offer = match &record.kept {
                Some(kept) if random.one_in(4) => self.again(&kept.head, offer, record, random),
                _ if random.one_in(2) => self.spoilt_offer(offer, record, tries, random),
                _ => offer,
            };
        }
        // A forger may have signed for a later time.
        self.clock = self.clock.max(offer.timestamp);
        self.signed = Some(offer.size);
        offer
    }

    fn some_page(&mut self, record: &Record, tries: usize, random: &mut Random) -> PageCall {
        let call = self.page(record, random);
        match record.held {
            Some(_) if self.kind == Kind::Forging && random.one_in(2) => self.spoilt_page(call, record, tries, random),
            _ => call,
        }
    }

    fn offer(&self, size: u64, record: &Record) -> Offer {
        let path = match record.head() {
            Some(held) if held.size < size => self.log.consistency_path(held.size, size),
            _ => vec![],
        };
        Offer { log_id: self.id.clone(), timestamp: self.clock, size, root: self.log.root(size).to_vec(), path }
    }

    fn page(&self, record: &Record, random: &mut Random) -> PageCall {
        let size = record.head().map_or(1, |held| held.size);
        let below: Vec<u64> = self.log.pages.range(..size).map(|(place, _)| *place).collect();
        if below.is_empty() {
            return PageCall { place: 0, page: vec![], path: vec![] };
        }
        let place = *random.pick(&below);
        PageCall { place, page: self.log.pages[&place].clone(), path: self.log.path(place, size) }
    }

    fn spoilt_offer(&self, mut offer: Offer, record: &Record, tries: usize, random: &mut Random) -> Offer {
        let held = record.head().unwrap();
        match random.below(22) {
            0 => offer.log_id = random.bytes(3),
            1 => spoil(&mut offer.log_id, random),
            2 => {
                offer.size =
                    *random.pick(&[0, 1, held.size.saturating_sub(1), 1 << 32, (1 << 32) + 1, 1 << 63, LARGEST_SIZE - 1, LARGEST_SIZE]);
            }
            3 => offer.timestamp = held.timestamp.saturating_sub(1 + random.below(3)),
            4 => (offer.size, offer.root) = (held.size, random.hash().to_vec()),
            5 => (offer.size, offer.root, offer.path) = (held.size, held.root.to_vec(), vec![0; 32 * random.below(2) as usize]),
            6 => offer.root = self.other.root(offer.size).to_vec(),
            7 if held.size < offer.size => {
                offer.root = self.other.root(offer.size).to_vec();
                offer.path = self.other.consistency_path(held.size, offer.size);
            }
            8 => spoil(&mut offer.root, random),
            9 | 10 => spoil(&mut offer.path, random),
            // A second head of the held one's millisecond, or of an earlier one: a larger one with a right
            // path; another root. Then of the same one: a larger size with the held root; a smaller size.
            11 | 12 => {
                offer = self.larger(record, random);
                offer.timestamp = held.timestamp.saturating_sub(*random.pick(&[0, 0, 1]));
            }
            13 | 19 => {
                let mut root = held.root.to_vec();
                root[*random.pick(&[0, 7, 31])] ^= 1 << random.below(8);
                let timestamp = held.timestamp.saturating_sub(*random.pick(&[0, 0, 1, 2]));
                offer = Offer { timestamp, size: held.size, root, path: vec![], ..offer };
            }
            14 => {
                let size = held.size.saturating_add(random.between(1, 6));
                let path = self.any_nodes(random.below(3) as usize, random);
                offer = Offer { timestamp: held.timestamp, size, root: held.root.to_vec(), path, ..offer };
            }
            15 => offer = Offer { timestamp: held.timestamp, size: random.below(held.size), path: vec![], ..offer },
            // The held head again.
            16 => {
                let path = self.any_nodes(random.below(3) as usize, random);
                offer = Offer { timestamp: held.timestamp, size: held.size, root: held.root.to_vec(), path, ..offer };
            }
            // A larger one that is right but for its path: a wrong node, or one too many.
            17 | 18 => {
                let timestamp = offer.timestamp.max(held.timestamp.saturating_add(1));
                offer = Offer { timestamp, ..self.larger(record, random) };
                match offer.path.first_mut() {
                    Some(byte) if !random.one_in(4) => *byte ^= 1,
                    _ => offer.path.extend(random.hash()),
                }
            }
            _ => {
                offer.size = held.size.saturating_add(random.below(6));
                offer.timestamp = offer.timestamp.max(held.timestamp.saturating_add((offer.size > held.size) as u64));
                for _ in 0..tries {
                    let count = if offer.size == held.size { 0 } else { yields::consistency_count(held.size, offer.size) };
                    offer.path = self.any_nodes(count, random);
                    offer.root = (self.h)(&random.bytes(3)).to_vec();
                    if auditor::offer(self.hashes, self.algorithm, record, &offer).0 == 0 {
                        break;
                    }
                }
            }
        }
        offer
    }

    /// A refused head again, at its time or at this one, with the log's path: it is right where only the path was wrong.
    fn again(&self, refused: &Head, offer: Offer, record: &Record, random: &mut Random) -> Offer {
        let held = record.head().unwrap();
        let path = if refused.size > held.size { self.log.consistency_path(held.size, refused.size) } else { vec![] };
        let timestamp = *random.pick(&[refused.timestamp, refused.timestamp, offer.timestamp]);
        Offer { timestamp, size: refused.size, root: refused.root.to_vec(), path, ..offer }
    }

    /// The log's next head. Behind its last one, any nodes and the root that they yield: a right
    /// path where the held size is a power of two, and else one that does not yield the held root.
    fn larger(&self, record: &Record, random: &mut Random) -> Offer {
        let held = record.head().unwrap();
        if let Some(size) = self.log.sizes.iter().find(|size| **size > held.size) {
            return self.offer(*size, record);
        }
        let size = held.size.saturating_add(random.between(1, 6));
        let mut offer = Offer { size, ..self.offer(held.size, record) };
        if size > held.size {
            let nodes: Vec<Hash> = (0..yields::consistency_count(held.size, size)).map(|_| (self.h)(&random.bytes(3))).collect();
            offer.path = nodes.concat();
            offer.root = yields::consistency(self.h, held.size, size, &held.root, &nodes).unwrap().1.to_vec();
        }
        offer
    }

    fn spoilt_page(&self, mut call: PageCall, record: &Record, tries: usize, random: &mut Random) -> PageCall {
        let held = record.head().unwrap();
        match random.below(9) {
            0 => call.place = random.below(held.size),
            1 => call.place = *random.pick(&[held.size, held.size - 1, u64::MAX]),
            2 => spoil(&mut call.page, random),
            3 => spoil(&mut call.path, random),
            4 if self.other.pages.contains_key(&call.place) => {
                call.page = self.other.pages[&call.place].clone();
                call.path = self.other.path(call.place, held.size);
            }
            // The path at another size.
            5 if call.place < self.log.sizes[self.at] => call.path = self.log.path(call.place, self.log.sizes[self.at]),
            _ => {
                let keep_path = random.one_in(2);
                for _ in 0..tries {
                    let length = random.below(4) as usize;
                    call.page = random.bytes(length);
                    if !keep_path {
                        call.path = self.any_nodes(yields::inclusion_count(call.place, held.size), random);
                    }
                    if auditor::page(self.hashes, self.algorithm, record, &call) == 0 {
                        break;
                    }
                }
            }
        }
        call
    }

    fn any_nodes(&self, count: usize, random: &mut Random) -> Vec<u8> {
        (0..count).flat_map(|_| (self.h)(&random.bytes(3))).collect()
    }
}

/// Calls by one number; before one in nine of them the same call by another number, known or
/// not. Before the first offer that one is mostly unknown, since by a known number a first head is
/// accepted, and then every call by the server's number is refused.
pub fn with_strays(algorithm: u64, calls: Vec<Call>, random: &mut Random) -> Vec<(u64, Call)> {
    let (mut all, mut is_offered) = (Vec::new(), false);
    for call in calls {
        if random.one_in(9) {
            let is_known = if is_offered { random.one_in(2) } else { random.one_in(20) };
            let by = if is_known { algorithm::other(algorithm) } else { algorithm::some_unknown(random) };
            all.push((by, call.clone()));
        }
        is_offered |= matches!(call, Call::Offer(_));
        all.push((algorithm, call));
    }
    all
}

/// A bit changed, bytes lost or bytes more.
pub fn spoil(bytes: &mut Vec<u8>, random: &mut Random) {
    match random.below(6) {
        0 | 1 if !bytes.is_empty() => {
            let at = random.below(bytes.len() as u64) as usize;
            bytes[at] ^= 1 << random.below(8);
        }
        2 => bytes.truncate(bytes.len().saturating_sub(32)),
        3 => bytes.extend(random.hash()),
        4 => bytes.truncate(bytes.len().saturating_sub(1)),
        _ => bytes.push(0),
    }
}

#[cfg(test)]
mod tests {
    use super::*;
    use crate::algorithm::{hash, weak, KNOWN};
    use crate::auditor::under;
    use crate::verdict::{self, Consistency, Inclusion};

    /// An honest server's offers are all accepted, and its pages once a head is held. It
    /// offers a head again at the same time and later, and larger ones.
    #[test]
    fn honest_servers_are_accepted() {
        let random = &mut Random::new(8);
        let mut met = [0; 3];
        for turn in 0..400 {
            let (hashes, by): (Hashes, u64) = (if turn % 2 == 0 { hash } else { weak }, KNOWN[turn / 2 % 2]);
            let most = LARGEST_SIZE >> random.below(64);
            let calls = under(by, Server::random(hashes, by, Kind::Honest, most, random).calls(30, 0, random));
            let mut before = Record::EMPTY;
            for ((_, call), (number, after)) in calls.iter().zip(auditor::run(hashes, &calls)) {
                match (call, before.head()) {
                    (Call::Page(_), None) => assert_eq!(number, 14),
                    (Call::Page(_), Some(_)) => assert_eq!(number, 0),
                    (Call::Offer(_), None) => assert_eq!(number, 0),
                    (Call::Offer(offer), Some(held)) => {
                        assert_eq!(number, 0, "{offer:?} after {held:?}");
                        met[if offer.size > held.size { 2 } else { (offer.timestamp > held.timestamp) as usize }] += 1;
                    }
                }
                before = after;
            }
        }
        assert!(met.iter().all(|count| *count >= 300), "{met:?}");
    }

    #[test]
    fn logs_are_consistent() {
        let random = &mut Random::new(5);
        for turn in 0..200 {
            let log = Log::random([hash, weak][turn % 2](KNOWN[turn / 2 % 2]).unwrap(), LARGEST_SIZE >> random.below(64), random);
            for (at, second) in log.sizes.iter().enumerate() {
                let root = log.root(*second);
                for (place, page) in log.pages.range(..second) {
                    let (leaf, path) = (leaf_hash(log.h, page), log.path(*place, *second));
                    let proof = Inclusion { leaf: &leaf, place: *place, size: *second, root: &root, path: &path };
                    assert_eq!(verdict::inclusion(log.h, &proof), 0);
                }
                for first in &log.sizes[..at] {
                    let (first_root, path) = (log.root(*first), log.consistency_path(*first, *second));
                    let step = Consistency { first: *first, second: *second, first_root: &first_root, second_root: &root, path: &path };
                    assert_eq!(verdict::consistency(log.h, &step), 0);
                }
            }
        }
    }
}
