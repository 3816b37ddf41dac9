//! The auditor: head offers and page calls over one record, and the dispute
//! about two pages accepted at one place.

use crate::algorithm::{Hashes, REFUSED};
use crate::carry::{carry, compare, Carried, Compared, PAIR};
use crate::item::LONGEST_ITEM;
use crate::tree::{hashes, leaf_hash, Hash, HashFunction};
use crate::verdict::{self, Consistency, Inclusion};

#[derive(Clone, Debug, PartialEq, Eq)]
pub struct Head {
    pub log_id: Vec<u8>,
    pub timestamp: u64,
    pub size: u64,
    pub root: Hash,
}

/// A log id has 2 to 127 bytes.
pub const LONGEST_ID: usize = 127;

/// The head that was accepted last, and the number of the hash by which the first was.
#[derive(Clone, Debug, PartialEq, Eq)]
pub struct Held {
    pub algorithm: u64,
    pub head: Head,
}

/// A refused head that is evidence, and the number of its refusal.
#[derive(Clone, Debug, PartialEq, Eq)]
pub struct Kept {
    pub number: u64,
    pub head: Head,
}

/// Two places, each empty at first: the second is for the latest refused head that is evidence.
#[derive(Clone, Debug, PartialEq, Eq)]
pub struct Record {
    pub held: Option<Held>,
    pub kept: Option<Kept>,
}

impl Record {
    pub const EMPTY: Record = Record { held: None, kept: None };

    /// The head that is held.
    pub fn head(&self) -> Option<&Head> {
        self.held.as_ref().map(|held| &held.head)
    }
}

#[derive(Clone, Debug, PartialEq, Eq)]
pub struct Offer {
    pub log_id: Vec<u8>,
    pub timestamp: u64,
    pub size: u64,
    pub root: Vec<u8>,
    pub path: Vec<u8>,
}

impl Offer {
    /// The head that is offered, or 5.
    fn head(&self) -> Result<Head, u64> {
        let root = self.root[..].try_into().map_err(|_| 5u64)?;
        if !(2..=LONGEST_ID).contains(&self.log_id.len()) {
            return Err(5);
        }
        Ok(Head { log_id: self.log_id.clone(), timestamp: self.timestamp, size: self.size, root })
    }
}

#[derive(Clone, Debug, PartialEq, Eq)]
pub struct PageCall {
    pub place: u64,
    pub page: Vec<u8>,
    pub path: Vec<u8>,
}

#[derive(Clone, Debug, PartialEq, Eq)]
pub enum Call {
    Offer(Offer),
    Page(PageCall),
}

/// Calls, each by the same number.
pub fn under(algorithm: u64, calls: Vec<Call>) -> Vec<(u64, Call)> {
    calls.into_iter().map(|call| (algorithm, call)).collect()
}

/// The hash of a call's number, or 16: where no hash has it, and where a head is held and
/// with it another number.
fn hash(hashes: Hashes, algorithm: u64, held: &Option<Held>) -> Result<HashFunction, u64> {
    let is_held = held.as_ref().is_none_or(|held| held.algorithm == algorithm);
    hashes(algorithm).filter(|_| is_held).ok_or(REFUSED)
}

/// What an offer does to the record.
enum Change {
    Held(Held),
    Kept(Kept),
    /// The number of a refusal that leaves all as it was.
    Nothing(u64),
}

/// An accepted head takes the first place. A refused one takes the second where it is
/// evidence: with 8, with 13, or with 12 where the size is the held one and the root another.
/// It is not asked what stands there.
fn change(hashes: Hashes, algorithm: u64, held: &Option<Held>, offer: &Offer) -> Change {
    let number = match judge_offer(hashes, algorithm, held, offer) {
        Ok(head) => return Change::Held(Held { algorithm, head }),
        Err(number) => number,
    };
    match (number, held, offer.head()) {
        (8 | 13, _, Ok(head)) => Change::Kept(Kept { number, head }),
        (12, Some(held), Ok(head)) if head.size == held.head.size && head.root != held.head.root => Change::Kept(Kept { number, head }),
        _ => Change::Nothing(number),
    }
}

/// The number and the record after the offer.
pub fn offer(hashes: Hashes, algorithm: u64, record: &Record, offer: &Offer) -> (u64, Record) {
    match change(hashes, algorithm, &record.held, offer) {
        Change::Held(held) => (0, Record { held: Some(held), ..record.clone() }),
        Change::Kept(kept) => (kept.number, Record { kept: Some(kept), ..record.clone() }),
        Change::Nothing(number) => (number, record.clone()),
    }
}

/// 16 before all else; then an empty record checks 5, 10, 6, 7, another 5, 10, 11, 6, 12, 13, 7, 8. One
/// millisecond has one head: 12 is given for an earlier timestamp, and for an equal
/// one where size or root is another than the held. So 13 is left for a later one.
fn judge_offer(hashes_by: Hashes, algorithm: u64, held: &Option<Held>, offer: &Offer) -> Result<Head, u64> {
    let h = hash(hashes_by, algorithm, held)?;
    let head = offer.head()?;
    if hashes(&offer.path).is_none() {
        return Err(10);
    }
    // No size is above the largest.
    let in_range = head.size > 0;
    match held {
        None => {
            if !in_range {
                return Err(6);
            }
            if !offer.path.is_empty() {
                return Err(7);
            }
        }
        Some(Held { head: held, .. }) => {
            if head.log_id != held.log_id {
                return Err(11);
            }
            if !in_range || head.size < held.size {
                return Err(6);
            }
            let is_other = head.size != held.size || head.root != held.root;
            if head.timestamp < held.timestamp || head.timestamp == held.timestamp && is_other {
                return Err(12);
            }
            if head.size == held.size && head.root != held.root {
                return Err(13);
            }
            let step =
                Consistency { first: held.size, second: head.size, first_root: &held.root, second_root: &head.root, path: &offer.path };
            match verdict::consistency(h, &step) {
                0 => (),
                number => return Err(number),
            }
        }
    }
    Ok(head)
}

/// 16, then 14 if no head is held, 1 if the page is too long, then the inclusion verdict. No
/// page call changes the record.
pub fn page(hashes: Hashes, algorithm: u64, record: &Record, call: &PageCall) -> u64 {
    let h = match hash(hashes, algorithm, &record.held) {
        Ok(h) => h,
        Err(number) => return number,
    };
    let Some(held) = record.head() else { return 14 };
    if call.page.len() > LONGEST_ITEM {
        return 1;
    }
    let leaf = leaf_hash(h, &call.page);
    verdict::inclusion(h, &Inclusion { leaf: &leaf, place: call.place, size: held.size, root: &held.root, path: &call.path })
}

/// A list of calls from the empty record, each with the number of its hash: each call's
/// number, and the record after it.
pub fn run(hashes: Hashes, calls: &[(u64, Call)]) -> Vec<(u64, Record)> {
    let mut record = Record::EMPTY;
    let mut answers = Vec::new();
    for (algorithm, call) in calls {
        let (number, after) = match call {
            Call::Offer(one) => offer(hashes, *algorithm, &record, one),
            Call::Page(one) => (page(hashes, *algorithm, &record, one), record.clone()),
        };
        answers.push((number, after.clone()));
        record = after;
    }
    answers
}

/// A log id as it is stored, and how many bytes it has: zeros follow it.
fn stored_id(log_id: &[u8]) -> ([u8; LONGEST_ID], u64) {
    let mut id = [0; LONGEST_ID];
    id[..log_id.len()].copy_from_slice(log_id);
    (id, log_id.len() as u64)
}

/// A length above that of `id` is all of it.
fn read_id(id: &[u8; LONGEST_ID], length: u64) -> Vec<u8> {
    id[..length.min(LONGEST_ID as u64) as usize].to_vec()
}

/// The second place as it is stored.
#[derive(Clone, Debug, PartialEq, Eq)]
pub struct Second {
    /// Where it is 0 the place is empty, whatever the rest.
    pub number: u32,
    pub id: [u8; LONGEST_ID],
    pub id_length: u64,
    pub timestamp: u64,
    pub size: u64,
    pub root: Hash,
}

impl Second {
    pub const EMPTY: Second = Second { number: 0, id: [0; LONGEST_ID], id_length: 0, timestamp: 0, size: 0, root: [0; 32] };

    fn of(kept: &Kept) -> Second {
        let (id, id_length) = stored_id(&kept.head.log_id);
        let Head { timestamp, size, root, .. } = kept.head;
        Second { number: kept.number as u32, id, id_length, timestamp, size, root }
    }
}

/// The record as it is stored: any value has an answer, also one that no list of
/// calls returns.
#[derive(Clone, Debug, PartialEq, Eq)]
pub struct Stored {
    pub held: bool,
    /// Not looked at where no head is held.
    pub algorithm: u64,
    pub id: [u8; LONGEST_ID],
    pub id_length: u64,
    pub timestamp: u64,
    pub size: u64,
    pub root: Hash,
    pub second: Second,
}

impl Stored {
    pub const EMPTY: Stored = Stored {
        held: false,
        algorithm: 0,
        id: [0; LONGEST_ID],
        id_length: 0,
        timestamp: 0,
        size: 0,
        root: [0; 32],
        second: Second::EMPTY,
    };

    /// What it says.
    pub fn record(&self) -> Record {
        let head = Head { log_id: read_id(&self.id, self.id_length), timestamp: self.timestamp, size: self.size, root: self.root };
        let Second { number, ref id, id_length, timestamp, size, root } = self.second;
        let refused = Head { log_id: read_id(id, id_length), timestamp, size, root };
        Record {
            held: self.held.then_some(Held { algorithm: self.algorithm, head }),
            kept: (number != 0).then_some(Kept { number: number.into(), head: refused }),
        }
    }

    /// The number and the record after an offer. A place that the offer does not change keeps its very bytes.
    pub fn offer(&self, hashes: Hashes, algorithm: u64, one: &Offer) -> (u64, Stored) {
        match change(hashes, algorithm, &self.record().held, one) {
            Change::Held(Held { algorithm, head }) => {
                let (id, id_length) = stored_id(&head.log_id);
                let Head { timestamp, size, root, .. } = head;
                (0, Stored { held: true, algorithm, id, id_length, timestamp, size, root, second: self.second.clone() })
            }
            Change::Kept(kept) => (kept.number, Stored { second: Second::of(&kept), ..self.clone() }),
            Change::Nothing(number) => (number, self.clone()),
        }
    }

    pub fn page(&self, hashes: Hashes, algorithm: u64, call: &PageCall) -> u64 {
        page(hashes, algorithm, &self.record(), call)
    }
}

/// What a dispute comes to.
#[derive(Clone, Copy, Debug, PartialEq, Eq)]
pub enum Settled {
    /// The page bytes are the same.
    Same,
    /// Two strings of nodes, in the pair buffer.
    Nodes,
    /// The two pages, each with 0x00 before it.
    Pages,
    /// The number of a refusal; not for calls that an auditor accepted.
    Refused(u64),
}

/// Two pages at one place. The first was accepted under a head of this size and
/// root, the second after the heads that are joined in `heads`.
#[derive(Clone, Debug, PartialEq, Eq)]
pub struct Dispute {
    pub first: PageCall,
    pub size: u64,
    pub root: Vec<u8>,
    pub heads: Vec<u8>,
    pub second_page: Vec<u8>,
    pub second_path: Vec<u8>,
}

/// The most nodes of an inclusion path.
const MOST_NODES: usize = 64;

/// A head as a dispute takes it: size 8 bytes, root 32, count of nodes 2, the
/// nodes of its consistency path. The path is a multiple of 32.
pub fn join_head(size: u64, root: &[u8], path: &[u8], heads: &mut Vec<u8>) {
    heads.extend(size.to_be_bytes());
    heads.extend(root);
    heads.extend((path.len() as u64 / 32).to_be_bytes()[6..].iter());
    heads.extend(path);
}

/// The most nodes that a head's count can say.
pub const MOST_COUNT: usize = 65_535;

/// A journal: heads joined one after the other in a lent buffer, of which so many
/// bytes are used. Gives how many are used with this head, or refuses with 5 for a
/// root not of 32 bytes or a path of more nodes than the count can say, 10, or 9
/// where the head does not fit behind what is used.
pub fn append(journal: &mut [u8], used: u64, size: u64, root: &[u8], path: &[u8]) -> Result<u64, u64> {
    if root.len() != 32 || path.len() > 32 * MOST_COUNT {
        return Err(5);
    }
    if hashes(path).is_none() {
        return Err(10);
    }
    let mut head = Vec::new();
    join_head(size, root, path, &mut head);
    let end = used.checked_add(head.len() as u64).ok_or(9u64)?;
    match journal.get_mut(used as usize..end as usize) {
        Some(room) => room.copy_from_slice(&head),
        None => return Err(9),
    }
    Ok(end)
}

/// Takes the first head off: size, root and path, or `None` where it is cut short.
fn next_head<'a>(heads: &mut &'a [u8]) -> Option<(u64, &'a [u8], &'a [u8])> {
    let mut take = |count: usize| {
        let (part, rest) = (heads.get(..count)?, &heads[count..]);
        *heads = rest;
        Some(part)
    };
    let number = |bytes: &[u8]| bytes.iter().fold(0, |n, byte| 256 * n + *byte as u64);
    let size = number(take(8)?);
    let root = take(32)?;
    let count = number(take(2)?);
    Some((size, root, take(32 * count as usize)?))
}

/// Refused with 16 for a number that no hash has, 1 for either page, the first proof's
/// number, 2 for each head in turn that is cut short or what carrying refuses, then what
/// comparing refuses. The number is the calls', and nothing comes from a record.
pub fn dispute(hashes: Hashes, algorithm: u64, one: &Dispute, pair: &mut [u8]) -> Settled {
    let settled = hashes(algorithm).ok_or(REFUSED).and_then(|h| settle(h, one, pair));
    settled.unwrap_or_else(Settled::Refused)
}

fn settle(h: HashFunction, one: &Dispute, pair: &mut [u8]) -> Result<Settled, u64> {
    if one.first.page.len() > LONGEST_ITEM || one.second_page.len() > LONGEST_ITEM {
        return Err(1);
    }
    let leaf = leaf_hash(h, &one.first.page);
    let place = one.first.place;
    let (mut size, mut root, mut path) = (one.size, &one.root[..], one.first.path.clone());
    match verdict::inclusion(h, &Inclusion { leaf: &leaf, place, size, root, path: &path }) {
        0 => (),
        number => return Err(number),
    }
    let mut heads = &one.heads[..];
    while !heads.is_empty() {
        let (new_size, new_root, step) = next_head(&mut heads).ok_or(2u64)?;
        let mut lent = [0; 32 * MOST_NODES];
        let old = Inclusion { leaf: &leaf, place, size, root, path: &path };
        match carry(h, &old, new_size, new_root, step, &mut lent, pair)? {
            Carried::Path(length) => path = lent[..length].to_vec(),
            Carried::Collision => return Ok(Settled::Nodes),
        }
        (size, root) = (new_size, new_root);
    }
    let held = Inclusion { leaf: &leaf, place, size, root, path: &path };
    match compare(h, &held, &leaf_hash(h, &one.second_page), &one.second_path, pair)? {
        Compared::Collision => Ok(Settled::Nodes),
        Compared::Same if one.first.page == one.second_page => Ok(Settled::Same),
        Compared::Same => Ok(Settled::Pages),
    }
}

/// Two strings that differ and have one hash, where a dispute hands them over.
pub fn strings(one: &Dispute, settled: Settled, pair: &[u8]) -> Option<(Vec<u8>, Vec<u8>)> {
    match settled {
        Settled::Nodes => Some((pair[..65].to_vec(), pair[65..PAIR].to_vec())),
        Settled::Pages => Some(([&[0], &one.first.page[..]].concat(), [&[0], &one.second_page[..]].concat())),
        Settled::Same | Settled::Refused(_) => None,
    }
}

/// The disputes of a list of calls, each with the first page call's number: each two accepted
/// page calls at one place, from the calls' arguments and which were accepted, and nothing from
/// the record.
pub fn disputes(calls: &[(u64, Call)], accepted: &[bool]) -> Vec<(u64, Dispute)> {
    let heads = |from: usize, to: usize| {
        calls[from..to].iter().zip(&accepted[from..to]).filter_map(|((_, call), accepted)| match call {
            Call::Offer(offer) if *accepted => Some(offer),
            _ => None,
        })
    };
    let mut all = Vec::new();
    for second in 0..calls.len() {
        for first in 0..second {
            let ((algorithm, Call::Page(one)), (_, Call::Page(two))) = (&calls[first], &calls[second]) else { continue };
            if !accepted[first] || !accepted[second] || one.place != two.place {
                continue;
            }
            let held = heads(0, first).next_back().expect("an accepted page has a head");
            let mut joined = Vec::new();
            heads(first, second).for_each(|head| join_head(head.size, &head.root, &head.path, &mut joined));
            let one = Dispute {
                first: one.clone(),
                size: held.size,
                root: held.root.clone(),
                heads: joined,
                second_page: two.page.clone(),
                second_path: two.path.clone(),
            };
            all.push((*algorithm, one));
        }
    }
    all
}

#[cfg(test)]
mod tests {
    use super::*;
    use crate::algorithm::{self, other, weak, KNOWN, SHA256, UNKNOWN};
    use crate::random::Random;
    use crate::servers::{with_strays, Kind, Server, KINDS};
    use crate::sha256::{digest, node};
    use crate::tree::{self, LARGEST_SIZE};

    fn a_head(size: u64, timestamp: u64, root: Hash) -> Head {
        Head { log_id: b"log".to_vec(), timestamp, size, root }
    }

    /// With nothing in the second place.
    fn holding(algorithm: u64, head: Head) -> Record {
        Record { held: Some(Held { algorithm, head }), kept: None }
    }

    /// By SHA-256, as most of what follows.
    fn a_record(size: u64, timestamp: u64, root: Hash) -> Record {
        holding(SHA256, a_head(size, timestamp, root))
    }

    fn an_offer(size: u64, timestamp: u64, root: Hash, path: &[u8]) -> Offer {
        Offer { log_id: b"log".to_vec(), timestamp, size, root: root.to_vec(), path: path.to_vec() }
    }

    /// The number of a refusal over a record with nothing in the second place, and whether the head is
    /// kept there; all else is as it was.
    fn refused(record: &Record, one: &Offer) -> (u64, bool) {
        let (number, after) = offer(algorithm::hash, SHA256, record, one);
        assert_ne!(number, 0);
        let kept = Kept { number, head: one.head().unwrap_or(a_head(0, 0, [0; 32])) };
        let is_kept = after.kept == Some(kept);
        assert!((is_kept || after.kept.is_none()) && after.held == record.held);
        (number, is_kept)
    }

    #[test]
    fn empty_record() {
        let good = an_offer(9, 5, [1; 32], &[]);
        assert_eq!(offer(algorithm::hash, SHA256, &Record::EMPTY, &good), (0, a_record(9, 5, [1; 32])));
        let bad = |change: fn(&mut Offer)| {
            let mut offered = good.clone();
            change(&mut offered);
            let (number, is_kept) = refused(&Record::EMPTY, &offered);
            assert!(!is_kept);
            number
        };
        assert_eq!(bad(|o| o.root.truncate(31)), 5);
        assert_eq!(bad(|o| o.log_id.truncate(1)), 5);
        assert_eq!(bad(|o| o.log_id = vec![0; 128]), 5);
        assert_eq!(bad(|o| (o.root.push(0), o.path.push(0)).0), 5);
        assert_eq!(bad(|o| (o.size = 0, o.path.push(0)).1), 10);
        assert_eq!(bad(|o| (o.size = 0, o.path.extend([0; 32])).1), 6);
        assert_eq!(bad(|o| o.size = 0), 6);
        assert_eq!(bad(|o| o.path.extend([0; 32])), 7);
        assert_eq!(
            page(algorithm::hash, SHA256, &Record::EMPTY, &PageCall { place: 0, page: vec![0; LONGEST_ITEM + 1], path: vec![] }),
            14
        );
        for size in [1, 1 << 32, (1 << 32) + 1, 1 << 63, LARGEST_SIZE - 1, LARGEST_SIZE] {
            assert_eq!(offer(algorithm::hash, SHA256, &Record::EMPTY, &an_offer(size, 5, [1; 32], &[])), (0, a_record(size, 5, [1; 32])));
        }
    }

    /// Heads past 2^32 and up to the largest size, held, offered and disputed.
    #[test]
    fn large_sizes() {
        let (a, b) = ([1; 32], [2; 32]);
        assert_eq!(
            offer(algorithm::hash, SHA256, &a_record(1 << 32, 5, a), &an_offer((1 << 32) + 1, 6, node(&a, &b), &b)),
            (0, a_record((1 << 32) + 1, 6, node(&a, &b)))
        );
        // The sizes are alike in their lower 32 bits, or in all but the highest one.
        for (held, size) in [(1, (1 << 32) + 1), (1, (1 << 63) + 1), (LARGEST_SIZE >> 1, LARGEST_SIZE)] {
            let held = a_record(held, 5, a);
            assert_eq!(refused(&held, &an_offer(size, 5, a, &[])), (12, false));
            assert_eq!(refused(&held, &an_offer(size, 5, b, &[])), (12, false));
            assert_eq!(refused(&held, &an_offer(size, 6, a, &[])), (7, false));
        }
        let held = a_record(LARGEST_SIZE, 5, a);
        assert_eq!(offer(algorithm::hash, SHA256, &held, &an_offer(LARGEST_SIZE, 5, a, &[])), (0, held.clone()));
        assert_eq!(refused(&held, &an_offer(LARGEST_SIZE, 5, b, &[])), (12, true));
        assert_eq!(offer(algorithm::hash, SHA256, &held, &an_offer(LARGEST_SIZE, 6, a, &[])), (0, a_record(LARGEST_SIZE, 6, a)));
        assert_eq!(refused(&held, &an_offer(LARGEST_SIZE - 1, 6, a, &[])), (6, false));
        assert_eq!(refused(&held, &an_offer(LARGEST_SIZE, 6, b, &[])), (13, true));
        assert_eq!(page(algorithm::hash, SHA256, &held, &PageCall { place: LARGEST_SIZE, page: vec![], path: vec![0; 64 * 32] }), 6);
        assert_eq!(page(algorithm::hash, SHA256, &held, &PageCall { place: LARGEST_SIZE - 1, page: vec![], path: vec![0; 64 * 32] }), 7);
        assert_eq!(page(algorithm::hash, SHA256, &held, &PageCall { place: LARGEST_SIZE - 1, page: vec![], path: vec![0; 63 * 32] }), 8);

        // A path of one node that becomes one of 64.
        let leaf = leaf_hash(digest, b"page");
        let root = node(&leaf, &b);
        let mut heads = Vec::new();
        let step = vec![3; 32 * 63];
        let last = hashes(&step).unwrap().iter().fold(root, |root, sibling| node(&root, sibling));
        join_head(LARGEST_SIZE, &last, &step, &mut heads);
        let one = Dispute {
            first: PageCall { place: 0, page: b"page".to_vec(), path: b.to_vec() },
            size: 2,
            root: root.to_vec(),
            heads,
            second_page: b"page".to_vec(),
            second_path: [&b[..], &step].concat(),
        };
        assert_eq!(dispute(algorithm::hash, SHA256, &one, &mut [0; 130]), Settled::Same);
        assert_eq!(dispute(algorithm::hash, SHA256, &Dispute { second_path: step, ..one }, &mut [0; 130]), Settled::Refused(7));
    }

    #[test]
    fn journal() {
        let mut journal = [7; 200];
        assert_eq!(append(&mut journal, 3, 258, &[1; 32], &[]), Ok(45));
        assert_eq!(append(&mut journal, 45, 1 << 56, &[2; 32], &[3; 64]), Ok(151));
        let first = [&[0, 0, 0, 0, 0, 0, 1, 2][..], &[1; 32], &[0, 0]].concat();
        let second = [&[1, 0, 0, 0, 0, 0, 0, 0][..], &[2; 32], &[0, 2], &[3; 64]].concat();
        assert_eq!(journal[..], [&[7; 3][..], &first, &second, &[7; 49]].concat());
        let mut rest = &journal[3..151];
        assert_eq!(next_head(&mut rest), Some((258, &[1; 32][..], &[][..])));
        assert_eq!(next_head(&mut rest), Some((1 << 56, &[2; 32][..], &[3; 64][..])));
        assert_eq!(rest, b"");

        let before = journal;
        let most = vec![0; 32 * MOST_COUNT];
        let more = vec![0; 32 * MOST_COUNT + 1];
        for (used, root, path, refusal) in [
            (151, &[1; 31][..], &[1][..], 5),
            (201, &[1; 33], &[], 5),
            (151, &[1; 32], &more, 5),
            (151, &[1; 32], &[1; 33], 10),
            (201, &[1; 32], &[1; 31], 10),
            (151, &[1; 32], &most, 9),
            (151, &[1; 32], &[1; 32], 9),
            (159, &[1; 32], &[], 9),
            (201, &[1; 32], &[], 9),
            (u64::MAX, &[1; 32], &[], 9),
            (u64::MAX - 41, &[1; 32], &[], 9),
        ] {
            assert_eq!(append(&mut journal, used, 1, root, path), Err(refusal), "{used} {} {}", root.len(), path.len());
            assert_eq!(journal, before);
        }
        assert_eq!(append(&mut journal, 158, 1, &[1; 32], &[]), Ok(200));
    }

    #[test]
    fn held_record() {
        let leaves = [[1; 32], [2; 32], [3; 32]];
        let (two, three) = (tree::root(digest, &leaves[..2]), tree::root(digest, &leaves));
        let held = a_record(2, 5, two);
        let good = an_offer(3, 6, three, &leaves[2]);
        assert_eq!(offer(algorithm::hash, SHA256, &held, &good), (0, a_record(3, 6, three)));
        // The same head again, and with a later timestamp.
        assert_eq!(offer(algorithm::hash, SHA256, &held, &an_offer(2, 5, two, &[])), (0, held.clone()));
        assert_eq!(offer(algorithm::hash, SHA256, &held, &an_offer(2, 6, two, &[])), (0, a_record(2, 6, two)));
        let bad = |change: fn(&mut Offer)| {
            let mut offered = good.clone();
            change(&mut offered);
            refused(&held, &offered)
        };
        assert_eq!(bad(|o| (o.root.push(0), o.path.push(0)).0), (5, false));
        assert_eq!(bad(|o| (o.log_id = b"x".to_vec(), o.path.push(0)).1), (5, false));
        assert_eq!(bad(|o| (o.log_id = b"lag".to_vec(), o.path.push(0)).1), (10, false));
        assert_eq!(bad(|o| (o.log_id = b"lag".to_vec(), o.size = 1).1), (11, false));
        assert_eq!(bad(|o| (o.size = 1, o.timestamp = 4).1), (6, false));
        assert_eq!(bad(|o| o.size = 0), (6, false));
        assert_eq!(bad(|o| o.size = LARGEST_SIZE), (7, false));
        assert_eq!(bad(|o| (o.size = 1, o.timestamp = 5).1), (6, false));
        assert_eq!(bad(|o| (o.size = 2, o.timestamp = 4).1), (12, true));
        assert_eq!(bad(|o| (o.size = 2, o.timestamp = 5).1), (12, true));
        assert_eq!(bad(|o| o.timestamp = 4), (12, false));
        assert_eq!(bad(|o| o.timestamp = 5), (12, false));
        assert_eq!(bad(|o| (o.timestamp = 5, o.path.clear()).1), (12, false));
        assert_eq!(bad(|o| o.size = 2), (13, true));
        assert_eq!(bad(|o| o.path.extend([0; 32])), (7, false));
        assert_eq!(bad(|o| o.path[3] ^= 1), (8, true));
        assert_eq!(refused(&held, &an_offer(2, 5, two, &[0; 32])), (7, false));
    }

    /// The cases by hand of request 4, each alone on one record, with the column of request 8:
    /// timestamp, size, root and path of the offer, its number, and whether it is kept. What is kept
    /// takes the place of what was there before, and all else leaves that as it was.
    #[test]
    fn one_millisecond() {
        let leaves = [[1; 32], [2; 32], [3; 32]];
        let (a, b) = (tree::root(digest, &leaves[..2]), tree::root(digest, &leaves));
        let (right, wrong, none, two) = (&leaves[2][..], &[4; 32][..], &[][..], &[3; 64][..]);
        let held = a_record(2, 5, a);
        for (timestamp, size, root, path, expected, is_kept) in [
            (5, 2, a, none, 0, false),
            (5, 2, a, right, 7, false),
            (5, 2, a, two, 7, false),
            (5, 2, b, none, 12, true),
            (5, 2, b, right, 12, true),
            (5, 3, b, right, 12, false),
            (5, 3, b, wrong, 12, false),
            (5, 3, b, none, 12, false),
            (5, 3, a, none, 12, false),
            (5, 3, a, right, 12, false),
            (5, 3, a, two, 12, false),
            (5, 1, b, none, 6, false),
            (5, 1, a, none, 6, false),
            (4, 2, a, none, 12, false),
            (4, 2, a, right, 12, false),
            (4, 2, b, none, 12, true),
            (4, 2, b, right, 12, true),
            (4, 3, b, right, 12, false),
            (4, 3, b, wrong, 12, false),
            (4, 3, a, none, 12, false),
            (4, 1, b, none, 6, false),
            (6, 2, a, none, 0, false),
            (6, 2, a, right, 7, false),
            (6, 2, b, none, 13, true),
            (6, 2, b, right, 13, true),
            (6, 3, b, right, 0, false),
            (6, 3, b, none, 7, false),
            (6, 3, b, two, 7, false),
            (6, 3, b, wrong, 8, true),
            (6, 3, a, right, 8, true),
            (6, 1, b, none, 6, false),
            (6, 2, b, &two[..33], 10, false),
            (5, 2, a, &two[..33], 10, false),
        ] {
            let one = an_offer(size, timestamp, root, path);
            let head = a_head(size, timestamp, root);
            // Nothing, another head, the very one by each number, and what no list returns.
            let others = [8, 12, 13].map(|number| Kept { number, head: head.clone() }).into_iter().chain([
                Kept { number: 8, head: a_head(3, 9, [7; 32]) },
                Kept { number: 7, head: Head { log_id: vec![], ..a_head(0, 0, a) } },
            ]);
            for kept in others.map(Some).chain([None]) {
                let before = Record { kept, ..held.clone() };
                let (number, after) = offer(algorithm::hash, SHA256, &before, &one);
                assert_eq!(number, expected, "{timestamp} {size} {root:?} {}", path.len());
                let accepted = a_record(size, timestamp, root);
                assert_eq!(after.held, if expected == 0 { accepted.held } else { held.held.clone() });
                assert_eq!(after.kept, if is_kept { Some(Kept { number, head: head.clone() }) } else { before.kept });
            }
        }
        // An empty record has no 12, and another log or a bad root comes first.
        assert_eq!(offer(algorithm::hash, SHA256, &Record::EMPTY, &an_offer(2, 0, b, none)), (0, a_record(2, 0, b)));
        for timestamp in [4, 5] {
            let one = an_offer(2, timestamp, b, none);
            assert_eq!(refused(&held, &Offer { log_id: b"lag".to_vec(), ..one.clone() }), (11, false));
            assert_eq!(refused(&held, &Offer { root: vec![0; 31], ..one }), (5, false));
        }
        // No timestamp is before 0, and none after the last.
        for (timestamp, other) in [(0, u64::MAX), (u64::MAX, 0), (1 << 63, (1 << 63) - 1), ((1 << 32) - 1, 1 << 32)] {
            let held = a_record(2, timestamp, a);
            assert_eq!(offer(algorithm::hash, SHA256, &held, &an_offer(2, timestamp, a, none)), (0, held.clone()));
            assert_eq!(refused(&held, &an_offer(3, timestamp, b, right)), (12, false));
            assert_eq!(refused(&held, &an_offer(2, timestamp, b, none)), (12, true));
            assert_eq!(refused(&held, &an_offer(2, other, b, none)), (if other > timestamp { 13 } else { 12 }, true));
            let after = if other > timestamp { (0, a_record(3, other, b)) } else { (12, held.clone()) };
            assert_eq!(offer(algorithm::hash, SHA256, &held, &an_offer(3, other, b, right)), after);
        }
    }

    /// Lists by hand of request 8: each call's number, and the second place after it.
    #[test]
    fn refused_heads_in_a_row() {
        let pages = [b"a", b"b", b"c"];
        let leaves = pages.map(|page| leaf_hash(digest, page));
        let [one, two, three] = [1, 2, 3].map(|size| tree::root(digest, &leaves[..size]));
        let (b, c) = ([0xb2; 32], [0xc2; 32]);
        let head = |timestamp: u64, size: u64, root: Hash, path: &[u8]| Call::Offer(an_offer(size, timestamp, root, path));
        let page = |place: u64, path: &[u8]| Call::Page(PageCall { place, page: b"a".to_vec(), path: path.to_vec() });
        let kept = |number: u64, timestamp: u64, size: u64, root: Hash| Some(Kept { number, head: a_head(size, timestamp, root) });
        let check = |calls: &[(Call, u64, Option<Kept>)], last: Record| {
            let answers = run(algorithm::hash, &under(SHA256, calls.iter().map(|(call, ..)| call.clone()).collect()));
            for ((number, after), (call, expected, kept)) in answers.iter().zip(calls) {
                assert_eq!((number, &after.kept), (expected, kept), "{call:?}");
            }
            assert_eq!(answers.last().unwrap().1.held, last.held);
        };
        let held = (head(5, 2, two, &[]), 0, None);
        check(
            &[
                held.clone(),
                (head(6, 2, b, &[]), 13, kept(13, 6, 2, b)),
                (head(7, 3, c, &[4; 32]), 8, kept(8, 7, 3, c)),
                (head(5, 3, b, &[]), 12, kept(8, 7, 3, c)),
                (head(6, 2, two, &[]), 0, kept(8, 7, 3, c)),
            ],
            a_record(2, 6, two),
        );
        // The head that was refused is accepted with a right path, and stays in the second place.
        check(
            &[
                held.clone(),
                (head(6, 3, three, &[4; 32]), 8, kept(8, 6, 3, three)),
                (head(6, 3, three, &[]), 7, kept(8, 6, 3, three)),
                (head(6, 3, three, &leaves[2]), 0, kept(8, 6, 3, three)),
                (head(6, 3, three, &[]), 0, kept(8, 6, 3, three)),
                (head(6, 3, b, &[]), 12, kept(12, 6, 3, b)),
                (head(5, 3, b, &[]), 12, kept(12, 5, 3, b)),
                (head(5, 3, three, &[]), 12, kept(12, 5, 3, b)),
                (head(6, 3, b, &[]), 12, kept(12, 6, 3, b)),
                (head(7, 3, b, &[]), 13, kept(13, 7, 3, b)),
                (head(7, 3, b, &[]), 13, kept(13, 7, 3, b)),
                (head(8, 3, three, &[]), 0, kept(13, 7, 3, b)),
                (head(7, 3, b, &[]), 12, kept(12, 7, 3, b)),
            ],
            a_record(3, 8, three),
        );
        // Refused with 8, it comes again when its size is held.
        check(
            &[
                (head(4, 1, one, &[]), 0, None),
                (head(6, 2, two, &[4; 32]), 8, kept(8, 6, 2, two)),
                (head(5, 2, two, &leaves[1]), 0, kept(8, 6, 2, two)),
                (head(6, 2, two, &[]), 0, kept(8, 6, 2, two)),
            ],
            a_record(2, 6, two),
        );
        // No page call keeps anything, nor changes what is kept.
        let pages = [(page(0, &leaves[1]), 0), (page(1, &leaves[1]), 8), (page(2, &[]), 6), (page(0, &[]), 7), (page(0, &[1]), 10)];
        let with = |kept: Option<Kept>| pages.clone().map(|(call, number)| (call, number, kept.clone()));
        let refused = (head(6, 2, b, &[]), 13, kept(13, 6, 2, b));
        let calls = [&[(page(0, &[]), 14, None), held][..], &with(None), &[refused.clone()], &with(refused.2)].concat();
        check(&calls, a_record(2, 5, two));
    }

    #[test]
    fn pages() {
        let pages = [b"one".to_vec(), b"two".to_vec()];
        let leaves: Vec<Hash> = pages.iter().map(|page| leaf_hash(digest, page)).collect();
        let held = a_record(2, 5, tree::root(digest, &leaves));
        let good = PageCall { place: 1, page: pages[1].clone(), path: leaves[0].to_vec() };
        assert_eq!(page(algorithm::hash, SHA256, &held, &good), 0);
        assert_eq!(page(algorithm::hash, SHA256, &held, &PageCall { place: 0, ..good.clone() }), 8);
        assert_eq!(page(algorithm::hash, SHA256, &held, &PageCall { place: 2, ..good.clone() }), 6);
        assert_eq!(page(algorithm::hash, SHA256, &held, &PageCall { path: vec![], ..good.clone() }), 7);
        assert_eq!(page(algorithm::hash, SHA256, &held, &PageCall { path: vec![1], ..good.clone() }), 10);
        assert_eq!(page(algorithm::hash, SHA256, &held, &PageCall { page: b"tow".to_vec(), ..good.clone() }), 8);
        assert_eq!(page(algorithm::hash, SHA256, &held, &PageCall { page: vec![0; LONGEST_ITEM + 1], place: 9, path: vec![1] }), 1);
        assert_eq!(page(algorithm::hash, SHA256, &held, &PageCall { page: vec![0; LONGEST_ITEM], ..good }), 8);
    }

    /// 16 before all else: for a number that no hash has, and for another than that of the first
    /// head that was accepted. It changes nothing.
    #[test]
    fn numbers() {
        let hashes = algorithm::hash;
        let longer = PageCall { place: 9, page: vec![0; LONGEST_ITEM + 1], path: vec![1] };
        let bad = Offer { log_id: vec![], root: vec![], ..an_offer(0, 0, [0; 32], &[1]) };
        for by in UNKNOWN {
            assert_eq!(page(hashes, by, &Record::EMPTY, &longer), 16);
            assert_eq!(offer(hashes, by, &Record::EMPTY, &bad), (16, Record::EMPTY));
            assert_eq!(offer(hashes, by, &Record::EMPTY, &an_offer(3, 5, [1; 32], &[])), (16, Record::EMPTY));
            // A record that no list returns.
            let held = holding(by, a_head(3, 5, [1; 32]));
            for other in [by, 0x00, 0xf0] {
                for root in [[1; 32], [2; 32]] {
                    assert_eq!(offer(hashes, other, &held, &an_offer(3, 5, root, &[])), (16, held.clone()));
                }
                assert_eq!(page(hashes, other, &held, &longer), 16);
            }
        }
        for by in KNOWN {
            assert_eq!((page(hashes, by, &Record::EMPTY, &longer), offer(hashes, by, &Record::EMPTY, &bad)), (14, (5, Record::EMPTY)));
            // A refused first head leaves no number.
            let leaves = [b"a", b"b", b"c"].map(|page| leaf_hash(hashes(by).unwrap(), page));
            let roots = [2, 3].map(|size| tree::root(hashes(by).unwrap(), &leaves[..size]));
            let (number, held) = offer(hashes, by, &Record::EMPTY, &an_offer(2, 5, roots[0], &[]));
            assert_eq!((number, &held), (0, &holding(by, a_head(2, 5, roots[0]))));
            let (good, again) = (an_offer(3, 6, roots[1], &leaves[2]), an_offer(2, 5, roots[0], &[]));
            // By the record's number these are 8, 13 and 12, and kept.
            let evidence = [an_offer(3, 6, roots[1], &leaves[1]), an_offer(2, 6, roots[1], &[]), an_offer(2, 5, roots[1], &[])];
            assert_eq!(evidence.each_ref().map(|one| offer(hashes, by, &held, one).1.kept.unwrap().number), [8, 13, 12]);
            let call = PageCall { place: 0, page: b"a".to_vec(), path: leaves[1].to_vec() };
            for another in UNKNOWN.into_iter().chain([other(by)]) {
                for one in [&good, &again, &bad].into_iter().chain(&evidence) {
                    assert_eq!(offer(hashes, another, &held, one), (16, held.clone()));
                }
                assert_eq!([&call, &longer].map(|call| page(hashes, another, &held, call)), [16; 2]);
            }
            assert_eq!([&call, &longer].map(|call| page(hashes, by, &held, call)), [0, 1]);
            // Each later head keeps the number.
            let (number, after) = offer(hashes, by, &held, &good);
            assert_eq!((number, after.held.map(|held| held.algorithm)), (0, Some(by)));
        }
        // An empty record looks at no number of its own.
        for number in UNKNOWN.into_iter().chain(KNOWN) {
            let empty = Stored { algorithm: number, ..Stored::EMPTY };
            for by in KNOWN {
                let (number, after) = empty.offer(hashes, by, &an_offer(3, 5, [1; 32], &[]));
                assert_eq!((number, after.held, after.algorithm), (0, true, by));
                assert_eq!(empty.offer(hashes, by, &bad), (5, empty.clone()));
                assert_eq!(empty.page(hashes, by, &longer), 14);
            }
            assert_eq!((empty.offer(hashes, 1, &bad), empty.page(hashes, 1, &longer)), ((16, empty.clone()), 16));
        }
        let one = Dispute {
            first: longer.clone(),
            size: 0,
            root: vec![],
            heads: vec![1],
            second_page: longer.page.clone(),
            second_path: vec![1],
        };
        assert_eq!(UNKNOWN.map(|by| dispute(hashes, by, &one, &mut [])), UNKNOWN.map(|_| Settled::Refused(16)));
        assert_eq!(KNOWN.map(|by| dispute(hashes, by, &one, &mut [])), [Settled::Refused(1); 2]);
    }

    /// Demand 3 on one list: for any two accepted pages at one place the bytes
    /// are the same, or two strings are handed over that differ and have one hash.
    fn check_list(hashes: Hashes, calls: &[(u64, Call)]) -> [usize; 3] {
        let answers = run(hashes, calls);
        let accepted: Vec<bool> = answers.iter().map(|(number, _)| *number == 0).collect();
        let mut met = [0; 3];
        for (algorithm, one) in disputes(calls, &accepted) {
            let h = hashes(algorithm).unwrap();
            // The record's, since the first head was accepted.
            assert_eq!(answers.last().unwrap().1.held.as_ref().unwrap().algorithm, algorithm);
            let mut pair = [8; PAIR + 1];
            let settled = dispute(hashes, algorithm, &one, &mut pair);
            match strings(&one, settled, &pair) {
                Some((a, b)) => {
                    assert_ne!(a, b);
                    assert_eq!(h(&a), h(&b));
                }
                None => assert_eq!(one.first.page, one.second_page),
            }
            assert!(settled == Settled::Nodes && pair[PAIR] == 8 || pair == [8; PAIR + 1]);
            met[match settled {
                Settled::Same => 0,
                Settled::Nodes => 1,
                Settled::Pages => 2,
                Settled::Refused(number) => panic!("refused with {number}"),
            }] += 1;
        }
        met
    }

    /// Calls by one number, with some by others among them.
    fn some_calls(hashes: Hashes, kind: Kind, bits: u64, tries: usize, random: &mut Random) -> Vec<(u64, Call)> {
        let most = u64::MAX >> random.between(64 - bits, 63);
        let algorithm = algorithm::some(random);
        let calls = Server::random(hashes, algorithm, kind, most, random).calls(40, tries, random);
        with_strays(algorithm, calls, random)
    }

    /// Every offer and every page after the first offer is accepted, but for those by other
    /// numbers.
    #[test]
    fn honest_log() {
        let random = &mut Random::new(3);
        let mut all = 0;
        for _ in 0..30 {
            let calls = some_calls(algorithm::hash, Kind::Honest, 64, 0, random);
            let refused = run(algorithm::hash, &calls).into_iter().find(|(number, _)| ![0, 14, 16].contains(number));
            assert_eq!(refused, None);
            let [same, nodes, pages] = check_list(algorithm::hash, &calls);
            assert_eq!((nodes, pages), (0, 0));
            all += same;
        }
        assert!(all > 300, "{all}");
    }

    #[test]
    fn forging_log() {
        let random = &mut Random::new(33);
        let mut met = [0; 3];
        for kind in KINDS {
            for _ in 0..30 {
                for (all, one) in met.iter_mut().zip(check_list(weak, &some_calls(weak, kind, 6, 60, random))) {
                    *all += one;
                }
            }
        }
        assert!(met.iter().all(|count| *count > 50), "{met:?}");
    }

    /// Sizes never fall and timestamps never go back, one timestamp has one head, and the hash
    /// stays. The record as it is stored answers as the paper's does.
    #[test]
    fn records_only_grow() {
        let random = &mut Random::new(333);
        let mut others = 0;
        for _ in 0..40 {
            let calls = some_calls(weak, Kind::Forging, 6, 60, random);
            let (mut before, mut stored) = (Record::EMPTY, Stored::EMPTY);
            for ((by, call), (number, after)) in calls.iter().zip(run(weak, &calls)) {
                if number != 0 {
                    assert_eq!(before.held, after.held);
                }
                let is_other = before.held.as_ref().is_some_and(|held| held.algorithm != *by);
                assert_eq!(number == 16, weak(*by).is_none() || is_other);
                others += (number == 16) as usize;
                if let (Some(old), Some(new)) = (&before.held, &after.held) {
                    let (Held { algorithm, head: old }, Held { algorithm: then, head: new }) = (old, new);
                    assert!(new.size >= old.size && new.timestamp >= old.timestamp && new.log_id == old.log_id);
                    assert!((new.timestamp > old.timestamp || new == old) && then == algorithm);
                }
                assert!(before.held.is_none() || after.held.is_some());
                stored = match call {
                    Call::Offer(one) => {
                        let (answer, next) = stored.offer(weak, *by, one);
                        assert_eq!(answer, number);
                        next
                    }
                    Call::Page(one) => {
                        assert_eq!(stored.page(weak, *by, one), number);
                        stored
                    }
                };
                assert_eq!(stored.record(), after);
                before = after;
            }
        }
        assert!(others > 100, "{others}");
    }

    /// The latest head of a list that was refused with 8, with 13, or with 12 where its size is that
    /// of the head then held and its root another, by the calls and their numbers alone.
    fn latest(calls: &[(u64, Call)], numbers: &[u64]) -> Option<(usize, Kept)> {
        (0..calls.len()).rev().find_map(|at| {
            let Call::Offer(one) = &calls[at].1 else { return None };
            let is_such = match numbers[at] {
                8 | 13 => true,
                12 => {
                    let held = accepted_heads(calls, numbers, at).last().unwrap();
                    one.size == held.size && one.root != held.root
                }
                _ => false,
            };
            let head = || a_head(one.size, one.timestamp, one.root[..].try_into().unwrap());
            is_such.then(|| (at, Kept { number: numbers[at], head: Head { log_id: one.log_id.clone(), ..head() } }))
        })
    }

    fn accepted_heads<'a>(calls: &'a [(u64, Call)], numbers: &'a [u64], before: usize) -> impl Iterator<Item = &'a Offer> {
        calls[..before].iter().zip(numbers).filter_map(|((_, call), number)| match call {
            Call::Offer(one) if *number == 0 => Some(one),
            _ => None,
        })
    }

    /// After every call of a list the second place has the latest such head, or none where there was none;
    /// every other refusal leaves the whole record as it was. What stands there is evidence.
    fn check_second_place(hashes: Hashes, calls: &[(u64, Call)], met: &mut [usize; 4]) {
        let answers = run(hashes, calls);
        let numbers: Vec<u64> = answers.iter().map(|(number, _)| *number).collect();
        let mut before = &Record::EMPTY;
        for (at, (number, after)) in answers.iter().enumerate() {
            let latest = latest(&calls[..=at], &numbers);
            assert_eq!(after.kept.as_ref(), latest.as_ref().map(|(_, kept)| kept));
            let is_new = latest.as_ref().is_some_and(|(then, _)| *then == at);
            assert!(if *number == 0 { before.kept == after.kept } else { before.held == after.held });
            assert!(*number == 0 || is_new || before == after);
            before = after;
            let Some((then, Kept { number, head })) = latest else {
                met[0] += 1;
                continue;
            };
            let mut accepted = accepted_heads(calls, &numbers, then);
            let is_of = |one: &Offer| one.log_id == head.log_id && one.size == head.size && one.root != head.root;
            match number {
                8 => assert!(accepted.last().is_some_and(|held| held.log_id == head.log_id && held.size < head.size)),
                _ => assert!(accepted.any(is_of)),
            }
            met[1 + [8, 12, 13].iter().position(|other| *other == number).unwrap()] += 1;
        }
    }

    #[test]
    fn second_place_has_the_latest() {
        let random = &mut Random::new(8);
        let mut met = [0; 4];
        for _ in 0..40 {
            for kind in KINDS {
                check_second_place(algorithm::hash, &some_calls(algorithm::hash, kind, 64, 0, random), &mut met);
                check_second_place(weak, &some_calls(weak, kind, 6, 20, random), &mut met);
            }
        }
        assert!(met.iter().all(|count| *count > 200), "{met:?}");
    }

    /// Two records that differ in the second place alone give like answers and hold like heads for
    /// ever; each keeps its own bytes there until a refused head is kept, and from then on they are alike.
    #[test]
    fn nothing_depends_on_the_second_place() {
        let random = &mut Random::new(88);
        let (mut apart, mut alike) = (0, 0);
        for turn in 0..120 {
            let calls = some_calls(weak, KINDS[turn % 3], 6, 20, random);
            let id_length = *random.pick(&[0, 2, 127, 128, u64::MAX]);
            let any = Second { number: random.draw() as u32, id: [random.byte(); LONGEST_ID], id_length, ..Second::EMPTY };
            // Empty, or of one of the heads that come, or any.
            let second = match (random.below(3), &calls[random.below(calls.len() as u64) as usize].1) {
                (0, _) => Second { number: 0, root: random.hash(), ..any },
                (1, Call::Offer(one)) if one.head().is_ok() => Second::of(&Kept { number: 13, head: one.head().unwrap() }),
                _ => Second { timestamp: random.below(9), size: random.below(9), root: random.hash(), ..any },
            };
            let mut two = [Stored::EMPTY, Stored { second: second.clone(), ..Stored::EMPTY }];
            let mut is_kept = false;
            for (by, call) in &calls {
                let answers = two.each_ref().map(|record| match call {
                    Call::Offer(one) => record.offer(weak, *by, one),
                    Call::Page(one) => (record.page(weak, *by, one), record.clone()),
                });
                assert_eq!(answers[0].0, answers[1].0);
                two = answers.map(|(_, after)| after);
                is_kept |= two[0].second != Second::EMPTY;
                let expected = if is_kept { two[0].second.clone() } else { second.clone() };
                assert_eq!(two[1], Stored { second: expected, ..two[0].clone() });
                *if is_kept { &mut alike } else { &mut apart } += 1;
            }
        }
        assert!(apart > 500 && alike > 500, "{apart} {alike}");
    }

    /// A stored second place of any value is read, and comes back as it was where nothing is kept; what
    /// is kept has zeros after its log id.
    #[test]
    fn stored_second_places() {
        let root = tree::root(digest, &[[1; 32], [2; 32]]);
        let (_, held) = Stored::EMPTY.offer(algorithm::hash, SHA256, &an_offer(2, 5, root, &[]));
        assert_eq!((held.record(), &held.second), (a_record(2, 5, root), &Second::EMPTY));
        let mut id = [0; LONGEST_ID];
        id[..3].copy_from_slice(b"log");
        let other = Second { number: 13, id, id_length: 3, timestamp: 6, size: 2, root: [7; 32] };
        let garbage = Second { id: [9; LONGEST_ID], ..other.clone() };
        for number in [0, 1, 7, 8, 12, 13, u32::MAX] {
            for id_length in [0, 1, 2, 127, 128, 1 << 63, u64::MAX] {
                let second = Second { number, id_length, ..garbage.clone() };
                for before in [&held, &Stored { held: false, ..held.clone() }] {
                    let before = Stored { second: second.clone(), ..before.clone() };
                    let log_id = vec![9; id_length.min(127) as usize];
                    let kept = Kept { number: number.into(), head: Head { log_id, ..a_head(2, 6, [7; 32]) } };
                    assert_eq!(before.record().kept, Some(kept).filter(|_| number != 0));
                    // Accepted, also as the very first; refused with 7 and with 16.
                    let accepted = Stored { second: second.clone(), ..held.clone() };
                    assert_eq!(before.offer(algorithm::hash, SHA256, &an_offer(2, 5, root, &[])), (0, accepted));
                    assert_eq!(before.offer(algorithm::hash, SHA256, &an_offer(2, 5, root, &[0; 32])), (7, before.clone()));
                    assert_eq!(before.offer(algorithm::hash, 1, &an_offer(2, 6, [7; 32], &[])), (16, before.clone()));
                }
                let before = Stored { second, ..held.clone() };
                let after = Stored { second: other.clone(), ..held.clone() };
                assert_eq!(before.offer(algorithm::hash, SHA256, &an_offer(2, 6, [7; 32], &[])), (13, after));
            }
        }
    }

    /// A head is cut wherever it ends before its last node.
    #[test]
    fn heads_are_taken_off() {
        let mut joined = Vec::new();
        join_head(0x0102030405060708, &[9; 32], &[7; 64], &mut joined);
        assert_eq!(joined[..8], [1, 2, 3, 4, 5, 6, 7, 8]);
        assert_eq!(joined[40..42], [0, 2]);
        assert_eq!(joined.len(), 42 + 64);
        for length in 0..joined.len() {
            assert_eq!(next_head(&mut &joined[..length]), None);
        }
        join_head(5, &[1; 32], &[], &mut joined);
        let mut rest = &joined[..];
        assert_eq!(next_head(&mut rest), Some((0x0102030405060708, &[9; 32][..], &[7; 64][..])));
        assert_eq!(next_head(&mut rest), Some((5, &[1; 32][..], &[][..])));
        assert!(rest.is_empty());
    }

    #[test]
    fn long_pages_in_disputes() {
        let leaf = leaf_hash(digest, b"page");
        let good = Dispute {
            first: PageCall { place: 0, page: b"page".to_vec(), path: vec![] },
            size: 1,
            root: leaf.to_vec(),
            heads: vec![],
            second_page: b"page".to_vec(),
            second_path: vec![],
        };
        assert_eq!(dispute(algorithm::hash, SHA256, &good, &mut [0; 130]), Settled::Same);
        let long = |length: usize| vec![0; LONGEST_ITEM + length];
        let first = |length: usize| Dispute { first: PageCall { page: long(length), ..good.first.clone() }, ..good.clone() };
        let second = |length: usize| Dispute { second_page: long(length), ..good.clone() };
        assert_eq!(dispute(algorithm::hash, SHA256, &first(0), &mut [0; 130]), Settled::Refused(8));
        assert_eq!(dispute(algorithm::hash, SHA256, &second(0), &mut [0; 130]), Settled::Refused(8));
        for one in [first(1), second(1)] {
            assert_eq!(dispute(algorithm::hash, SHA256, &Dispute { root: vec![], heads: vec![0], ..one }, &mut []), Settled::Refused(1));
        }
    }
}
