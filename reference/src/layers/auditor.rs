//! The auditor: head offers and page calls over a record of any value, and
//! disputes. With SHA-256 and SM3 no collision can be met; the tests of this module run
//! the same requests over weak hashes.

use crate::algorithm::{self, Hashes, KNOWN, SHA256, SM3, UNKNOWN};
use crate::auditor::{self, disputes, join_head, Call, Dispute, Offer, PageCall, Second, Settled, Stored, LONGEST_ID};
use crate::proofs::{judged, next_to_powers, plain_consistency, some_places, Proof};
use crate::random::Random;
use crate::requests::{lines_that_are_no_request, Asked, Entry, Layer, Requests};
use crate::servers::{spoil, with_strays, Kind, Log, Server, KINDS};
use crate::tree::{leaf_hash, node_hash, Hash, LARGEST_SIZE};
use crate::words::{bytes, number, read_line, repeated, short, write_line, Word};
use crate::yields;
use std::cmp::Ordering::{self, Equal, Greater, Less};

pub const LAYER: Layer = Layer {
    name: "auditor",
    entries: &[
        Entry { name: "offer", answer: |words| offer(algorithm::hash, words), random: random_offer },
        Entry { name: "page", answer: |words| page(algorithm::hash, words), random: random_page },
        Entry { name: "dispute", answer: |words| dispute(algorithm::hash, words), random: random_dispute },
        Entry { name: "append", answer: append, random: random_append },
    ],
    lists: Some(random_list),
    cases,
    full,
};

// Answers.

/// An offer or a page call with its number and the record that it is given.
#[derive(Clone)]
struct Given<T> {
    by: u64,
    record: Stored,
    call: T,
}

/// The bytes of the second place: the number in 4 bytes, three numbers in 8 each, log id and root.
const SECOND: usize = 4 + 3 * 8 + LONGEST_ID + 32;

fn read_second(bytes: &[u8]) -> Option<Second> {
    let bytes: &[u8; SECOND] = bytes.try_into().ok()?;
    let eight = |at: usize| u64::from_be_bytes(bytes[at..at + 8].try_into().unwrap());
    Some(Second {
        number: u32::from_be_bytes(bytes[..4].try_into().unwrap()),
        id_length: eight(4),
        timestamp: eight(12),
        size: eight(20),
        id: bytes[28..28 + LONGEST_ID].try_into().unwrap(),
        root: bytes[28 + LONGEST_ID..].try_into().unwrap(),
    })
}

fn second_bytes(of: &Second) -> Vec<u8> {
    let numbers = [of.id_length, of.timestamp, of.size].map(u64::to_be_bytes).concat();
    [&of.number.to_be_bytes()[..], &numbers, &of.id, &of.root].concat()
}

fn read_record(words: &[Word]) -> Option<Stored> {
    let [held, algorithm, id, id_length, timestamp, size, root, second] = words else { return None };
    Some(Stored {
        held: held.as_flag()?,
        algorithm: algorithm.as_number()?,
        id: id.as_bytes()?.try_into().ok()?,
        id_length: id_length.as_number()?,
        timestamp: timestamp.as_number()?,
        size: size.as_number()?,
        root: root.as_hash()?,
        second: read_second(second.as_bytes()?)?,
    })
}

/// Its bytes are written by `word`.
fn record_words(record: &Stored, word: fn(&[u8]) -> Word) -> Vec<Word> {
    vec![
        number(record.held as u64),
        number(record.algorithm),
        word(&record.id),
        number(record.id_length),
        number(record.timestamp),
        number(record.size),
        word(&record.root),
        word(&second_bytes(&record.second)),
    ]
}

fn answered(refusal: u64, after: &Stored) -> Vec<Word> {
    [vec![number(refusal)], record_words(after, bytes)].concat()
}

fn read_offer(words: &[Word]) -> Option<Given<Offer>> {
    let [algorithm, record @ .., log_id, timestamp, size, root, path] = words else { return None };
    let call = Offer {
        log_id: log_id.as_bytes()?.to_vec(),
        timestamp: timestamp.as_number()?,
        size: size.as_number()?,
        root: root.as_bytes()?.to_vec(),
        path: path.as_bytes()?.to_vec(),
    };
    Some(Given { by: algorithm.as_number()?, record: read_record(record)?, call })
}

fn offer(hashes: Hashes, words: &[Word]) -> Option<Vec<Word>> {
    let Given { by, record, call } = read_offer(words)?;
    let (refusal, after) = record.offer(hashes, by, &call);
    Some(answered(refusal, &after))
}

fn read_page(words: &[Word]) -> Option<Given<PageCall>> {
    let [algorithm, record @ .., place, page, path] = words else { return None };
    let call = PageCall { place: place.as_number()?, page: page.as_bytes()?.to_vec(), path: path.as_bytes()?.to_vec() };
    Some(Given { by: algorithm.as_number()?, record: read_record(record)?, call })
}

fn page(hashes: Hashes, words: &[Word]) -> Option<Vec<Word>> {
    let Given { by, record, call } = read_page(words)?;
    Some(answered(record.page(hashes, by, &call), &record))
}

fn dispute(hashes: Hashes, words: &[Word]) -> Option<Vec<Word>> {
    let [algorithm, page, place, path, size, root, heads, second_page, second_path, pair] = words else { return None };
    let one = Dispute {
        first: PageCall { place: place.as_number()?, page: page.as_bytes()?.to_vec(), path: path.as_bytes()?.to_vec() },
        size: size.as_number()?,
        root: root.as_bytes()?.to_vec(),
        heads: heads.as_bytes()?.to_vec(),
        second_page: second_page.as_bytes()?.to_vec(),
        second_path: second_path.as_bytes()?.to_vec(),
    };
    let mut pair = pair.as_bytes()?.to_vec();
    let (refusal, outcome) = match auditor::dispute(hashes, algorithm.as_number()?, &one, &mut pair) {
        Settled::Refused(refusal) => (refusal, 0),
        Settled::Same => (0, 1),
        Settled::Nodes => (0, 2),
        Settled::Pages => (0, 3),
    };
    Some(vec![number(refusal), number(outcome), bytes(&pair)])
}

fn append(words: &[Word]) -> Option<Vec<Word>> {
    let [journal, used, size, root, path] = words else { return None };
    let mut journal = journal.as_bytes()?.to_vec();
    let after = auditor::append(&mut journal, used.as_number()?, size.as_number()?, root.as_bytes()?, path.as_bytes()?);
    Some(vec![number(after.err().unwrap_or(0)), number(after.unwrap_or(0)), bytes(&journal)])
}

// Requests, each by a number of its own.

fn ask_offer(by: u64, record: &Stored, one: &Offer) -> Asked {
    let mut words = [vec![number(by)], record_words(record, short)].concat();
    words.extend([short(&one.log_id), number(one.timestamp), number(one.size), short(&one.root), short(&one.path)]);
    ("offer", words)
}

fn ask_page(by: u64, record: &Stored, one: &PageCall) -> Asked {
    let mut words = [vec![number(by)], record_words(record, short)].concat();
    words.extend([number(one.place), short(&one.page), short(&one.path)]);
    ("page", words)
}

fn ask_dispute(by: u64, one: &Dispute, pair: Word) -> Asked {
    let words = vec![
        number(by),
        short(&one.first.page),
        number(one.first.place),
        short(&one.first.path),
        number(one.size),
        short(&one.root),
        short(&one.heads),
        short(&one.second_page),
        short(&one.second_path),
        pair,
    ];
    ("dispute", words)
}

fn ask_append(journal: &[u8], used: u64, head: &Offer) -> Asked {
    ("append", vec![short(journal), number(used), number(head.size), short(&head.root), short(&head.path)])
}

/// The accepted heads appended to a journal, one after the other, some of them
/// damaged too; the journal may be too short for the last ones.
fn ask_journal(calls: &[(u64, Call)], accepted: &[bool], random: &mut Random) -> Vec<Asked> {
    let heads = || {
        calls.iter().zip(accepted).filter_map(|((_, call), accepted)| match call {
            Call::Offer(head) if *accepted => Some(head),
            _ => None,
        })
    };
    let whole: usize = heads().map(|head| 42 + head.path.len()).sum();
    let start = random.below(3) as usize;
    let room = start + whole + random.below(4) as usize;
    let mut journal = vec![random.byte(); if random.one_in(3) { random.below(room as u64 + 1) as usize } else { room }];
    let mut used = start as u64;
    let mut all = Vec::new();
    for head in heads() {
        if random.one_in(4) {
            all.push(damaged_append(&journal, used, head.clone(), random));
        }
        all.push(ask_append(&journal, used, head));
        match auditor::append(&mut journal, used, head.size, &head.root, &head.path) {
            Ok(after) => used = after,
            Err(_) => break,
        }
    }
    all
}

fn damaged_append(journal: &[u8], mut used: u64, mut head: Offer, random: &mut Random) -> Asked {
    let mut room = journal.len();
    let need = 42 + head.path.len();
    match random.below(12) {
        0 => drop(head.root.pop()),
        1 => head.root.push(random.byte()),
        2 => head.root.clear(),
        3 => head.path.push(random.byte()),
        4 => (head.root, head.path) = (vec![0; 31], vec![0; 31]),
        5 => room = room.min(used as usize + need).saturating_sub(1),
        6 => room = random.below(room as u64 + 1) as usize,
        7 => used = room as u64 + random.below(3),
        8 => used = *random.pick(&[u64::MAX, u64::MAX - 41, u64::MAX - need as u64, 1 << 63]),
        9 => used = (room as u64).saturating_sub(need as u64) + random.below(2),
        10 => head.size = random.draw() >> random.below(64),
        _ => head.path.extend(random.bytes(32)),
    }
    ask_append(&journal[..room], used, &head)
}

/// A list of calls, each given the record that the call before returned, and which were accepted.
fn ask_calls(hashes: Hashes, calls: &[(u64, Call)]) -> (Vec<Asked>, Vec<bool>) {
    let mut record = Stored::EMPTY;
    let ask = |(by, call): &(u64, Call)| {
        let (asked, (refusal, after)) = match call {
            Call::Offer(one) => (ask_offer(*by, &record, one), record.offer(hashes, *by, one)),
            Call::Page(one) => (ask_page(*by, &record, one), (record.page(hashes, *by, one), record.clone())),
        };
        record = after;
        (asked, refusal == 0)
    };
    calls.iter().map(ask).unzip()
}

/// A list of calls; then the accepted heads appended to a journal, and the dispute of every
/// two accepted pages at one place, some of them damaged.
fn ask_list(hashes: Hashes, calls: &[(u64, Call)], random: &mut Random) -> Vec<Asked> {
    let (mut all, accepted) = ask_calls(hashes, calls);
    all.extend(ask_journal(calls, &accepted, random));
    for (by, one) in disputes(calls, &accepted) {
        let room = *random.pick(&[130, 130, 131, 150]);
        all.push(ask_dispute(by, &one, repeated(room, random.byte())));
        if random.one_in(2) {
            all.push(damaged_dispute(by, one, random));
        }
    }
    all
}

/// Where each head starts, and the end of the last.
fn starts(heads: &[u8]) -> Vec<usize> {
    let mut starts = vec![0];
    while let Some(count) = heads.get(starts[starts.len() - 1] + 40..).filter(|rest| rest.len() >= 2) {
        let next = starts[starts.len() - 1] + 42 + 32 * (256 * count[0] as usize + count[1] as usize);
        if next > heads.len() {
            break;
        }
        starts.push(next);
    }
    starts
}

fn damaged_dispute(mut by: u64, mut one: Dispute, random: &mut Random) -> Asked {
    let starts = starts(&one.heads);
    // A head that is there, or nothing.
    let (from, to) = match starts.len() {
        1 => (0, 0),
        count => {
            let which = random.below(count as u64 - 1) as usize;
            (starts[which], starts[which + 1])
        }
    };
    let mut room = 130;
    match random.below(20) {
        0 => one.heads.truncate(random.below(one.heads.len() as u64 + 1) as usize),
        1 => one.heads.truncate(one.heads.len().saturating_sub(1)),
        2 => drop(one.heads.drain(from..to)),
        3 if starts.len() > 2 => {
            let (a, b) = (starts[0] + 8, starts[1] + 8);
            for i in 0..32 {
                one.heads.swap(a + i, b + i);
            }
        }
        4 if from < to => one.root.swap_with_slice(&mut one.heads[from + 8..from + 40]),
        5 => room = random.below(130) as usize,
        6 => (room, one.second_path) = (129, one.first.path.clone()),
        7 => one.first.place = one.first.place.wrapping_add(1),
        8 => one.first.place = random.draw() >> random.below(64),
        9 => spoil(&mut one.heads, random),
        10 if from < to => one.heads[from + random.below(42) as usize] ^= 1 << random.below(8),
        11 => spoil(&mut one.root, random),
        12 => spoil(&mut one.first.path, random),
        13 => spoil(&mut one.second_path, random),
        14 => spoil(&mut one.first.page, random),
        15 => spoil(&mut one.second_page, random),
        16 if from < to => {
            let again = one.heads[from..to].to_vec();
            one.heads.splice(to..to, again);
        }
        17 => by = algorithm::some_unknown(random),
        18 => by = algorithm::other(by),
        _ => one.size = one.size.wrapping_add(random.below(3)).wrapping_sub(1),
    }
    let byte = random.byte();
    ask_dispute(by, &one, repeated(room, byte))
}

// Committed cases.

fn ask_all(requests: &mut Requests, all: Vec<Asked>) {
    all.iter().for_each(|(name, words)| requests.ask(name, words));
}

/// The faults of a request in the order of refusals: the number, and what makes it so.
type Faults<T> = Vec<(u64, fn(&mut T))>;

/// No fault, each alone, and each two at once, with the number that must be given.
/// The earlier fault is put in last, so that it is there whatever the other did.
/// Of neighbours with one number only the first stands in pairs, unless all are wanted.
fn with_faults<T: Clone>(good: &T, faults: &Faults<T>, every_pair: bool) -> Vec<(u64, T)> {
    let mut all = vec![(0, good.clone())];
    let paired = |at: &usize| every_pair || *at == 0 || faults[at - 1].0 != faults[*at].0;
    for (at, (refusal, fault)) in faults.iter().enumerate() {
        let others = (at + 1..faults.len()).filter(|other| paired(&at) && paired(other));
        for other in others.map(Some).chain([None]) {
            let mut one = good.clone();
            other.into_iter().for_each(|other| faults[other].1(&mut one));
            fault(&mut one);
            all.push((*refusal, one));
        }
    }
    all
}

/// No fault, and each alone.
fn with_single_faults<T: Clone>(good: &T, faults: &Faults<T>) -> Vec<(u64, T)> {
    let mut all = vec![(0, good.clone())];
    for (refusal, fault) in faults {
        let mut one = good.clone();
        fault(&mut one);
        all.push((*refusal, one));
    }
    all
}

const ID: &[u8] = b"a log";

/// The longest log id, of one byte: a record with it is written shorter.
const LONG: &[u8] = &[7; LONGEST_ID];

fn node(by: u64, left: &Hash, right: &Hash) -> Hash {
    node_hash(algorithm::of(by), left, right)
}

fn stored(by: u64, id: &[u8], timestamp: u64, size: u64, root: [u8; 32]) -> Stored {
    let offer = Offer { log_id: id.to_vec(), timestamp, size, root: root.to_vec(), path: vec![] };
    let (refusal, record) = Stored::EMPTY.offer(algorithm::hash, by, &offer);
    assert_eq!(refusal, 0);
    record
}

/// Any bytes in the second place: a request with them is written shorter.
fn any_second() -> Second {
    read_second(&[0x2a; SECOND]).unwrap()
}

/// Nothing, any bytes, and a refused head of this log.
fn seconds(id: &[u8]) -> [Second; 3] {
    let (held, one) = (stored(SHA256, id, 5, 2, HELD), Offer { log_id: id.to_vec(), ..offered(7, 3, [0xd4; 32], &NEXT) });
    [Second::EMPTY, any_second(), held.offer(algorithm::hash, SHA256, &one).1.second]
}

/// A log of seven leaves, signed at 3, 6 and 7, with pages at 0 and 2.
fn seven(by: u64) -> Log {
    let mut log = Log::random(algorithm::of(by), 1, &mut Random::new(7));
    log.sizes = vec![3, 6, 7];
    log.pages = [(0, b"first page".to_vec()), (2, b"third page".to_vec())].into();
    log
}

/// Of an offer with a later timestamp and a larger size.
fn offer_faults() -> Faults<Given<Offer>> {
    vec![
        (16, |g| g.by = 0x1f0),
        (16, |g| g.by = algorithm::other(g.record.algorithm)),
        (16, |g| g.record.algorithm = algorithm::other(g.by)),
        (16, |g| g.record.algorithm ^= 0x100),
        (16, |g| (g.by, g.record.algorithm) = (1, 1)),
        (5, |g| g.call.root.truncate(31)),
        (5, |g| g.call.root.push(0)),
        (5, |g| g.call.log_id.truncate(1)),
        (5, |g| g.call.log_id = vec![7; 128]),
        (10, |g| g.call.path.push(0)),
        (11, |g| g.call.log_id = b"a lag".to_vec()),
        (11, |g| g.call.log_id.push(0)),
        (6, |g| g.call.size = 0),
        (6, |g| g.call.size = g.record.size - 1),
        (12, |g| g.call.timestamp = g.record.timestamp - 1),
        (12, |g| g.call.timestamp = g.record.timestamp),
        (12, |g| {
            g.call.timestamp = g.record.timestamp;
            g.call.size = g.record.size + 1;
            g.call.root = g.record.root.to_vec();
        }),
        (12, |g| {
            g.call.timestamp = g.record.timestamp;
            g.call.size = g.record.size;
            g.call.root = vec![9; 32];
        }),
        (13, |g| {
            g.call.size = g.record.size;
            g.call.root = vec![9; 32];
        }),
        (7, |g| g.call.path.extend([0; 32])),
        (7, |g| g.call.path.clear()),
        (8, |g| {
            if let Some(byte) = g.call.path.first_mut() {
                *byte ^= 1;
            }
        }),
        (8, |g| g.call.root[31] ^= 128),
    ]
}

fn offer_faults_of_the_empty_record() -> Faults<Given<Offer>> {
    vec![
        (16, |g| g.by = 0x1f0),
        (16, |g| g.by = 0x100),
        (16, |g| g.by = u64::MAX),
        (5, |g| g.call.root.truncate(31)),
        (5, |g| g.call.root.push(0)),
        (5, |g| g.call.log_id.truncate(1)),
        (5, |g| g.call.log_id = vec![7; 128]),
        (10, |g| g.call.path = vec![0; 33]),
        (10, |g| g.call.path = vec![0; 31]),
        (6, |g| g.call.size = 0),
        (7, |g| g.call.path.extend([0; 32])),
    ]
}

fn page_faults() -> Faults<Given<PageCall>> {
    vec![
        (16, |g| g.by = 0xef),
        // Of a head that is held: an empty record looks at no number of its own.
        (16, |g| (g.record.held, g.by) = (true, algorithm::other(g.record.algorithm))),
        (16, |g| (g.record.held, g.record.algorithm) = (true, algorithm::other(g.by))),
        (16, |g| (g.record.held, g.by, g.record.algorithm) = (true, 1, 1)),
        (14, |g| g.record.held = false),
        (10, |g| g.call.path.push(0)),
        (6, |g| g.call.place = g.record.size),
        (6, |g| g.record.size = 0),
        (6, |g| g.call.place = LARGEST_SIZE),
        (7, |g| g.call.path.extend([0; 32])),
        (7, |g| g.call.path.truncate(32)),
        (8, |g| g.call.path[0] ^= 1),
        (8, |g| g.call.page.push(0)),
        (8, |g| g.record.root[0] ^= 1),
    ]
}

/// A dispute whose heads are not joined yet.
#[derive(Clone)]
struct Open {
    by: u64,
    one: Dispute,
    heads: Vec<(u64, Vec<u8>, Vec<u8>)>,
    /// This head is cut after so many bytes, and none follows it.
    cut: Option<(usize, usize)>,
    pair: usize,
}

impl Open {
    fn asked(&self) -> Asked {
        let mut one = self.one.clone();
        for (at, (size, root, path)) in self.heads.iter().enumerate() {
            let start = one.heads.len();
            join_head(*size, root, path, &mut one.heads);
            if let Some((_, kept)) = self.cut.filter(|(head, _)| *head == at) {
                one.heads.truncate(start + kept);
                break;
            }
        }
        ask_dispute(self.by, &one, repeated(self.pair, 0x3c))
    }

    /// Of a page from one size to the last of these.
    fn new(by: u64, log: &Log, place: u64, sizes: &[u64]) -> Open {
        let (first, last) = (sizes[0], sizes[sizes.len() - 1]);
        let page = log.pages[&place].clone();
        Open {
            by,
            one: Dispute {
                first: PageCall { place, page: page.clone(), path: log.path(place, first) },
                size: first,
                root: log.root(first).to_vec(),
                heads: vec![],
                second_page: page,
                second_path: log.path(place, last),
            },
            heads: sizes.windows(2).map(|two| (two[1], log.root(two[1]).to_vec(), log.consistency_path(two[0], two[1]))).collect(),
            cut: None,
            pair: 130,
        }
    }
}

/// What is met before the heads.
fn first_proof_faults() -> Faults<Open> {
    vec![
        (16, |d| d.by = 0x1f0),
        (16, |d| d.by = 1),
        (16, |d| d.by = 0x100),
        (5, |d| d.one.root.truncate(31)),
        (10, |d| d.one.first.path.push(0)),
        (6, |d| d.one.first.place = d.one.size),
        (6, |d| d.one.size = 0),
        (6, |d| d.one.first.place = LARGEST_SIZE),
        (7, |d| d.one.first.path.extend([0; 32])),
        (8, |d| d.one.first.path[0] ^= 1),
        (8, |d| d.one.first.page.push(0)),
        (8, |d| d.one.root[0] ^= 1),
        (8, |d| d.by = algorithm::other(d.by)),
    ]
}

fn second_proof_faults() -> Faults<Open> {
    vec![
        (10, |d| d.one.second_path.push(0)),
        (7, |d| d.one.second_path.truncate(32)),
        (8, |d| d.one.second_path[40] ^= 1),
        (8, |d| d.one.second_page.push(0)),
    ]
}

/// No head between the two pages.
fn faults_without_heads() -> Faults<Open> {
    let mut faults = first_proof_faults();
    faults.extend(second_proof_faults());
    faults.push((9, |d| d.pair = 129));
    faults
}

/// Two heads between.
fn faults_with_heads() -> Faults<Open> {
    let mut faults = first_proof_faults();
    let more: Faults<Open> = vec![
        (2, |d| d.cut = Some((0, 41))),
        (2, |d| d.cut = Some((0, 42 + 31))),
        (2, |d| d.cut = Some((0, 1))),
        (6, |d| d.heads[0].0 = d.one.size - 1),
        (6, |d| d.heads[0].0 = 0),
        (7, |d| d.heads[0].2.truncate(32)),
        (7, |d| d.heads[0].2.extend([0; 32])),
        (8, |d| d.heads[0].1[0] ^= 1),
        (8, |d| d.heads[0].2[5] ^= 1),
        (9, |d| d.pair = 129),
        (2, |d| d.cut = Some((1, 41))),
        (2, |d| d.cut = Some((1, 1))),
        (6, |d| d.heads[1].0 = d.heads[0].0 - 1),
        (7, |d| d.heads[1].2.clear()),
        (8, |d| d.heads[1].1[31] ^= 1),
        // A third head, cut in its one node.
        (2, |d| {
            d.heads.push((7, d.heads[1].1.clone(), vec![0; 32]));
            d.cut = Some((2, 42 + 31));
        }),
    ];
    faults.extend(more);
    faults.extend(second_proof_faults());
    faults
}

/// Every request of the papers' rules, with the number that must be given.
fn rules(by: u64, every_pair: bool) -> Vec<(u64, Asked)> {
    let log = seven(by);
    let mut all = Vec::new();
    let offer =
        |timestamp: u64, size: u64, path: Vec<u8>| Offer { log_id: ID.to_vec(), timestamp, size, root: log.root(size).to_vec(), path };
    let ask_given = |(refusal, one): &(u64, Given<Offer>)| (*refusal, ask_offer(one.by, &one.record, &one.call));
    // A record that is empty may hold anything besides.
    let empty = Stored { id: [3; LONGEST_ID], id_length: 5, timestamp: 100, size: 9, root: [8; 32], second: any_second(), ..Stored::EMPTY };
    for record in [&Stored::EMPTY, &empty] {
        let good = Given { by, record: record.clone(), call: offer(50, 3, vec![]) };
        all.extend(with_faults(&good, &offer_faults_of_the_empty_record(), every_pair).iter().map(ask_given));
    }
    let three = stored(by, ID, 50, 3, log.root(3));
    let mut good = Given { by, record: three.clone(), call: offer(51, 7, log.consistency_path(3, 7)) };
    all.extend(with_faults(&good, &offer_faults(), every_pair).iter().map(ask_given));
    for second in &seconds(ID)[1..] {
        good.record.second = second.clone();
        all.extend(with_single_faults(&good, &offer_faults()).iter().map(ask_given));
    }

    // Limits, on both kinds of record: log ids, sizes and timestamps.
    for (length, refusal) in [(2, 0), (127, 0), (126, 0), (1, 5), (0, 5), (128, 5), (300, 5)] {
        let mut one = offer(0, 1, vec![]);
        one.log_id = (0..length).map(|i: u32| i as u8 | 1).collect();
        all.push((refusal, ask_offer(by, &Stored::EMPTY, &one)));
        if refusal == 0 {
            let record = stored(by, &one.log_id, 0, 1, log.root(1));
            all.push((0, ask_offer(by, &record, &one)));
            // The same id with its last byte changed, without it, and with one more.
            let (last, rest) = one.log_id.split_last().unwrap();
            for log_id in [[rest, &[last ^ 1]].concat(), rest.to_vec(), [&one.log_id[..], &[1]].concat()] {
                let other = Offer { log_id, ..one.clone() };
                let refusal = if (2..=127).contains(&other.log_id.len()) { 11 } else { 5 };
                all.push((refusal, ask_offer(by, &record, &other)));
            }
        } else {
            all.push((refusal, ask_offer(by, &three, &one)));
        }
    }
    let hash = [6; 32];
    let any = |size: u64, path: Vec<u8>| Offer { log_id: LONG.to_vec(), timestamp: 50, size, root: hash.to_vec(), path };
    let later = |one: Offer| Offer { timestamp: 51, ..one };
    all.push((6, ask_offer(by, &Stored::EMPTY, &any(0, vec![]))));
    for size in [1, 2, 1 << 32, (1 << 32) + 1, 1 << 63, LARGEST_SIZE - 1, LARGEST_SIZE] {
        all.push((0, ask_offer(by, &Stored::EMPTY, &any(size, vec![]))));
        // The same head again, with a later and an earlier timestamp, with a node, and with another root.
        let record = stored(by, LONG, 50, size, hash);
        all.push((0, ask_offer(by, &record, &any(size, vec![]))));
        all.push((0, ask_offer(by, &record, &Offer { timestamp: u64::MAX, ..any(size, vec![]) })));
        all.push((12, ask_offer(by, &record, &Offer { timestamp: 49, ..any(size, vec![]) })));
        all.push((7, ask_offer(by, &record, &any(size, vec![0; 32]))));
        let other = Offer { root: vec![7; 32], ..any(size, vec![]) };
        all.push((12, ask_offer(by, &record, &other)));
        all.push((13, ask_offer(by, &record, &later(other))));
        if size < LARGEST_SIZE {
            all.push((12, ask_offer(by, &record, &any(size + 1, vec![]))));
            all.push((7, ask_offer(by, &record, &later(any(size + 1, vec![])))));
        }
        all.push((6, ask_offer(by, &record, &any(size - 1, vec![]))));
    }
    // Every way to differ; over other second places mostly in the large run.
    for (at, second) in seconds(LONG).into_iter().enumerate() {
        for held in [5, 0, u64::MAX].into_iter().filter(|held| every_pair || at == 0 || (at, *held) == (1, 5)) {
            let record = Stored { second: second.clone(), ..held_at(by, held) };
            all.extend(grid(by, held).iter().map(|(how, one)| (how.number(), ask_offer(by, &record, one))));
        }
    }
    for list in refused_heads(by) {
        let calls: Vec<(u64, Call)> = list.iter().map(|(_, _, by, call)| (*by, call.clone())).collect();
        all.extend(list.iter().map(|(refusal, ..)| *refusal).zip(ask_calls(algorithm::hash, &calls).0));
    }
    all.extend(far_apart(by));

    // Records that no list of calls returns.
    for (id_length, whole) in [(0, false), (1, false), (127, true), (128, true), (1 << 63, true), (u64::MAX, true)] {
        let record = Stored { held: true, id: [7; LONGEST_ID], id_length, ..stored(by, ID, 50, 3, log.root(3)) };
        let one = Offer { log_id: vec![7; LONGEST_ID], ..offer(51, 6, log.consistency_path(3, 6)) };
        all.push((if whole { 0 } else { 11 }, ask_offer(by, &record, &one)));
        all.push((11, ask_offer(by, &record, &Offer { log_id: vec![7; 126], ..one.clone() })));
        let fork = Offer { size: 3, ..one };
        all.push((if whole { 13 } else { 11 }, ask_offer(by, &record, &fork)));
        let page = PageCall { place: 2, page: log.pages[&2].clone(), path: log.path(2, 3) };
        all.push((0, ask_page(by, &record, &page)));
    }
    // Bytes after the log id are not looked at, and are zeros once a head is accepted.
    let mut garbage = Stored { second: any_second(), ..three.clone() };
    garbage.id[ID.len()..].fill(0xee);
    all.push((0, ask_offer(by, &garbage, &offer(51, 6, log.consistency_path(3, 6)))));
    all.push((0, ask_offer(by, &garbage, &offer(50, 3, vec![]))));
    all.push((12, ask_offer(by, &garbage, &offer(50, 6, log.consistency_path(3, 6)))));
    all.push((12, ask_offer(by, &garbage, &offer(49, 6, log.consistency_path(3, 6)))));
    all.push((11, ask_offer(by, &garbage, &Offer { log_id: garbage.id[..ID.len() + 1].to_vec(), ..offer(50, 6, vec![]) })));
    // A head of no leaves takes none behind it, whatever their size.
    let nothing = Stored { size: 0, second: any_second(), ..stored(by, LONG, 50, 1, hash) };
    for offered in [0, 1, 3, (1 << 32) + 1, LARGEST_SIZE] {
        for path in [vec![], vec![0; 32]] {
            let one = any(offered, path);
            all.push((if offered == 0 { 6 } else { 12 }, ask_offer(by, &nothing, &one)));
            all.push((6, ask_offer(by, &nothing, &later(one))));
        }
    }
    all.push((12, ask_offer(by, &nothing, &Offer { timestamp: 49, ..any(3, vec![]) })));
    for place in [0, 1, u64::MAX] {
        all.push((6, ask_page(by, &nothing, &PageCall { place, page: vec![], path: vec![] })));
    }

    // Pages.
    let call = PageCall { place: 0, page: log.pages[&0].clone(), path: log.path(0, 7) };
    let good = Given { by, record: Stored { second: any_second(), ..stored(by, ID, 50, 7, log.root(7)) }, call };
    all.extend(
        with_faults(&good, &page_faults(), every_pair).iter().map(|(refusal, one)| (*refusal, ask_page(one.by, &one.record, &one.call))),
    );
    all.push((14, ask_page(by, &Stored::EMPTY, &good.call)));
    all.push((14, ask_page(by, &empty, &PageCall { path: vec![1], ..good.call.clone() })));
    for (size, place) in [(1, 0), (2, 1), (3, 2)] {
        all.extend(plain_pages(by, place, size));
    }

    // Journals. A head of two nodes has 106 bytes.
    let journal: Vec<u8> = (0..=255).collect();
    let head = any(1 << 40, [[8; 32], [9; 32]].concat());
    for (room, used, refusal) in [
        (106, 0, 0),
        (256, 0, 0),
        (256, 150, 0),
        (107, 1, 0),
        (105, 0, 9),
        (256, 151, 9),
        (0, 0, 9),
        (256, 256, 9),
        (256, 257, 9),
        (106, u64::MAX, 9),
    ] {
        all.push((refusal, ask_append(&journal[..room], used, &head)));
        all.push((10, ask_append(&journal[..room], used, &Offer { path: vec![8; 63], ..head.clone() })));
        for length in [0, 31, 33] {
            all.push((5, ask_append(&journal[..room], used, &Offer { root: vec![6; length], path: vec![8; 63], ..head.clone() })));
        }
    }
    for size in [0, 1, 255, 256, u64::MAX] {
        all.push((0, ask_append(&journal[..50], 5, &any(size, vec![]))));
    }

    // Disputes. Pairs of faults with heads are many: they are left to the large run.
    let open = |(refusal, one): &(u64, Open)| (*refusal, one.asked());
    let without = with_faults(&Open::new(by, &log, 0, &[7]), &faults_without_heads(), every_pair);
    all.extend(without.iter().map(open));
    let (good, faults) = (Open::new(by, &log, 0, &[3, 6, 7]), faults_with_heads());
    let with = if every_pair { with_faults(&good, &faults, true) } else { with_single_faults(&good, &faults) };
    all.extend(with.iter().map(open));
    for place in [0, 2] {
        for sizes in [&[3][..], &[7], &[3, 3], &[3, 6], &[6, 7], &[3, 3, 6, 6, 7, 7], &[3, 7, 7]] {
            let good = Open::new(by, &log, place, sizes);
            for pair in [130, 131, 500] {
                all.push((0, Open { pair, ..good.clone() }.asked()));
            }
            for pair in [129, 0] {
                all.push((9, Open { pair, ..good.clone() }.asked()));
            }
        }
    }
    // A count of 65,535 nodes is cut short, also with no room for a pair; the first proof is judged before.
    let mut cut = Open::new(by, &log, 0, &[3]);
    cut.one.heads = [&7u64.to_be_bytes()[..], &log.root(7), &[255, 255], &log.consistency_path(3, 7)].concat();
    all.push((2, cut.asked()));
    cut.pair = 0;
    all.push((2, cut.asked()));
    cut.one.root.clear();
    all.push((5, cut.asked()));
    all.extend(large(by, every_pair));
    all
}

/// The cases by hand of request 3, full-size logs, as its readings list them: offers to the empty record.
fn full_size_cases(by: u64) -> Vec<(u64, Asked)> {
    let offer = |size: u64| Offer { log_id: ID.to_vec(), timestamp: 50, size, root: vec![0xa1; 32], path: vec![] };
    [(0, LARGEST_SIZE), (6, 0)].map(|(refusal, size)| (refusal, ask_offer(by, &Stored::EMPTY, &offer(size)))).into()
}

/// A head held at size 2 with this root: for any next leaf hash the head of size 3 has the
/// root of the two, and its path is that leaf hash.
const HELD: [u8; 32] = [0xa1; 32];
const NEXT: [u8; 32] = [0xc3; 32];

fn held_at(by: u64, timestamp: u64) -> Stored {
    stored(by, LONG, timestamp, 2, HELD)
}

fn offered(timestamp: u64, size: u64, root: [u8; 32], path: &[u8]) -> Offer {
    Offer { log_id: LONG.to_vec(), timestamp, size, root: root.to_vec(), path: path.to_vec() }
}

/// The cases by hand of request 4, two heads in one millisecond, as its readings list them,
/// each alone on a record of timestamp 5: the number, and by request 8 whether the head is kept.
fn one_millisecond_cases(by: u64) -> Vec<(u64, bool, Offer)> {
    let (a, b, other) = (HELD, node(by, &HELD, &NEXT), [0xb2; 32]);
    let (none, right, wrong) = (&[][..], &NEXT[..], &[0xc2; 32][..]);
    vec![
        (0, false, offered(5, 2, a, none)),
        (7, false, offered(5, 2, a, right)),
        (12, true, offered(5, 2, other, none)),
        (12, false, offered(5, 3, b, right)),
        (12, false, offered(5, 3, a, none)),
        (12, false, offered(5, 3, a, right)),
        (12, false, offered(5, 3, a, &[0xc3; 64])),
        (6, false, offered(5, 1, other, none)),
        (12, false, offered(4, 2, a, none)),
        (12, true, offered(4, 2, other, none)),
        (12, false, offered(4, 3, b, right)),
        (0, false, offered(6, 2, a, none)),
        (13, true, offered(6, 2, other, none)),
        (13, true, offered(6, 2, other, right)),
        (0, false, offered(6, 3, b, right)),
        (7, false, offered(6, 3, b, none)),
        (8, true, offered(6, 3, b, wrong)),
        (6, false, offered(6, 1, other, none)),
        (10, false, offered(6, 2, other, &[0xc3; 33])),
    ]
}

/// Request 8, the refused head that is kept: lists of calls, each with its number, whether it is
/// kept, and the number of its hash.
fn refused_heads(by: u64) -> Vec<Vec<(u64, bool, u64, Call)>> {
    let (b, other, wrong) = (node(by, &HELD, &NEXT), [0xb2; 32], [0xc2; 32]);
    let head = |refusal: u64, is_kept: bool, one: Offer| (refusal, is_kept, by, Call::Offer(one));
    let held = head(0, false, offered(5, 2, HELD, &[]));
    // The row of its readings.
    let mut all = vec![vec![
        held.clone(),
        head(13, true, offered(6, 2, other, &[])),
        head(8, true, offered(7, 3, [0xd4; 32], &wrong)),
        head(12, false, offered(5, 3, other, &[])),
        head(0, false, offered(6, 2, HELD, &[])),
    ]];
    // Each row of the table, before and after another head was kept.
    let later = head(8, true, offered(9, 3, [0xd4; 32], &wrong));
    for (refusal, is_kept, one) in one_millisecond_cases(by) {
        let is_larger = refusal == 0 && one.size > 2;
        let row = head(refusal, is_kept, one);
        let list = vec![held.clone(), row.clone(), later.clone(), row];
        all.push(if is_larger { list[..2].to_vec() } else { list });
    }
    // A head that is accepted after it was refused: with a right path; and again when its size is held.
    all.push(vec![
        held.clone(),
        head(8, true, offered(6, 3, b, &wrong)),
        head(7, false, offered(6, 3, b, &[])),
        head(0, false, offered(6, 3, b, &NEXT)),
        head(0, false, offered(6, 3, b, &[])),
        head(12, true, offered(6, 3, other, &[])),
        head(0, false, offered(7, 3, b, &[])),
        head(12, true, offered(6, 3, other, &[])),
        head(13, true, offered(8, 3, other, &[])),
        head(13, true, offered(8, 3, other, &[])),
    ]);
    all.push(vec![
        head(0, false, offered(4, 1, NEXT, &[])),
        head(8, true, offered(6, 2, node(by, &NEXT, &NEXT), &wrong)),
        head(0, false, offered(5, 2, node(by, &NEXT, &NEXT), &NEXT)),
        head(0, false, offered(6, 2, node(by, &NEXT, &NEXT), &[])),
    ]);
    // Page calls keep nothing, before and after a head was kept; nor does any call by another number.
    let log = seven(by);
    let first = Offer { log_id: ID.to_vec(), ..offered(50, 3, log.root(3), &[]) };
    let next = Offer { root: log.root(7).to_vec(), size: 7, timestamp: 52, path: log.consistency_path(3, 7), ..first.clone() };
    let fork = Offer { root: other.to_vec(), timestamp: 51, ..first.clone() };
    let page = PageCall { place: 0, page: log.pages[&0].clone(), path: log.path(0, 3) };
    let pages = [
        (0, page.clone()),
        (8, PageCall { page: log.pages[&2].clone(), ..page.clone() }),
        (7, PageCall { path: vec![], ..page.clone() }),
        (6, PageCall { place: 3, ..page.clone() }),
        (10, PageCall { path: vec![1], ..page.clone() }),
    ];
    let pages = || pages.clone().map(|(refusal, page)| (refusal, false, by, Call::Page(page)));
    let strays =
        [algorithm::other(by), 1].map(|by| [Call::Offer(fork.clone()), Call::Page(page.clone())].map(|call| (16, false, by, call)));
    let mut list = vec![(14, false, by, Call::Page(page.clone())), head(0, false, first)];
    list.extend(pages());
    list.extend(strays.concat());
    list.push(head(13, true, fork.clone()));
    list.extend(pages());
    list.extend(strays.concat());
    list.push(head(0, false, next));
    list.push(head(6, false, fork));
    list.push((7, false, by, Call::Page(page)));
    all.push(list);
    all
}

#[derive(Clone, Copy, PartialEq)]
enum Path {
    Empty,
    Right,
    Wrong,
}

/// How an offer differs from the head that is held: timestamp and size before, at or
/// behind the held ones; whether log and root are the held ones; the path.
#[derive(Clone, Copy)]
struct Differs {
    timestamp: Ordering,
    size: Ordering,
    is_root: bool,
    path: Path,
    is_log: bool,
}

impl Differs {
    /// The number, by the papers: 11, 6, 12, 13, 7, 8 in this order.
    fn number(self) -> u64 {
        match (self.is_log, self.size, self.timestamp, self.is_root, self.path) {
            (false, _, _, _, _) => 11,
            (_, Less, _, _, _) => 6,
            (_, _, Less, _, _) => 12,
            (_, Greater, Equal, _, _) => 12,
            (_, Equal, Equal, false, _) => 12,
            (_, Equal, Greater, false, _) => 13,
            (_, Equal, _, true, Path::Wrong) => 7,
            (_, Equal, _, true, _) => 0,
            (_, Greater, Greater, _, Path::Empty) => 7,
            (_, Greater, Greater, _, Path::Wrong) => 8,
            // A larger tree has another root.
            (_, Greater, Greater, true, Path::Right) => 8,
            (_, Greater, Greater, false, Path::Right) => 0,
        }
    }

    /// The offer to a record of this timestamp; none where no timestamp is before or behind it.
    fn offer(self, by: u64, held: u64) -> Option<Offer> {
        let timestamp = match self.timestamp {
            Less => held.checked_sub(1)?,
            Equal => held,
            Greater => held.checked_add(1)?,
        };
        let (size, other) = match self.size {
            Less => (1, [0xb2; 32]),
            Equal => (2, [0xb2; 32]),
            Greater => (3, node(by, &HELD, &NEXT)),
        };
        // To a larger size the right path is the node that the other root is made with; else it is
        // the empty one, and one node is wrong. A smaller size has no right path.
        let mut path = if self.size == Greater || self.path == Path::Wrong { NEXT.to_vec() } else { vec![] };
        match self.path {
            Path::Empty => path.clear(),
            Path::Wrong if self.size == Greater => path[17] ^= 4,
            _ => (),
        }
        let log_id = vec![if self.is_log { 7 } else { 8 }; LONGEST_ID];
        let root = if self.is_root { HELD } else { other };
        Some(Offer { log_id, ..offered(timestamp, size, root, &path) })
    }
}

/// Every way in which an offer can differ from a head held at this timestamp.
fn grid(by: u64, held: u64) -> Vec<(Differs, Offer)> {
    let mut all = Vec::new();
    for timestamp in [Less, Equal, Greater] {
        for size in [Less, Equal, Greater] {
            for path in [Path::Empty, Path::Right, Path::Wrong] {
                // The same request as with the empty path.
                if size != Greater && path == Path::Right {
                    continue;
                }
                for (is_root, is_log) in [(true, true), (false, true), (true, false), (false, false)] {
                    let one = Differs { timestamp, size, is_root, path, is_log };
                    all.extend(one.offer(by, held).map(|offer| (one, offer)));
                }
            }
        }
    }
    all
}

/// Timestamps and sizes far from the held ones, and roots with one bit changed.
fn far_apart(by: u64) -> Vec<(u64, Asked)> {
    let mut all = Vec::new();
    let other = node(by, &HELD, &NEXT);
    for (held, timestamp) in [(0, u64::MAX), ((1 << 63) - 1, 1 << 63), ((1 << 32) - 1, 1 << 32), (255, 256)] {
        for (held, timestamp, is_later) in [(held, timestamp, true), (timestamp, held, false)] {
            let record = held_at(by, held);
            let number = |refusal: u64| if is_later { refusal } else { 12 };
            all.push((number(0), ask_offer(by, &record, &offered(timestamp, 2, HELD, &[]))));
            all.push((number(13), ask_offer(by, &record, &offered(timestamp, 2, NEXT, &[]))));
            all.push((number(0), ask_offer(by, &record, &offered(timestamp, 3, other, &NEXT))));
        }
    }
    for bit in [8, 16, 31, 32, 33, 62, 63] {
        all.push((12, ask_offer(by, &held_at(by, 5), &offered(5, 2 + (1 << bit), HELD, &[]))));
    }
    for byte in [0, 1, 15, 16, 30, 31] {
        let mut root = HELD;
        root[byte] ^= 0x80 >> (byte % 8);
        all.push((12, ask_offer(by, &held_at(by, 5), &offered(5, 2, root, &[]))));
        all.push((13, ask_offer(by, &held_at(by, 5), &offered(6, 2, root, &[]))));
    }
    all
}

/// An offer of one size to a record of another, by nodes of one byte, and refused ones.
fn plain_offers(by: u64, held: u64, offered: u64) -> Vec<(u64, Asked)> {
    // By another number than the record's it is 16.
    let as_offer = |refusal: u64, one: Proof| {
        let refusal = if one.algorithm == by { refusal } else { algorithm::REFUSED };
        let asked_by = one.algorithm;
        let ([held, size], [held_root, root]) = (one.numbers, one.hashes);
        let record = Stored { size: held, root: held_root[..].try_into().unwrap(), ..stored(by, ID, 50, 1, [0; 32]) };
        (refusal, ask_offer(asked_by, &record, &Offer { log_id: ID.to_vec(), timestamp: 51, size, root, path: one.path }))
    };
    judged(&plain_consistency(by, held, offered, 5)).into_iter().map(|(refusal, one)| as_offer(refusal, one)).collect()
}

/// A page asked for at a place of a record's size, by nodes of one byte, and refused ones.
fn plain_pages(by: u64, place: u64, size: u64) -> Vec<(u64, Asked)> {
    let nodes = vec![[5; 32]; yields::inclusion_count(place, size)];
    let root = yields::inclusion(algorithm::of(by), &leaf_hash(algorithm::of(by), b""), place, size, &nodes).unwrap();
    let record = stored(by, ID, 50, size, root);
    let call = PageCall { place, page: vec![], path: nodes.concat() };
    let (more, fewer) = ([&call.path[..], &[5; 32]].concat(), call.path[32.min(call.path.len())..].to_vec());
    let other = Stored { root: [7; 32], ..record.clone() };
    let mut all = vec![
        (0, ask_page(by, &record, &call)),
        (8, ask_page(by, &record, &PageCall { page: vec![0], ..call.clone() })),
        (8, ask_page(by, &other, &call)),
        (6, ask_page(by, &record, &PageCall { place: size, ..call.clone() })),
        (6, ask_page(by, &record, &PageCall { place: u64::MAX, ..call.clone() })),
        (7, ask_page(by, &record, &PageCall { path: more, ..call.clone() })),
    ];
    if !nodes.is_empty() {
        all.push((7, ask_page(by, &record, &PageCall { path: fewer, ..call })));
    }
    all
}

/// Held sizes, and those of the heads that follow: to 2^32, past it, and up to the
/// largest, by up to 65 nodes.
const OFFERED: [(u64, u64); 8] = [
    ((1 << 32) - 1, 1 << 32),
    (1 << 32, (1 << 32) + 1),
    ((1 << 32) + 1, 1 << 63),
    (1, LARGEST_SIZE),
    (3, LARGEST_SIZE),
    (1 << 63, LARGEST_SIZE - 1),
    ((1 << 63) + 1, LARGEST_SIZE),
    (LARGEST_SIZE - 1, LARGEST_SIZE),
];

/// Places and sizes of pages.
const ASKED_FOR: [(u64, u64); 7] = [
    ((1 << 32) - 1, 1 << 32),
    (1 << 32, (1 << 32) + 1),
    (5, 1 << 63),
    (1 << 63, LARGEST_SIZE - 1),
    (0, LARGEST_SIZE),
    ((1 << 63) - 1, LARGEST_SIZE),
    (LARGEST_SIZE - 1, LARGEST_SIZE),
];

/// A place, the size at its page, and those of the heads after it.
const DISPUTED: [(u64, [u64; 3]); 4] = [
    (0, [(1 << 63) + 1, LARGEST_SIZE - 1, LARGEST_SIZE]),
    (1 << 63, [(1 << 63) + 1, LARGEST_SIZE - 1, LARGEST_SIZE]),
    (2, [3, (1 << 32) + 1, LARGEST_SIZE]),
    (1 << 32, [(1 << 32) + 1, 1 << 63, LARGEST_SIZE]),
];

/// Sizes up to the largest. Their disputes are long, so most faults are left to the
/// large run, as are sizes next to every power of two.
fn large(by: u64, all_wanted: bool) -> Vec<(u64, Asked)> {
    let mut all = full_size_cases(by);
    all.extend(OFFERED.into_iter().flat_map(|(held, offered)| plain_offers(by, held, offered)));
    all.extend(ASKED_FOR.into_iter().flat_map(|(place, size)| plain_pages(by, place, size)));
    for (place, sizes) in DISPUTED {
        let mut log = seven(by);
        (log.sizes, log.pages) = (sizes.to_vec(), [(place, b"page".to_vec())].into());
        let good = Open::new(by, &log, place, &sizes);
        let faults = if all_wanted { faults_with_heads() } else { vec![] };
        all.extend(with_single_faults(&good, &faults).iter().map(|(refusal, one)| (*refusal, one.asked())));
    }
    if !all_wanted {
        return all;
    }
    let random = &mut Random::new(64);
    for size in next_to_powers(2).into_iter().filter(|size| *size > 40) {
        for place in some_places(size, random) {
            all.extend(plain_pages(by, place, size));
            if place + 1 < size {
                all.extend(plain_offers(by, place + 1, size));
            }
        }
    }
    all
}

/// Request 7, a second hash: what stands in its readings, and around it. Each list of calls on
/// one record: all by another number are 16 and leave it as it was.
fn second_hash_cases(all_wanted: bool) -> Vec<(u64, Asked)> {
    let mut all = Vec::new();
    let unknown = if all_wanted { &UNKNOWN[..] } else { &[1, 0x1f0][..] };
    let unknown = || unknown.iter().copied();
    for by in KNOWN {
        let log = seven(by);
        let first = Offer { log_id: ID.to_vec(), timestamp: 50, size: 3, root: log.root(3).to_vec(), path: vec![] };
        let later = Offer { timestamp: 51, size: 7, root: log.root(7).to_vec(), path: log.consistency_path(3, 7), ..first.clone() };
        let bad = Offer { log_id: vec![], root: vec![], path: vec![1], ..first.clone() };
        let page = PageCall { place: 0, page: log.pages[&0].clone(), path: log.path(0, 3) };
        let held = Stored { second: any_second(), ..stored(by, ID, 50, 3, log.root(3)) };

        // An empty record looks at no number of its own, and keeps it where an offer is refused.
        for number in unknown().chain(KNOWN) {
            let empty = Stored { algorithm: number, ..Stored::EMPTY };
            all.extend([(0, ask_offer(by, &empty, &first)), (5, ask_offer(by, &empty, &bad)), (14, ask_page(by, &empty, &page))]);
        }
        for other in unknown() {
            let empty = Stored { algorithm: other, ..Stored::EMPTY };
            for record in [&Stored::EMPTY, &empty, &Stored { held: false, ..held.clone() }] {
                all.extend([(16, ask_offer(other, record, &first)), (16, ask_offer(other, record, &bad))]);
                all.push((16, ask_page(other, record, &page)));
            }
        }

        // Right calls on the record, then the same and worse by other numbers; then a record that holds one of these.
        all.extend([(0, ask_offer(by, &held, &later)), (0, ask_offer(by, &held, &first)), (0, ask_page(by, &held, &page))]);
        let far = PageCall { place: 3, path: vec![1], ..page.clone() };
        let another = Offer { log_id: b"a lag".to_vec(), ..later.clone() };
        let fork = Offer { root: vec![9; 32], ..first.clone() };
        all.push((12, ask_offer(by, &held, &fork)));
        for other in unknown().chain([algorithm::other(by)]) {
            all.extend([&first, &later, &another, &bad, &fork].map(|offer| (16, ask_offer(other, &held, offer))));
            all.extend([&page, &far].map(|page| (16, ask_page(other, &held, page))));
            let record = Stored { algorithm: other, ..held.clone() };
            let numbers = [by, other, by ^ 1];
            let numbers = numbers.into_iter().filter(|number| algorithm::hash(other).is_none() || *number != other);
            for number in numbers {
                all.extend([(16, ask_offer(number, &record, &first)), (16, ask_page(number, &record, &page))]);
            }
        }
    }
    // A head and its pages by the one hash, offered and asked for by the other: nothing of a record
    // tells, so a first head is accepted, the next one is 8, and so is each page.
    for by in KNOWN {
        let (log, other) = (seven(by), algorithm::other(by));
        let held = stored(other, ID, 50, 3, log.root(3));
        let next = Offer { log_id: ID.to_vec(), timestamp: 51, size: 7, root: log.root(7).to_vec(), path: log.consistency_path(3, 7) };
        all.push((8, ask_offer(other, &held, &next)));
        for place in [0, 2] {
            let page = PageCall { place, page: log.pages[&place].clone(), path: log.path(place, 3) };
            all.push((8, ask_page(other, &held, &page)));
            for sizes in [&[3][..], &[7], &[3, 6], &[3, 6, 7]] {
                let right = Open::new(by, &log, place, sizes);
                all.push((0, right.asked()));
                all.push((8, Open { by: other, ..right.clone() }.asked()));
                all.extend(unknown().map(|by| (16, Open { by, ..right.clone() }.asked())));
            }
        }
    }
    all
}

fn cases(requests: &mut Requests) {
    for (_, (name, words)) in rules(SHA256, false).into_iter().chain(some_rules(SM3)).chain(second_hash_cases(false)) {
        requests.ask(name, &words);
    }
    let random = &mut Random::new(14);
    for (by, kind) in KNOWN.into_iter().flat_map(|by| KINDS.map(|kind| (by, kind))) {
        let calls = Server::random(algorithm::hash, by, kind, 12, random).calls(12, 0, random);
        let calls = with_strays(by, calls, random);
        ask_all(requests, ask_list(algorithm::hash, &calls, random));
    }
    lines_that_are_no_request(requests, "dispute 0");
    malformed().iter().for_each(|line| requests.line(line.as_bytes()));
}

/// A right line of each entry.
const RIGHT: [&str; 4] = [
    "offer 0 0 0 127*00 0 0 0 32*00 187*00 x0102 0 1 32*01 x",
    "page 0 0 0 127*00 0 0 0 32*00 187*00 0 x x",
    "dispute 0 x 0 x 1 32*01 x x x 130*00",
    "append 50*00 0 1 32*01 x",
];

/// Lines that are no request, by any number: a word left out or one more, bytes for a number, a number for bytes, one that is
/// too large, and in a record a flag that is none and bytes of another length.
fn malformed() -> Vec<String> {
    let mut all = vec!["offer".to_string(), "page".to_string()];
    for right in RIGHT {
        let words: Vec<&str> = right.split(' ').collect();
        let with = |at: usize, others: &[&str]| [&words[..at], others, &words[at + 1..]].concat().join(" ");
        for (at, word) in words.iter().enumerate().skip(1) {
            all.push(with(at, &[]));
            match word.bytes().all(|digit| digit.is_ascii_digit()) {
                true => all.extend(["x", "18446744073709551616"].map(|other| with(at, &[other]))),
                false => all.push(with(at, &["0"])),
            }
        }
        all.extend([" x", " 0"].map(|more| format!("{right}{more}")));
    }
    for right in &RIGHT[..2] {
        for (word, others) in [
            (" 0 0 0 ", [" 0 2 0 ", " 0 18446744073709551615 0 "]),
            ("127*", ["126*", "128*"]),
            ("32*", ["31*", "33*"]),
            ("187*", ["186*", "188*"]),
        ] {
            let lines = others.map(|other| right.replacen(word, other, 1));
            all.extend(lines.iter().map(|line| line.replacen(" 0", " 1", 1)));
            all.extend(lines);
        }
    }
    all
}

/// Rules without those about timestamps, sizes and log ids alone, which no hash has a part in.
fn some_rules(by: u64) -> Vec<(u64, Asked)> {
    let plain = |words: &[Word]| words.iter().filter_map(Word::as_number).all(|number| number < 1 << 32);
    rules(by, false).into_iter().filter(|(refusal, asked)| [0, 8, 16].contains(refusal) && asked.0 != "append" && plain(&asked.1)).collect()
}

/// Lists against every kind of server, small logs and large ones; then the
/// longest pages that a request holds. By both hashes, or by the one and the other in turn.
fn full(requests: &mut Requests) {
    for (_, (name, words)) in KNOWN.into_iter().flat_map(|by| rules(by, by == SHA256)).chain(second_hash_cases(true)) {
        requests.ask(name, &words);
    }
    let random = &mut Random::new(127);
    for turn in 0..150 {
        for (at, kind) in KINDS.into_iter().enumerate() {
            let by = KNOWN[(turn + at) % 2];
            let most = if turn % 5 == 0 { LARGEST_SIZE >> random.below(64) } else { random.between(1, 40) };
            let calls = Server::random(algorithm::hash, by, kind, most, random).calls(30, 0, random);
            let calls = with_strays(by, calls, random);
            ask_all(requests, ask_list(algorithm::hash, &calls, random));
        }
    }
    for (length, by) in [65_536, 500_000, 1_000_000].into_iter().flat_map(|length| KNOWN.map(|by| (length, by))) {
        let page = vec![0x61; length];
        let leaf = leaf_hash(algorithm::of(by), &page);
        let record = stored(by, ID, 1, 1, leaf);
        let call = PageCall { place: 0, page, path: vec![] };
        ask_all(requests, [by, algorithm::other(by), 1].map(|asked_by| ask_page(asked_by, &record, &call)).into());
        for (second, byte) in [(length, 0x61), (length, 0x62), (length - 1, 0x61)] {
            let mut words = vec![number(by), repeated(length, 0x61), number(0), bytes(&[]), number(1), bytes(&leaf), bytes(&[])];
            words.extend([repeated(second, byte), bytes(&[]), repeated(130, 0)]);
            requests.ask("dispute", &words);
        }
    }
}

// Random requests.

/// A list mostly by one number, with some calls by another or by none.
fn random_calls(random: &mut Random) -> Vec<(u64, Call)> {
    let most = match random.below(4) {
        0 => LARGEST_SIZE >> random.below(64),
        _ => random.between(1, 40),
    };
    let kind = *random.pick(&[Kind::Honest, Kind::Forgetful, Kind::Forging, Kind::Forging]);
    let (by, count) = (algorithm::some(random), random.between(3, 16) as usize);
    let calls = Server::random(algorithm::hash, by, kind, most, random).calls(count, 0, random);
    with_strays(by, calls, random)
}

fn random_list(random: &mut Random) -> Vec<Asked> {
    let calls = random_calls(random);
    ask_list(algorithm::hash, &calls, random)
}

/// One request of a list, by its entry.
fn random_of(entry: &str, random: &mut Random) -> Asked {
    loop {
        let mut all: Vec<Asked> = random_list(random).into_iter().filter(|(name, _)| *name == entry).collect();
        if let Some(last) = all.len().checked_sub(1) {
            return all.swap_remove(random.between(last as u64 / 2, last as u64) as usize);
        }
    }
}

/// The words of a request as they are read.
fn read((name, words): &Asked) -> Vec<Word> {
    let mut line = Vec::new();
    write_line(Some(name), words, &mut line);
    line.pop();
    read_line(&line).unwrap().1
}

/// The record of a request, with none, one or two fields of any value; at times the number of
/// the call too, and at times a second place of any value.
fn random_record<T>(one: &mut Given<T>, random: &mut Random) {
    let record = &mut one.record;
    for _ in 0..random.below(3) {
        let any = random.draw() >> random.below(64);
        match random.below(10) {
            0 => record.held = random.one_in(2),
            1 => record.algorithm = algorithm::mostly(algorithm::some(random), random),
            2 => record.id.fill_with(|| random.byte()),
            3 => record.id_length = *random.pick(&[0, 1, 2, 3, 126, 127, 128, 1 << 63, u64::MAX]),
            4 => record.id_length = any,
            5 => record.timestamp = any,
            6 => record.size = *random.pick(&[0, 1, 2, 1 << 32, (1 << 32) + 1, LARGEST_SIZE]),
            7 => record.size = any,
            8 => record.root = random.hash(),
            _ => {
                let by = algorithm::mostly(algorithm::some(random), random);
                (one.by, record.algorithm) = (by, by);
            }
        }
    }
    if random.one_in(3) {
        record.second = random_second(record, random);
    }
}

/// Nothing; any bytes; the record's own with another number or length; the held head, or one of its size with another root.
fn random_second(record: &Stored, random: &mut Random) -> Second {
    let number = *random.pick(&[0, 1, 7, 8, 12, 13, u32::MAX]);
    let second = record.second.clone();
    let of_held = Second { number, id: record.id, id_length: record.id_length, size: record.size, root: record.root, ..second.clone() };
    match random.below(6) {
        0 => Second::EMPTY,
        1 => read_second(&random.bytes(SECOND)).unwrap(),
        2 => Second { number, ..second },
        3 => Second { number, id_length: *random.pick(&[0, 1, 126, 127, 128, 1 << 63, u64::MAX]), ..second },
        4 => Second { timestamp: record.timestamp, ..of_held },
        _ => Second { timestamp: record.timestamp.saturating_add(random.below(3)), root: random.hash(), ..of_held },
    }
}

/// At times the record has the timestamp that is offered, or one beside it; then it may
/// hold the very head, or one of that size with another root. At times the offer is
/// spoilt, and at times its head stands in the second place.
fn random_offer(random: &mut Random) -> Vec<Word> {
    let mut one = read_offer(&read(&random_of("offer", random))).unwrap();
    random_record(&mut one, random);
    let Given { by, mut record, mut call } = one;
    match random.below(14) {
        0 => spoil(&mut call.log_id, random),
        1 => spoil(&mut call.root, random),
        2 => spoil(&mut call.path, random),
        3 => call.size = *random.pick(&[0, 0, 1, 2]),
        _ => (),
    }
    let root: Option<Hash> = call.root[..].try_into().ok();
    if random.one_in(3) {
        record.timestamp = call.timestamp;
        match (random.below(6), root) {
            (0 | 1, Some(root)) => {
                (record.size, record.root) = (call.size, root);
                record.timestamp = record.timestamp.saturating_sub(random.below(2));
            }
            (2, _) => (record.size, record.root) = (call.size, random.hash()),
            (3, _) => (record.size, record.root, record.timestamp) = (call.size, random.hash(), call.timestamp.saturating_add(1)),
            (4, _) => record.timestamp ^= 1,
            _ => (),
        }
    }
    if let (true, Some(root)) = (random.one_in(6), root) {
        let number = *random.pick(&[8, 12, 13]);
        let Stored { id, id_length, .. } = record;
        record.second = Second { number, id, id_length, timestamp: call.timestamp, size: call.size, root };
    }
    ask_offer(by, &record, &call).1
}

fn random_page(random: &mut Random) -> Vec<Word> {
    let mut one = read_page(&read(&random_of("page", random))).unwrap();
    random_record(&mut one, random);
    ask_page(one.by, &one.record, &one.call).1
}

fn random_dispute(random: &mut Random) -> Vec<Word> {
    random_of("dispute", random).1
}

fn random_append(random: &mut Random) -> Vec<Word> {
    random_of("append", random).1
}

#[cfg(test)]
mod tests {
    use super::*;
    use crate::algorithm::weak;
    use crate::requests::{self, LAYERS};
    use std::collections::BTreeMap;

    fn answer(hashes: Hashes, asked: &Asked) -> Vec<Word> {
        let words = read(asked);
        match asked.0 {
            "offer" => offer(hashes, &words),
            "page" => page(hashes, &words),
            "append" => append(&words),
            _ => dispute(hashes, &words),
        }
        .expect("a request")
    }

    #[test]
    fn rules_give_their_numbers() {
        let all = KNOWN.into_iter().flat_map(|by| rules(by, true)).chain(second_hash_cases(true));
        for (at, (refusal, asked)) in all.enumerate() {
            let answer = answer(algorithm::hash, &asked);
            assert_eq!(answer[0], number(refusal), "{at}: {asked:?}");
            let words = read(&asked);
            match asked.0 {
                "offer" => {
                    let given = read_offer(&words).unwrap();
                    let is_kept = match refusal {
                        8 | 13 => true,
                        12 => given.call.size == given.record.size && given.call.root != given.record.root,
                        _ => false,
                    };
                    assert_eq!(answer, answered(refusal, &after(&given, refusal, is_kept)), "{at}: {asked:?}");
                }
                "append" => {
                    let used = words[1].as_number().unwrap();
                    let more = 42 + words[4].as_bytes().unwrap().len() as u64;
                    assert_eq!(answer[1], number(if refusal == 0 { used + more } else { 0 }));
                    assert_eq!(answer[2] == words[0], refusal != 0);
                }
                "dispute" => {
                    assert_eq!(answer[1], number((refusal == 0) as u64));
                    assert_eq!(answer[2], words[9]);
                }
                // Every page call: the record as it was.
                _ => assert_eq!(answer, answered(refusal, &read_page(&words).unwrap().record)),
            }
        }
    }

    /// The record after an offer: an accepted head in the first place, one that is kept in the second. Zeros follow the log id.
    fn after(Given { by, record, call }: &Given<Offer>, refusal: u64, is_kept: bool) -> Stored {
        if refusal > 0 && !is_kept {
            return record.clone();
        }
        let id: Vec<u8> = call.log_id.iter().copied().chain([0; LONGEST_ID]).take(LONGEST_ID).collect();
        let (id, id_length) = (id[..].try_into().unwrap(), call.log_id.len() as u64);
        let (timestamp, size, root) = (call.timestamp, call.size, call.root[..].try_into().unwrap());
        let second = Second { number: refusal as u32, id, id_length, timestamp, size, root };
        match is_kept {
            true => Stored { second, ..record.clone() },
            false => Stored { held: true, algorithm: *by, id, id_length, timestamp, size, root, second: record.second.clone() },
        }
    }

    /// Whether the head is kept: of two roots for one size each is, and a larger one, at a later
    /// time, where as many nodes as there must be do not yield both roots.
    fn is_kept(how: Differs) -> bool {
        how.is_log
            && match how.size {
                Less => false,
                Equal => !how.is_root,
                Greater => how.timestamp == Greater && how.path != Path::Empty && (how.is_root || how.path == Path::Wrong),
            }
    }

    /// The tables of requests 4 and 8, each row alone and each list in a row; and every way to differ, over every second place.
    #[test]
    fn heads_are_kept() {
        let check = |given: &Given<Offer>, refusal: u64, is_kept: bool| {
            let (number, found) = given.record.offer(algorithm::hash, given.by, &given.call);
            assert_eq!((number, &found), (refusal, &after(given, refusal, is_kept)));
            found
        };
        for by in KNOWN {
            let over = |second: &Second, held: u64| Stored { second: second.clone(), ..held_at(by, held) };
            for second in seconds(LONG) {
                for (refusal, is_kept, call) in one_millisecond_cases(by) {
                    check(&Given { by, record: over(&second, 5), call }, refusal, is_kept);
                }
                for held in [5, 0, u64::MAX] {
                    for (how, call) in grid(by, held) {
                        check(&Given { by, record: over(&second, held), call }, how.number(), is_kept(how));
                    }
                }
            }
            let mut lengths = Vec::new();
            for list in refused_heads(by) {
                let mut record = Stored::EMPTY;
                for (refusal, is_kept, by, call) in &list {
                    match call {
                        Call::Offer(one) => record = check(&Given { by: *by, record, call: one.clone() }, *refusal, *is_kept),
                        Call::Page(one) => assert_eq!(record.page(algorithm::hash, *by, one), *refusal),
                    }
                }
                lengths.push(list.len());
            }
            assert_eq!((lengths.len(), lengths.iter().sum()), (23, 5 + 18 * 4 + 2 + 10 + 4 + 24));
        }
    }

    /// The grid holds every request once, and each row of it has every number that it can give.
    #[test]
    fn grids_are_whole() {
        for (held, expected) in [(5, 84), (0, 56), (u64::MAX, 56)] {
            let all = grid(SM3, held);
            assert_eq!(all.len(), expected);
            let mut lines: Vec<String> = all.iter().map(|(_, offer)| format!("{offer:?}")).collect();
            lines.sort();
            lines.dedup();
            assert_eq!(lines.len(), expected);
            let mut numbers: Vec<u64> = all.iter().map(|(how, _)| how.number()).collect();
            numbers.sort();
            numbers.dedup();
            let met = if held == u64::MAX { vec![0, 6, 7, 11, 12] } else { vec![0, 6, 7, 8, 11, 12, 13] };
            assert_eq!(numbers, met);
            let kept: Vec<u64> = all.iter().filter(|(how, _)| is_kept(*how)).map(|(how, _)| how.number()).collect();
            let count = |number: u64| kept.iter().filter(|kept| **kept == number).count();
            let expected = match held {
                0 => [3, 2, 2],
                u64::MAX => [0, 4, 0],
                _ => [3, 4, 2],
            };
            assert_eq!([8, 12, 13].map(count), expected);
        }
    }

    /// The second place in bytes, each of its fields at its place.
    #[test]
    fn second_places_in_bytes() {
        let bytes: Vec<u8> = (1..=SECOND as u8).collect();
        let second = read_second(&bytes).unwrap();
        assert_eq!((second.number, second.id_length), (0x01020304, 0x05060708090a0b0c));
        assert_eq!((second.timestamp, second.size), (0x0d0e0f1011121314, 0x15161718191a1b1c));
        assert_eq!((second.id[0], second.id[126], second.root[0], second.root[31]), (29, 155, 156, 187));
        assert_eq!((second_bytes(&second), SECOND), (bytes.clone(), 187));
        assert_eq!((read_second(&bytes[1..]), read_second(&[&bytes[..], &[0]].concat())), (None, None));
        assert_eq!(read_second(&[0; SECOND]), Some(Second::EMPTY));
    }

    #[test]
    fn malformed_lines_are_no_request() {
        assert!(RIGHT.iter().all(|line| requests::answer(LAYERS, line.as_bytes()) != b"?\n"));
        let all = malformed();
        for line in &all {
            assert_eq!(requests::answer(LAYERS, line.as_bytes()), b"?\n", "{line}");
        }
        for line in ["offer 0 0 0 127*00 0 0 0 32*00 x0102 0 1 32*01 x", "page 1 0 0 127*00 0 0 0 32*00 188*00 0 x x"] {
            assert!(all.iter().any(|other| other == line));
        }
    }

    type Counts = BTreeMap<(&'static str, u64, u64), usize>;

    fn count(hashes: Hashes, all: &[Asked], counts: &mut Counts) {
        for asked in all {
            let answer = answer(hashes, asked);
            let outcome = if asked.0 == "dispute" { answer[1].as_number().unwrap() } else { 0 };
            *counts.entry((asked.0, answer[0].as_number().unwrap(), outcome)).or_default() += 1;
        }
    }

    fn some_list(hashes: Hashes, kind: Kind, tries: usize, random: &mut Random) -> Vec<Asked> {
        let (by, most) = (algorithm::some(random), random.between(1, 40));
        let calls = Server::random(hashes, by, kind, most, random).calls(30, tries, random);
        let calls = with_strays(by, calls, random);
        ask_list(hashes, &calls, random)
    }

    fn lists(hashes: Hashes, turns: usize, tries: usize, counts: &mut Counts) {
        let random = &mut Random::new(12);
        for _ in 0..turns {
            for kind in KINDS {
                count(hashes, &some_list(hashes, kind, tries, random), counts);
            }
        }
    }

    /// What an offer to a head that is held is beside that head.
    fn against_held(Given { record, call, .. }: &Given<Offer>, refusal: u64) -> &'static str {
        let is_root = call.root == record.root;
        match (refusal, call.timestamp.cmp(&record.timestamp), call.size.cmp(&record.size), is_root) {
            (12, Less, Equal, false) => "12, earlier, another root",
            (12, Equal, Equal, false) => "12, equal, another root",
            (13, Greater, Equal, false) => "13",
            (8, Greater, Greater, _) => "8",
            (12, Less, Equal, true) => "12, earlier, the held size and root",
            (12, Less, Greater, _) => "12, earlier, a larger size",
            (12, Equal, Greater, false) => "12, equal, a larger size",
            (12, Equal, Greater, true) => "12, equal, a larger size, the held root",
            (0, Equal, Equal, true) => "0, equal",
            (0, Greater, Equal, true) => "0, later, the same size",
            (0, Greater, Greater, _) => "0, later, a larger size",
            (7, Equal, Equal, true) => "7, equal",
            (7, Greater, Equal, true) => "7, later, the same size",
            (7, Greater, Greater, _) => "7, later, a larger size",
            (6, Equal, Less, _) => "6, equal",
            (6, _, _, _) => "6",
            (5, _, _, _) => "5",
            (10, _, _, _) => "10",
            (11, _, _, _) => "11",
            (16, _, _, _) => "16",
            _ => panic!("{refusal} of {call:?} over {record:?}"),
        }
    }

    /// These are kept, whether the second place is empty or not.
    const KEPT: [&str; 4] = ["12, earlier, another root", "12, equal, another root", "13", "8"];

    /// These leave it as it was.
    const LEFT: [&str; 16] = [
        "0, equal",
        "0, later, a larger size",
        "0, later, the same size",
        "10",
        "11",
        "12, earlier, a larger size",
        "12, earlier, the held size and root",
        "12, equal, a larger size",
        "12, equal, a larger size, the held root",
        "16",
        "5",
        "6",
        "6, equal",
        "7, equal",
        "7, later, a larger size",
        "7, later, the same size",
    ];

    /// The kinds of an offer or a page call and of the second place before it. The answer is held against
    /// the kind, and against that of the same call with another second place.
    fn second_place_kinds(hashes: Hashes, asked: &Asked, other: &Second) -> Vec<String> {
        let words = read(asked);
        let mut kinds = Vec::new();
        let (kind, record, (refusal, found), instead) = match asked.0 {
            "offer" => {
                let given = read_offer(&words).unwrap();
                let Given { by, record, call } = &given;
                let (refusal, found) = record.offer(hashes, *by, call);
                let instead = Stored { second: other.clone(), ..record.clone() }.offer(hashes, *by, call);
                let kind = if record.held { against_held(&given, refusal) } else { "no head" };
                assert_eq!(found, after(&given, refusal, KEPT.contains(&kind)));
                let Second { number, timestamp, size, root, .. } = record.second;
                if number > 0 && (timestamp, size, &root[..]) == (call.timestamp, call.size, &call.root) {
                    kinds.push(format!("the kept head again, {}", if refusal == 0 { "accepted" } else { "refused" }));
                }
                let kind = if record.held { kind.to_string() } else { format!("{refusal}, {kind}") };
                (kind, given.record, (refusal, found), instead)
            }
            "page" => {
                let Given { by, record, call } = read_page(&words).unwrap();
                let refusal = record.page(hashes, by, &call);
                let other = Stored { second: other.clone(), ..record.clone() };
                (format!("page, {refusal}"), record.clone(), (refusal, record), (other.page(hashes, by, &call), other))
            }
            _ => return kinds,
        };
        assert_eq!(answer(hashes, asked), answered(refusal, &found));
        let second = if KEPT.contains(&&kind[..]) { found.second.clone() } else { other.clone() };
        assert_eq!(instead, (refusal, Stored { second, ..found }));
        kinds.push(format!("{kind}, over {}", if record.second.number == 0 { "nothing" } else { "another" }));
        kinds.push(format!("number {}", record.second.number));
        if record.second.id_length > LONGEST_ID as u64 {
            kinds.push("a log id past its end".to_string());
        }
        kinds
    }

    /// Each is met ten times in lists, and in random requests to records of any value: every kind that is
    /// kept over an empty second place and over a filled one, every other over a filled one.
    #[test]
    fn every_second_place_is_met() {
        let random = &mut Random::new(15);
        let mut counts: [BTreeMap<String, usize>; 3] = Default::default();
        let mut count = |at: usize, hashes: Hashes, asked: &Asked, random: &mut Random| {
            let other = read_second(&random.bytes(SECOND)).unwrap();
            for kind in second_place_kinds(hashes, asked, &other) {
                *counts[at].entry(kind).or_default() += 1;
            }
        };
        for _ in 0..300 {
            for (at, hashes) in [algorithm::hash as Hashes, weak].into_iter().enumerate() {
                for kind in KINDS {
                    some_list(hashes, kind, 20, random).iter().for_each(|asked| count(at, hashes, asked, random));
                }
            }
        }
        for _ in 0..8000 {
            let (offer, page) = (random_offer(random), random_page(random));
            count(2, algorithm::hash, &("offer", offer), random);
            count(2, algorithm::hash, &("page", page), random);
        }
        counts.iter_mut().for_each(|counts| counts.retain(|_, count| *count >= 10));
        println!("{counts:?}");
        let kept = KEPT.iter().flat_map(|kind| ["nothing", "another"].map(|over| format!("{kind}, over {over}")));
        let left = LEFT.iter().map(|kind| format!("{kind}, over another"));
        let pages = [0, 6, 7, 8, 10, 16].map(|refusal| format!("page, {refusal}, over another"));
        let again = ["accepted", "refused"].map(|answer| format!("the kept head again, {answer}"));
        let wanted: Vec<String> = kept.chain(left).chain(pages).chain(again).collect();
        // In lists the second place is empty where no head is held.
        let no_head = [0, 5, 6, 7, 10, 16].map(|refusal| format!("{refusal}, no head, over another"));
        let numbers = [0, 1, 7, 8, 12, 13, u32::MAX].map(|number| format!("number {number}"));
        let others = ["page, 14, over another", "a log id past its end"].map(String::from);
        let of_no_list: Vec<String> = no_head.into_iter().chain(numbers).chain(others).collect();
        for (wanted, counts) in [(&wanted, &counts[0]), (&wanted, &counts[1]), (&wanted, &counts[2]), (&of_no_list, &counts[2])] {
            let missed: Vec<&String> = wanted.iter().filter(|kind| !counts.contains_key(*kind)).collect();
            assert!(missed.is_empty(), "{missed:?}");
        }
    }

    /// Every number and every outcome that can be met is met; 1 is met in the
    /// tests of `auditor`, for its page is longer than a line holds.
    #[test]
    fn every_outcome_is_met() {
        let mut counts = Counts::new();
        lists(algorithm::hash, 150, 0, &mut counts);
        println!("SHA-256 and SM3: {counts:?}");
        let offers = [0, 5, 6, 7, 8, 10, 11, 12, 13, 16].map(|refusal| ("offer", refusal, 0));
        let pages = [0, 6, 7, 8, 10, 14, 16].map(|refusal| ("page", refusal, 0));
        let refused = [2, 5, 6, 7, 8, 9, 10, 16].map(|refusal| ("dispute", refusal, 0));
        let appends = [0, 5, 9, 10].map(|refusal| ("append", refusal, 0));
        let mut expected: Vec<_> = offers.into_iter().chain(pages).chain(refused).chain(appends).chain([("dispute", 0, 1)]).collect();
        expected.sort();
        assert_eq!(counts.keys().copied().collect::<Vec<_>>(), expected);
        assert!(counts.values().all(|count| *count >= 10), "{counts:?}");

        counts.clear();
        lists(weak, 150, 60, &mut counts);
        println!("weak: {counts:?}");
        expected.extend([("dispute", 0, 2), ("dispute", 0, 3)]);
        expected.sort();
        assert_eq!(counts.keys().copied().collect::<Vec<_>>(), expected);
        assert!(counts.values().all(|count| *count >= 10), "{counts:?}");
    }
}
