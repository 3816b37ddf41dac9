//! The growing tree: single calls and roots over a tree of any value, and lists
//! of calls from a new tree. A tree holds the number of the hash that it was made with.

use crate::algorithm::{self, hash, some, some_unknown, KNOWN, SHA256, SM3, UNKNOWN};
use crate::growing::{grow, of_list, under, Call, Growing, LEVELS};
use crate::proofs::{near_power, next_to_powers};
use crate::random::Random;
use crate::requests::{lines_that_are_no_request, Asked, Entry, Layer, Requests};
use crate::tree::{self, leaf_hash, Hash, LARGEST_SIZE};
use crate::words::{bytes, number, repeated, short, Word, MOST_BYTES};

pub const LAYER: Layer = Layer {
    name: "growing",
    entries: &[
        Entry { name: "grow_new", answer: new, random: random_new },
        Entry { name: "grow_page", answer: page, random: random_page },
        Entry { name: "grow_leaves", answer: leaves, random: random_leaves },
        Entry { name: "grow_root", answer: root, random: random_root },
        Entry { name: "grow_root_into", answer: root_into, random: random_root_into },
        Entry { name: "grow", answer: list, random: random_grow },
    ],
    lists: Some(random_list),
    cases,
    full,
};

/// Of the calls that a request joins, at most so many are made.
const MOST_CALLS: usize = 1_000;
/// The bytes of a tree's hashes.
const HASHES: usize = 32 * LEVELS;

// Answers.

fn read_tree(words: &[Word]) -> Option<Growing> {
    let [algorithm, hashes, count] = words else { return None };
    let hashes = tree::hashes(hashes.as_bytes()?)?.try_into().ok()?;
    Some(Growing { algorithm: algorithm.as_number()?, hashes, count: count.as_number()? })
}

fn tree_words(tree: &Growing) -> [Word; 3] {
    [number(tree.algorithm), bytes(&tree.hashes.concat()), number(tree.count)]
}

fn answered((refusal, after): (u64, Growing)) -> Option<Vec<Word>> {
    Some([&[number(refusal)], &tree_words(&after)[..]].concat())
}

fn new(words: &[Word]) -> Option<Vec<Word>> {
    let [algorithm] = words else { return None };
    answered(Growing::make(hash, algorithm.as_number()?))
}

fn page(words: &[Word]) -> Option<Vec<Word>> {
    let [algorithm, tree @ .., page] = words else { return None };
    answered(read_tree(tree)?.page(hash, algorithm.as_number()?, page.as_bytes()?))
}

fn leaves(words: &[Word]) -> Option<Vec<Word>> {
    let [algorithm, tree @ .., leaves] = words else { return None };
    answered(read_tree(tree)?.leaves(hash, algorithm.as_number()?, leaves.as_bytes()?))
}

fn root(words: &[Word]) -> Option<Vec<Word>> {
    let [algorithm, tree @ ..] = words else { return None };
    let root = read_tree(tree)?.root(hash, algorithm.as_number()?);
    Some(vec![number(root.err().unwrap_or(0)), bytes(&root.unwrap_or([0; 32]))])
}

fn root_into(words: &[Word]) -> Option<Vec<Word>> {
    let [algorithm, tree @ .., lent] = words else { return None };
    let mut lent = lent.as_bytes()?.to_vec();
    let written = read_tree(tree)?.root_into(hash, algorithm.as_number()?, &mut lent);
    Some(vec![number(written.err().unwrap_or(0)), number(written.unwrap_or(0) as u64), bytes(&lent)])
}

fn list(words: &[Word]) -> Option<Vec<Word>> {
    let [algorithm, calls] = words else { return None };
    let grown = grow(hash, algorithm.as_number()?, &read_calls(calls.as_bytes()?));
    let told: Vec<u8> = grown.told.iter().flat_map(|(number, root)| [&[*number as u8], &root[..]].concat()).collect();
    Some([&[number(grown.number), bytes(&told)], &tree_words(&grown.tree)[..]].concat())
}

/// The calls that are made: those before the first that is cut short or of no kind.
fn read_calls(mut joined: &[u8]) -> Vec<(u64, Call)> {
    let next = || {
        let (call, rest) = read_call(joined)?;
        joined = rest;
        Some(call)
    };
    std::iter::from_fn(next).take(MOST_CALLS).collect()
}

/// The bytes before what a call is given: kind, number of the hash and length.
const START: usize = 7;

fn read_call(joined: &[u8]) -> Option<((u64, Call), &[u8])> {
    let ([kind, high, low, length @ ..], rest) = joined.split_first_chunk::<START>()?;
    let (given, rest) = rest.split_at_checked(u32::from_be_bytes(*length) as usize)?;
    let algorithm = u16::from_be_bytes([*high, *low]) as u64;
    match kind {
        0 => Some(((algorithm, Call::Page(given.to_vec())), rest)),
        1 => Some(((algorithm, Call::Leaves(given.to_vec())), rest)),
        _ => None,
    }
}

// Requests, each by a number of its own.

fn ask(entry: &'static str, by: u64, tree: &Growing, more: Option<Word>) -> Asked {
    let tree = [number(tree.algorithm), short(&tree.hashes.concat()), number(tree.count)];
    (entry, [&[number(by)], &tree[..], more.as_slice()].concat())
}

fn ask_new(by: u64) -> Asked {
    ("grow_new", vec![number(by)])
}

fn ask_page(by: u64, tree: &Growing, page: &[u8]) -> Asked {
    ask("grow_page", by, tree, Some(short(page)))
}

fn ask_leaves(by: u64, tree: &Growing, joined: &[u8]) -> Asked {
    ask("grow_leaves", by, tree, Some(short(joined)))
}

fn ask_root(by: u64, tree: &Growing) -> Asked {
    ask("grow_root", by, tree, None)
}

fn ask_root_into(by: u64, tree: &Growing, room: usize, byte: u8) -> Asked {
    ask("grow_root_into", by, tree, Some(repeated(room, byte)))
}

fn ask_joined(by: u64, joined: &[u8]) -> Asked {
    ("grow", vec![number(by), short(joined)])
}

fn ask_grow(by: u64, calls: &[(u64, Call)]) -> Asked {
    ask_joined(by, &join_calls(calls))
}

/// A number that 2 bytes do not hold goes out as their largest: no hash has either.
fn join_calls(calls: &[(u64, Call)]) -> Vec<u8> {
    let mut joined = Vec::new();
    for (algorithm, call) in calls {
        let (kind, given) = match call {
            Call::Page(page) => (0, page),
            Call::Leaves(leaves) => (1, leaves),
        };
        joined.push(kind);
        joined.extend(u16::try_from(*algorithm).unwrap_or(u16::MAX).to_be_bytes());
        joined.extend((given.len() as u32).to_be_bytes());
        joined.extend(given);
    }
    joined
}

fn ask_call(tree: &Growing, (by, call): &(u64, Call)) -> Asked {
    match call {
        Call::Page(page) => ask_page(*by, tree, page),
        Call::Leaves(joined) => ask_leaves(*by, tree, joined),
    }
}

/// A list of calls, each given the tree that the call before returned, with the
/// root at times, at times by another number; a new tree is made before, and then the whole
/// list is asked for at once.
fn ask_list(start: &Growing, calls: &[(u64, Call)], random: &mut Random) -> Vec<Asked> {
    let (mut tree, mut all) = (start.clone(), Vec::new());
    let is_new = *start == Growing::new(start.algorithm);
    if is_new {
        all.push(ask_new(start.algorithm));
    }
    for call in calls {
        all.push(ask_call(&tree, call));
        (_, tree) = tree.call(hash, call.0, &call.1);
        let by = if random.one_in(8) { call.0 } else { tree.algorithm };
        match random.below(6) {
            0 | 1 => all.push(ask_root(by, &tree)),
            2 => all.push(ask_root_into(by, &tree, random_room(random), random.byte())),
            _ => (),
        }
    }
    if is_new {
        all.push(ask_grow(start.algorithm, calls));
    }
    all
}

fn ask_all(requests: &mut Requests, all: impl IntoIterator<Item = Asked>) {
    all.into_iter().for_each(|(name, words)| requests.ask(name, &words));
}

// Trees, leaves and cuts.

fn some_hashes(count: usize, random: &mut Random) -> Vec<Hash> {
    (0..count).map(|_| random.hash()).collect()
}

/// A tree that no list of calls returns: any hash at each level.
fn made_up(algorithm: u64, count: u64, random: &mut Random) -> Growing {
    let mut tree = Growing { count, ..Growing::new(algorithm) };
    tree.hashes.fill_with(|| random.hash());
    tree
}

/// One byte in all hashes.
fn plain(algorithm: u64, count: u64, byte: u8) -> Growing {
    Growing { algorithm, hashes: [[byte; 32]; LEVELS], count }
}

/// Short pages, the first of them empty.
fn short_pages(count: usize) -> Vec<Vec<u8>> {
    (0..count).map(|at| vec![at as u8; at.min(3)]).collect()
}

fn leaf_hashes(algorithm: u64, pages: &[Vec<u8>]) -> Vec<Hash> {
    pages.iter().map(|page| leaf_hash(algorithm::of(algorithm), page)).collect()
}

/// Every way to hand in pages by calls: a page alone, or the leaf hashes of one
/// and more of them joined, and then the rest.
fn cuts(algorithm: u64, pages: &[Vec<u8>]) -> Vec<Vec<Call>> {
    let Some(first) = pages.first() else { return vec![vec![]] };
    let joined = (1..=pages.len()).map(|count| (Call::Leaves(leaf_hashes(algorithm, &pages[..count]).concat()), count));
    let starts = [(Call::Page(first.clone()), 1)].into_iter().chain(joined);
    let followed = |(call, count): (Call, usize)| {
        let rests = cuts(algorithm, &pages[count..]);
        rests.into_iter().map(move |rest| [vec![call.clone()], rest].concat())
    };
    starts.flat_map(followed).collect()
}

/// Joined calls of no leaves before, between and behind the others.
fn with_empty_calls(calls: &[Call], random: &mut Random) -> Vec<Call> {
    let mut all = Vec::new();
    let mut some = |all: &mut Vec<Call>| all.extend((0..random.below(3)).map(|_| Call::Leaves(vec![])));
    for call in calls {
        some(&mut all);
        all.push(call.clone());
    }
    some(&mut all);
    all
}

/// Every cut of so many pages, in turn with calls of no leaves and without, or
/// each in both ways: one tree comes of all.
fn ask_cuts(requests: &mut Requests, algorithm: u64, count: usize, both: bool, random: &mut Random) {
    let pages = short_pages(count);
    let tree = of_list(hash, algorithm, &leaf_hashes(algorithm, &pages));
    for (at, cut) in cuts(algorithm, &pages).into_iter().enumerate() {
        for (turn, calls) in [with_empty_calls(&cut, random), cut].into_iter().enumerate() {
            if both || at % 2 == turn {
                let calls = under(algorithm, &calls);
                assert_eq!(grow(hash, algorithm, &calls).tree, tree);
                ask_all(requests, [ask_grow(algorithm, &calls)]);
            }
        }
    }
}

// Committed cases.

/// 10, then 6; no sum wraps.
fn leaves_number(length: usize, count: u64) -> u64 {
    let sum = count as u128 + length as u128 / 32;
    match length % 32 {
        0 => 6 * (sum > LARGEST_SIZE as u128) as u64,
        _ => 10,
    }
}

/// The cases by hand of request 3, full-size logs, as its readings list them.
fn full_size_cases(by: u64) -> Vec<(u64, Asked)> {
    let (top, full) = (plain(by, LARGEST_SIZE - 1, 0xa1), plain(by, LARGEST_SIZE, 0xb2));
    vec![
        (0, ask_leaves(by, &top, &[3; 32])),
        (6, ask_leaves(by, &top, &[3; 64])),
        (10, ask_leaves(by, &top, &[3; 33])),
        (6, ask_page(by, &full, b"page")),
        (0, ask_leaves(by, &full, &[])),
    ]
}

/// Single calls of the papers' rules, with the number that must be given; of
/// more counts and lengths where all are wanted.
fn rules(by: u64, all_wanted: bool) -> Vec<(u64, Asked)> {
    let random = &mut Random::new(32);
    let new = Growing::new(by);
    let mut all = vec![
        (0, ask_leaves(by, &new, &[])),
        (0, ask_page(by, &new, &[])),
        (0, ask_leaves(by, &new, &[0; 32])),
        (0, ask_leaves(by, &new, &[0; 64])),
    ];
    all.extend(full_size_cases(by));
    // Trees are long: by one of the two, unless all are wanted.
    let is_long = by == SHA256 || all_wanted;
    if is_long {
        let (top, full) = (made_up(by, LARGEST_SIZE - 1, random), made_up(by, LARGEST_SIZE, random));
        // A leaf that merges 32, 33 and 63 levels, and one behind it.
        let before = [(1 << 32) - 1, (1 << 33) - 1, (1 << 63) - 1].map(|count| made_up(by, count, random));
        all.extend([
            (0, ask_page(by, &top, b"page")),
            (0, ask_leaves(by, &top, &leaf_hash(algorithm::of(by), b"page"))),
            (10, ask_leaves(by, &full, &[0; 31])),
            (6, ask_leaves(by, &full, &[0; 32])),
            (6, ask_page(by, &full, &[7])),
        ]);
        all.extend(before.iter().map(|tree| (0, ask_page(by, tree, b"page"))));
        all.extend(before.iter().map(|tree| (0, ask_leaves(by, tree, &[4; 64]))));
    }
    let (mut counts, mut lengths) = (vec![LARGEST_SIZE - 2, 1 << 32, (1 << 32) + 1], vec![31, 32, 64, 96]);
    if all_wanted {
        counts.extend([0, 1, (1 << 32) - 1, (1 << 33) - 1, 1 << 33, (1 << 63) - 1, 1 << 63]);
        counts.extend([32, 31, 4, 3, 1, 0].map(|less| LARGEST_SIZE - less));
        lengths.extend([0, 1, 33, 63, 65, 95, 97, 128, 1_000, 1_024]);
    }
    for (at, count) in counts.iter().enumerate().filter(|_| is_long) {
        let tree = plain(by, *count, at as u8);
        all.push((6 * (*count == LARGEST_SIZE) as u64, ask_page(by, &tree, b"a page")));
        all.extend(lengths.iter().map(|length| (leaves_number(*length, *count), ask_leaves(by, &tree, &vec![7; *length]))));
    }
    for tree in [new, of_list(hash, by, &[[1; 32], [2; 32], [3; 32]]), plain(by, LARGEST_SIZE, 6)] {
        for room in [0, 1, 31, 32, 33, 64] {
            all.push((if room < 32 { 9 } else { 0 }, ask_root_into(by, &tree, room, 0x5a)));
        }
    }
    all
}

/// Request 7, a second hash: new trees by every number; each call, accepted and refused, by
/// numbers that no hash has and by the other one, 16 before all else; trees that hold a number
/// that no hash has, by their own number and by others.
fn second_hash_rules(all_wanted: bool) -> Vec<(u64, Asked)> {
    let mut all: Vec<(u64, Asked)> = KNOWN.map(|by| (0, ask_new(by))).into();
    all.extend(UNKNOWN.map(|by| (16, ask_new(by))));
    for algorithm in KNOWN {
        let (one, full) = (plain(algorithm, 1, 0xc4), plain(algorithm, LARGEST_SIZE, 0xd5));
        let calls = |by: u64| {
            [
                (0, ask_page(by, &one, b"page")),
                (6, ask_page(by, &full, b"page")),
                (0, ask_leaves(by, &one, &[1; 32])),
                (10, ask_leaves(by, &full, &[1; 33])),
                (6, ask_leaves(by, &full, &[1; 32])),
                (0, ask_root(by, &one)),
                (0, ask_root_into(by, &one, 33, 0x5a)),
                (9, ask_root_into(by, &full, 31, 0x5a)),
            ]
        };
        all.extend(calls(algorithm));
        let others = if all_wanted { &UNKNOWN[..] } else { &[algorithm ^ 0x100][..] };
        for by in others.iter().copied().chain([algorithm::other(algorithm)]) {
            all.extend(calls(by).map(|(_, asked)| (16, asked)));
        }
    }
    for held in if all_wanted { &UNKNOWN[..] } else { &[1, 0x1f0][..] } {
        for tree in [Growing::new(*held), plain(*held, 3, 9)] {
            for by in [*held, SHA256, SM3, held ^ 1] {
                all.extend([(16, ask_root(by, &tree)), (16, ask_root_into(by, &tree, 31, 0x5a))]);
                if all_wanted || tree.count == 0 && by != SHA256 {
                    all.extend([(16, ask_page(by, &tree, b"page")), (16, ask_leaves(by, &tree, &[1; 31]))]);
                }
            }
        }
    }
    all
}

/// Lists of calls by both numbers and by none, from trees made with either and with none.
fn second_hash_lists(all_wanted: bool) -> Vec<Asked> {
    let page = |by: u64| (by, Call::Page(b"page".to_vec()));
    let leaves = |by: u64, length: usize| (by, Call::Leaves(vec![5; length]));
    let mixed = [page(0x00), page(0xf0), leaves(0x00, 64), leaves(0xf0, 64), leaves(0x1f0, 32), page(0x100), leaves(1, 31), page(0xf000)];
    let unknown = if all_wanted { &UNKNOWN[..] } else { &[0x1f0][..] };
    let numbers = KNOWN.iter().chain(unknown).copied();
    let all = numbers.flat_map(|by| [ask_grow(by, &mixed), ask_grow(by, &[]), ask_grow(by, &under(by, &[Call::Page(vec![])]))]);
    all.collect()
}

/// Joined calls that are cut after each byte.
fn cut_short(algorithm: u64, calls: &[Call]) -> Vec<Asked> {
    let joined = join_calls(&under(algorithm, calls));
    (0..=joined.len()).map(|length| ask_joined(algorithm, &joined[..length])).collect()
}

/// The first bytes of a call changed, a call before it and one behind it: of no
/// kind, by another number, and with another length.
fn other_starts(algorithm: u64, lengths: &[u32], kinds: &[u8], numbers: &[u16]) -> Vec<Asked> {
    let [before, call, behind] = [b"one", b"two", b"six"].map(|page| join_calls(&[(algorithm, Call::Page(page.to_vec()))]));
    let start = |kind: u8, by: u16, length: u32| {
        let call = [&[kind], &by.to_be_bytes()[..], &length.to_be_bytes(), &call[START..]].concat();
        ask_joined(algorithm, &[&before[..], &call, &behind].concat())
    };
    let by = algorithm as u16;
    let lengths = lengths.iter().map(|length| start(0, by, *length));
    lengths.chain(kinds.iter().map(|kind| start(*kind, by, 3))).chain(numbers.iter().map(|number| start(0, *number, 3))).collect()
}

fn cases(requests: &mut Requests) {
    let random = &mut Random::new(2);
    for algorithm in KNOWN {
        ask_all(requests, rules(algorithm, false).into_iter().map(|(_, asked)| asked));
    }
    ask_all(requests, second_hash_rules(false).into_iter().map(|(_, asked)| asked));

    // Roots: of trees that calls return, and of any tree.
    for by in KNOWN {
        let new = Growing::new(by);
        for tree in [new.page(hash, by, b"").1, new.leaves(hash, by, &[0; 64]).1, new] {
            ask_all(requests, [ask_root(by, &tree)]);
        }
    }
    let mut turns = KNOWN.into_iter().cycle();
    let mut turn = || turns.next().unwrap();
    for count in [0, 2, 3, u64::MAX / 3, u64::MAX / 3 * 2, (1 << 32) - 1, 1 << 32, 1 << 63, LARGEST_SIZE - 1, LARGEST_SIZE] {
        let by = turn();
        ask_all(requests, [ask_root(by, &made_up(by, count, random))]);
    }
    for bit in (10..64).step_by(17) {
        let (by, count) = (turn(), (1 << bit) + random.below(1 << bit));
        ask_all(requests, [ask_root(by, &made_up(by, count, random))]);
    }
    // Trees that no list returns: what stands at the level of the new hash is written over, and the levels above stay.
    for count in [1, 3, 11, u64::MAX / 3, LARGEST_SIZE - 8] {
        let by = turn();
        let tree = made_up(by, count, random);
        ask_all(requests, [ask_page(by, &tree, b"next page"), ask_leaves(by, &tree, &some_hashes(3, random).concat())]);
    }

    // Lists of calls.
    let (joined, good) = (|length: usize| Call::Leaves(vec![0; length]), Call::Page(b"page".to_vec()));
    for by in KNOWN {
        for length in [32, 64] {
            ask_all(requests, [ask_grow(by, &under(by, &[joined(length)]))]);
        }
        for count in if by == SHA256 { 0..=4 } else { 0..=3 } {
            ask_cuts(requests, by, count, false, random);
        }
        let calls = [joined(65), good.clone(), joined(31), good.clone(), joined(64), joined(33), good.clone(), joined(1)];
        ask_all(requests, [ask_grow(by, &under(by, &calls)), ask_grow(by, &random_calls(by, 20, random))]);
    }
    ask_all(requests, second_hash_lists(false));
    ask_all(requests, cut_short(SM3, &[Call::Page(b"p".to_vec())]));
    ask_all(requests, other_starts(SM3, &[0, 14, u32::MAX], &[2], &[0x00, 0x1f0, 0xf000]));
    ask_all(requests, other_starts(SHA256, &[], &[], &[0xf0, 0x100]));

    no_requests(requests);
}

fn no_requests(requests: &mut Requests) {
    lines_that_are_no_request(requests, "grow 0");
    for length in [0, 1, 32, 1_024, HASHES - 32, HASHES - 1, HASHES + 1, HASHES + 32] {
        for rest in ["page 0 0 {} 0 x", "leaves 0 0 {} 0 x", "root 1 1 {} 0", "root_into 240 240 {} 0 32*00"] {
            requests.line(format!("grow_{rest}").replace("{}", &format!("{length}*00")).as_bytes());
        }
    }
    for line in [
        "grow",
        "grow x",
        "grow 0",
        "grow 0 x x",
        "grow 0 0",
        "grow x x",
        "grow 18446744073709551616 x",
        "grow_new",
        "grow_new x",
        "grow_new 0 0",
        "grow_new 1*00",
        "grow_new 18446744073709551616",
        "grow_page",
        "grow_page 0 2048*00 0 x",
        "grow_page 0 0 2048*00 0",
        "grow_page 0 0 2048*00 0 x x",
        "grow_page 0 0 2048*00 0 0",
        "grow_page 0 0 2048*00 x x",
        "grow_page 0 0 0 2048*00 x",
        "grow_page x 0 2048*00 0 x",
        "grow_page 0 x 2048*00 0 x",
        "grow_page 0 0 2048*00 18446744073709551616 x",
        "grow_page 18446744073709551616 0 2048*00 0 x",
        "grow_page 0 18446744073709551616 2048*00 0 x",
        "grow_leaves 0 0 2048*00 0",
        "grow_leaves 0 0 2048*00 0 x 0",
        "grow_leaves 0 0 2048*00 0 0",
        "grow_leaves 0 0 2048*00 1*00 x",
        "grow_root 0 2048*00 0",
        "grow_root 0 0 2048*00",
        "grow_root 0 0 2048*00 0 x",
        "grow_root 0 0 2048*00 x00",
        "grow_root 0 0 2048 0",
        "grow_root_into 0 0 2048*00 0",
        "grow_root_into 0 0 2048*00 0 32",
        "grow_root_into 0 0 2048*00 0 32*00 32",
        "grow_leaves 0 0 2048*00 0 1046529*00",
        "grow_tree 0 0 2048*00 0 x",
    ] {
        requests.line(line.as_bytes());
    }
}

// The large run.

/// Trees that no list returns, with counts next to every power of two and those up to the
/// largest, by the one hash and the other in turn.
fn any_trees(requests: &mut Requests, random: &mut Random) {
    for (turn, count) in next_to_powers(2).into_iter().chain(LARGEST_SIZE - 12..=LARGEST_SIZE).enumerate() {
        let by = KNOWN[turn % 2];
        let tree = made_up(by, count, random);
        ask_all(requests, [ask_page(by, &tree, &random.bytes(9)), ask_root(by, &tree), ask_root_into(by, &tree, 32, 0)]);
        let another = made_up(algorithm::other(by), count, random);
        ask_all(requests, [ask_page(another.algorithm, &another, &random.bytes(9)), ask_root(another.algorithm, &another)]);
        let mut more = vec![0, 1, 2, random.between(3, 9)];
        let room = LARGEST_SIZE - count;
        if room <= 12 {
            more.extend([room.saturating_sub(1), room, room + 1]);
        }
        for more in more {
            let joined = random.bytes(32 * more as usize);
            ask_all(requests, [ask_leaves(by, &tree, &joined)]);
        }
        for length in [31, 33, 65] {
            ask_all(requests, [ask_leaves(by, &tree, &vec![3; length])]);
        }
        ask_all(requests, [ask_page(another.algorithm, &tree, b"page"), ask_leaves(some_unknown(random), &tree, &[3; 33])]);
    }
}

/// Trees of lists, and what more leaves make of them.
fn trees_of_lists(requests: &mut Requests, random: &mut Random) {
    let leaves = some_hashes(600, random);
    for (turn, count) in (0..=70).chain([127, 128, 129, 255, 256, 257, 300]).enumerate() {
        for by in KNOWN {
            let tree = of_list(hash, by, &leaves[..count]);
            ask_all(
                requests,
                [ask_root(by, &tree), ask_root_into(by, &tree, 30 + count % 5, 1), ask_page(by, &tree, &random.bytes(count))],
            );
            for more in [0, 1, 2, 3, 4, 8, 1 + random.below(40) as usize] {
                let joined = leaves[count..count + more].concat();
                assert_eq!(tree.leaves(hash, by, &joined), (0, of_list(hash, by, &leaves[..count + more])));
                if (turn + more) % 2 == (by == SM3) as usize {
                    ask_all(requests, [ask_leaves(by, &tree, &joined)]);
                }
            }
        }
    }
}

/// Many leaves in one call, up to the most that a request holds, to a new tree
/// and to one whose count with them is the limit, one less and one more; long pages.
fn boundary(requests: &mut Requests, random: &mut Random) {
    for (turn, more) in [1, 2, 31, 32, 33, 255, 256, 257, 1_000, 2_047, 2_048, 4_000].into_iter().enumerate() {
        let joined = random.bytes(32 * more);
        for by in KNOWN {
            ask_all(requests, [ask_leaves(by, &Growing::new(by), &joined), ask_grow(by, &[(by, Call::Leaves(joined.clone()))])]);
        }
        let (by, most) = (KNOWN[turn % 2], LARGEST_SIZE - more as u64);
        for count in [most - 1, most, most + 1] {
            ask_all(requests, [ask_leaves(by, &made_up(by, count, random), &joined)]);
        }
    }
    let most = MOST_BYTES - HASHES;
    let leaves = most as u64 / 32;
    for (by, count) in [(SHA256, 0), (SM3, LARGEST_SIZE - leaves), (SHA256, LARGEST_SIZE - leaves + 1), (SM3, 0)] {
        ask_all(requests, [ask_leaves(by, &plain(by, count, 5), &vec![6; most])]);
    }
    ask_all(requests, [ask_leaves(SM3, &plain(SHA256, 0, 5), &vec![6; most]), ask_page(1, &plain(1, 0, 5), &vec![6; most])]);
    for (turn, length) in [0, 1, 54, 55, 56, 62, 63, 64, 65, 118, 119, 120, 1_000, 65_536, most].into_iter().enumerate() {
        for (at, count) in [0, LARGEST_SIZE - 1, LARGEST_SIZE].into_iter().enumerate() {
            let by = KNOWN[(turn + at) % 2];
            ask_all(requests, [ask_page(by, &plain(by, count, 8), &vec![0x61; length])]);
        }
    }
}

/// Lists of about the most calls that are made, whichever calls these are.
fn many_calls(requests: &mut Requests) {
    // Of zeros only: empty pages by SHA-256, the last one cut short or not.
    for length in [START * MOST_CALLS - 1, START * MOST_CALLS, START * MOST_CALLS + START, MOST_BYTES] {
        ask_all(requests, [ask_joined(SHA256, &vec![0; length])]);
    }
    ask_all(requests, [ask_joined(SM3, &vec![0; START * MOST_CALLS + START])]);
    for (by, call) in [(SHA256, Call::Leaves(vec![])), (SM3, Call::Leaves(vec![1])), (SM3, Call::Leaves(vec![]))] {
        for count in [MOST_CALLS - 1, MOST_CALLS] {
            let pages = [b"the last", b"no more."].map(|page| Call::Page(page.to_vec()));
            ask_all(requests, [ask_grow(by, &under(by, &[vec![call.clone(); count], pages.into()].concat()))]);
        }
    }
}

fn full(requests: &mut Requests) {
    let random = &mut Random::new(33);
    for by in KNOWN {
        ask_all(requests, rules(by, true).into_iter().map(|(_, asked)| asked));
        for count in 0..=8 {
            ask_cuts(requests, by, count, by == SHA256 && count < 8, random);
        }
        for count in [1, 2, 3, 5, 10, 20, 40, 60, 100, 150, 200, 250, 299, 300] {
            for _ in 0..2 {
                ask_all(requests, [ask_grow(by, &random_calls(by, count, random))]);
            }
            let calls = random_calls(by, count.min(40), random);
            ask_all(requests, ask_list(&Growing::new(by), &calls, random));
        }
    }
    ask_all(requests, second_hash_rules(true).into_iter().map(|(_, asked)| asked));
    ask_all(requests, second_hash_lists(true));
    any_trees(requests, random);
    trees_of_lists(requests, random);
    let short =
        [Call::Page(b"ab".to_vec()), Call::Leaves(vec![4; 64]), Call::Leaves(vec![]), Call::Page(vec![]), Call::Leaves(vec![5; 33])];
    ask_all(requests, cut_short(SM3, &short));
    let lengths: Vec<u32> = (0..=40).chain((0..32).map(|bit| 1 << bit)).chain([u32::MAX - 1, u32::MAX]).collect();
    let kinds: Vec<u8> = (0..=255).collect();
    let numbers: Vec<u16> = (0..=0x1ff).chain((0..16).map(|bit| 1 << bit)).chain([0xf000, 0xf0f0, u16::MAX]).collect();
    ask_all(requests, other_starts(SHA256, &lengths, &kinds, &numbers));
    ask_all(requests, other_starts(SM3, &lengths[..20], &kinds[..4], &numbers));
    boundary(requests, random);
    many_calls(requests);
}

// Random requests.

/// Five in six with room for more, some of these for few.
fn random_count(random: &mut Random) -> u64 {
    match random.below(12) {
        0 | 1 => random.below(70),
        2..=4 => random.draw() >> random.below(64),
        5 | 6 => near_power(random),
        7 => (1 << 32) - 5 + random.below(10),
        8 | 9 => LARGEST_SIZE,
        _ => LARGEST_SIZE - random.below(10),
    }
}

/// Any tree, or that of a list of leaves, by both hashes; now and then one that holds a number that no hash has.
fn random_tree(random: &mut Random) -> Growing {
    let by = some(random);
    if random.one_in(2) {
        let count = random_count(random);
        let held = if random.one_in(20) { some_unknown(random) } else { by };
        return made_up(held, count, random);
    }
    let count = if random.one_in(8) { 0 } else { random.below(40) as usize };
    let tree = of_list(hash, by, &some_hashes(count, random));
    if random.one_in(2) {
        tree
    } else {
        damaged(tree, random)
    }
}

fn damaged(mut tree: Growing, random: &mut Random) -> Growing {
    let level = random.below(tree.hashes.len() as u64) as usize;
    match random.below(7) {
        0 => tree.hashes[level] = random.hash(),
        1 => tree.hashes[level % 6][random.below(32) as usize] ^= 1 << random.below(8),
        2 => tree.hashes.swap(level, level / 2),
        3 => tree.count = tree.count.wrapping_add(random.below(3)).wrapping_sub(1),
        4 => tree.count ^= 1 << random.below(64),
        5 if random.one_in(2) => tree.algorithm ^= 1 << random.below(64),
        _ => tree.count = random_count(random),
    }
    tree
}

/// The number of a call on a tree: mostly the tree's.
fn random_number(tree: &Growing, random: &mut Random) -> u64 {
    match random.below(20) {
        0 => some(random),
        1 => some_unknown(random),
        _ => tree.algorithm,
    }
}

/// The number of a call and the words of a tree; now and then too many or too few hashes.
fn random_words(tree: &Growing, random: &mut Random) -> Vec<Word> {
    let mut hashes = tree.hashes.concat();
    if random.one_in(40) {
        hashes.resize(*random.pick(&[0, 32, HASHES - 32, HASHES - 1, HASHES + 1, HASHES + 32]), 1);
    }
    vec![number(random_number(tree, random)), number(tree.algorithm), short(&hashes), number(tree.count)]
}

fn random_new(random: &mut Random) -> Vec<Word> {
    vec![number(if random.one_in(2) { some(random) } else { some_unknown(random) })]
}

fn random_page(random: &mut Random) -> Vec<Word> {
    let tree = random_tree(random);
    let length = if random.one_in(20) { random.below(1_000) } else { random.below(140) };
    let page = random.bytes(length as usize);
    [random_words(&tree, random), vec![bytes(&page)]].concat()
}

/// Some leaf hashes, as many as there is room for, or a few more; some of a bad length.
fn random_leaves(random: &mut Random) -> Vec<Word> {
    let tree = random_tree(random);
    let room = LARGEST_SIZE - tree.count;
    let count = match random.below(6) {
        0 if room < 50 => room,
        1 if room < 50 => room + random.between(1, 3),
        2 => random.below(40),
        3 => 0,
        _ => random.below(6),
    };
    let odd = if random.one_in(8) { random.between(1, 31) } else { 0 };
    let joined = random.bytes((32 * count + odd) as usize);
    [random_words(&tree, random), vec![bytes(&joined)]].concat()
}

fn random_root(random: &mut Random) -> Vec<Word> {
    let tree = random_tree(random);
    random_words(&tree, random)
}

fn random_room(random: &mut Random) -> usize {
    match random.below(4) {
        0 => random.below(32) as usize,
        1 => 32 + random.below(40) as usize,
        _ => 32,
    }
}

fn random_root_into(random: &mut Random) -> Vec<Word> {
    let tree = random_tree(random);
    let lent = repeated(random_room(random), random.byte());
    [random_words(&tree, random), vec![lent]].concat()
}

/// A page, or a few leaf hashes; one in eight is refused.
fn random_call(random: &mut Random) -> Call {
    let length = match random.below(16) {
        0..=6 => {
            let length = random.below(70);
            return Call::Page(random.bytes(length as usize));
        }
        7..=13 => 32 * random.below(6),
        14 => *random.pick(&[31, 65]),
        _ => 32 * random.below(4) + random.between(1, 31),
    };
    Call::Leaves(random.bytes(length as usize))
}

/// Mostly by this number; one in twelve by another or by none, of those that 2 bytes hold.
fn random_calls(algorithm: u64, count: usize, random: &mut Random) -> Vec<(u64, Call)> {
    let number = |random: &mut Random| match random.below(24) {
        0 => some(random),
        1 => Some(some_unknown(random)).filter(|number| *number < 0x1_0000).unwrap_or(0x1f0),
        _ => algorithm,
    };
    (0..count).map(|_| (number(random), random_call(random))).collect()
}

/// From a new tree or any other; a new one may hold a number that no hash has.
fn random_list(random: &mut Random) -> Vec<Asked> {
    let start = match random.below(20) {
        0..=9 => Growing::new(some(random)),
        10 => Growing::new(0xff),
        _ => random_tree(random),
    };
    let count = random.between(1, 10) as usize;
    let calls = random_calls(start.algorithm.min(0xffff), count, random);
    ask_list(&start, &calls, random)
}

/// Joined calls, one list in three damaged.
fn random_grow(random: &mut Random) -> Vec<Word> {
    let count = if random.one_in(30) { random.below(300) } else { random.below(30) };
    let by = some(random);
    let mut joined = join_calls(&random_calls(by, count as usize, random));
    let at = random.below(joined.len() as u64 + 1) as usize;
    match random.below(12) {
        0 => joined.truncate(at),
        1 => joined.push(random.byte()),
        2 if at < joined.len() => joined[at] ^= 1 << random.below(8),
        3 => joined.splice(at..at, [0; START]).for_each(drop),
        _ => (),
    }
    vec![number(algorithm::mostly(by, random)), short(&joined)]
}

#[cfg(test)]
mod tests {
    use super::*;
    use crate::requests::{answer, layer};
    use crate::words::{read_line, write_line};
    use std::collections::BTreeMap;

    fn ask(line: &str) -> String {
        String::from_utf8(answer(&[layer("growing").unwrap()], line.as_bytes())).unwrap()
    }

    /// The words of a request as they are read, and those of its answer.
    fn answered((name, words): &Asked) -> (Vec<Word>, Option<Vec<Word>>) {
        let mut line = Vec::new();
        write_line(Some(name), words, &mut line);
        line.pop();
        let words = read_line(&line).unwrap().1;
        let entry = LAYER.entries.iter().find(|entry| entry.name == *name).unwrap();
        let answer = (entry.answer)(&words);
        (words, answer)
    }

    #[test]
    fn answers() {
        let (zeros, five, none) = ("00".repeat(HASHES), "05".repeat(32), "00".repeat(32));
        let empty = "e3b0c44298fc1c149afbf4c8996fb92427ae41e4649b934ca495991b7852b855";
        let empty_page = "6e340b9cffb37a989ca544e6bb780a2c78901d3fb33738768511a30617afa01d";
        let two_zeros = "ae0798d0ecaed2b778eddebf18f071a561c53658c05e76cedecc27cafbdbc577";
        let rest = &zeros[64..];
        assert_eq!(ask("grow_new 0"), format!("0 0 x{zeros} 0\n"));
        assert_eq!(ask("grow_new 240"), format!("0 240 x{zeros} 0\n"));
        assert_eq!(ask("grow_new 1"), format!("16 1 x{zeros} 0\n"));
        assert_eq!(ask("grow_new 496"), format!("16 496 x{zeros} 0\n"));
        assert_eq!(ask("grow_root 0 0 2048*00 0"), format!("0 x{empty}\n"));
        assert_eq!(ask("grow_root 240 0 2048*00 0"), format!("16 x{none}\n"));
        assert_eq!(ask("grow_root 1 1 2048*00 0"), format!("16 x{none}\n"));
        assert_eq!(ask("grow_root_into 0 0 2048*00 0 33*07"), format!("0 32 x{empty}07\n"));
        assert_eq!(ask("grow_root_into 0 0 2048*00 0 2*07"), "9 0 x0707\n");
        assert_eq!(ask("grow_root_into 240 0 2048*00 0 2*07"), "16 0 x0707\n");
        assert_eq!(ask("grow_page 0 0 2048*00 0 x"), format!("0 0 x{empty_page}{rest} 1\n"));
        assert_eq!(ask("grow_page 0 240 2048*00 0 x"), format!("16 240 x{zeros} 0\n"));
        assert_eq!(ask("grow_leaves 0 0 2048*00 0 x"), format!("0 0 x{zeros} 0\n"));
        assert_eq!(ask("grow_leaves 240 240 2048*00 0 32*05"), format!("0 240 x{five}{rest} 1\n"));
        assert_eq!(ask("grow_leaves 0 0 2048*00 0 33*05"), format!("10 0 x{zeros} 0\n"));
        assert_eq!(ask("grow_leaves 256 256 2048*00 0 33*05"), format!("16 256 x{zeros} 0\n"));
        assert_eq!(ask("grow_leaves 0 0 2048*00 18446744073709551615 32*05"), format!("6 0 x{zeros} 18446744073709551615\n"));
        assert_eq!(ask("grow_page 0 0 2048*00 18446744073709551615 x"), format!("6 0 x{zeros} 18446744073709551615\n"));
        assert_eq!(ask("grow 0 x"), format!("0 x 0 x{zeros} 0\n"));
        assert_eq!(ask("grow 1 x"), format!("16 x 1 x{zeros} 0\n"));
        // An empty page, a refused call, one by another number, and half a call.
        let told = format!("00{empty_page}0a{empty_page}10{empty_page}");
        let calls = "00000000000000 0100000000000105 0000f000000000 010000".replace(' ', "");
        assert_eq!(ask(&format!("grow 0 x{calls}")), format!("0 x{told} 0 x{empty_page}{rest} 1\n"));
        // The page by the other number is the only one taken.
        let sm3 = "2daef60e7a0b8f5e024c81cd2ab3109f2b4f155cf83adeb2ae5532f74a157fdf";
        let first = "1ab21d8355cfa17f8e61194831e81a8f22bec8c728fefb747ed035eb5082aa2b";
        assert_eq!(ask(&format!("grow 240 x{calls}")), format!("0 x10{first}10{first}00{sm3} 240 x{sm3}{rest} 1\n"));
        assert_eq!(ask(&format!("grow 496 x{calls}")), format!("16 x{} 496 x{zeros} 0\n", format!("10{none}").repeat(3)));
        assert_eq!(
            ask(&format!("grow 0 x01000000000040{}", "00".repeat(64))),
            format!("0 x00{two_zeros} 0 x{}{two_zeros}{} 2\n", &zeros[..64], &zeros[128..])
        );
        for line in ["grow_root 0 0 2047*00 0", "grow_root 0 0 2049*00 0", "grow_root 0 0 2080*00 0", "grow_page 0 0 x 0 x", "grow 0 1"] {
            assert_eq!(ask(line), "?\n", "{line}");
        }
    }

    /// A refusal gives back the tree, or the lent bytes, as they were.
    #[test]
    fn rules_give_their_numbers() {
        let all = KNOWN.into_iter().flat_map(|by| rules(by, true)).chain(second_hash_rules(true));
        for (at, (refusal, asked)) in all.enumerate() {
            let (words, Some(answer)) = answered(&asked) else { panic!("{asked:?} is no request") };
            assert_eq!(answer[0], number(refusal), "{at}: {asked:?}");
            match asked.0 {
                "grow_new" => assert_eq!(answer[1..], tree_words(&Growing::new(words[0].as_number().unwrap()))),
                "grow_root" => assert_eq!(answer[1] == bytes(&[0; 32]), refusal != 0),
                "grow_root_into" if refusal != 0 => assert_eq!(answer[1..], [number(0), words[4].clone()]),
                "grow_root_into" => {
                    let (before, after) = (words[4].as_bytes().unwrap(), answer[2].as_bytes().unwrap());
                    assert_eq!((&answer[1], after.len(), &after[32..]), (&number(32), before.len(), &before[32..]));
                }
                _ if refusal != 0 => assert_eq!(answer[1..], words[1..4]),
                _ => assert!(answer[3].as_number() >= words[3].as_number() && answer[1] == words[1]),
            }
        }
    }

    /// A list is cut where a page or a joined call can begin, and one leaf has two ways.
    #[test]
    fn cuts_are_all() {
        for (count, expected) in [1, 2, 5, 13, 34, 89, 233, 610, 1_597].into_iter().enumerate() {
            let mut all: Vec<Vec<u8>> = cuts(SM3, &short_pages(count)).iter().map(|calls| join_calls(&under(SM3, calls))).collect();
            all.sort();
            all.dedup();
            assert_eq!(all.len(), expected);
        }
    }

    #[test]
    fn calls_are_read_as_they_are_joined() {
        let random = &mut Random::new(5);
        for count in [0, 1, 2, 30, 999, 1_000] {
            let calls = random_calls(some(random), count, random);
            let mut joined = join_calls(&calls);
            assert_eq!(read_calls(&joined), calls);
            for more in [&[1, 0, 0, 0, 0, 0][..], &[1, 0, 0, 0, 0, 0, 1], &[2, 0, 0, 0, 0, 0, 0], &[255, 0, 0, 0, 0, 0, 0, 0, 0, 0]] {
                joined.extend(more);
                assert_eq!(read_calls(&joined), calls);
                joined.truncate(joined.len() - more.len());
            }
            joined.extend([0; START]);
            assert_eq!(read_calls(&joined).len(), (count + 1).min(MOST_CALLS));
        }
        let calls = [(0xf0, Call::Page(vec![7])), (0x1f0, Call::Leaves(vec![])), (0xffff, Call::Page(vec![]))];
        assert_eq!(join_calls(&calls), [0, 0, 0xf0, 0, 0, 0, 1, 7, 1, 1, 0xf0, 0, 0, 0, 0, 0, 0xff, 0xff, 0, 0, 0, 0]);
        assert_eq!(read_calls(&join_calls(&calls)), calls);
    }

    /// Half of the single calls and more are accepted, and each refusal comes up; a
    /// page that is too long, 1, is in the tests of `growing`: no request holds it.
    #[test]
    fn random_requests_meet_every_number() {
        let random = &mut Random::new(6);
        let expected: [(&str, &[u64]); 3] = [("grow_page", &[0, 6, 16]), ("grow_leaves", &[0, 6, 10, 16]), ("grow_root_into", &[0, 9, 16])];
        for (name, numbers) in expected {
            let entry = LAYER.entries.iter().find(|entry| entry.name == name).unwrap();
            let mut counts: BTreeMap<u64, usize> = BTreeMap::new();
            for _ in 0..2_000 {
                let (_, answer) = answered(&(name, (entry.random)(random)));
                if let Some(answer) = answer {
                    *counts.entry(answer[0].as_number().unwrap()).or_default() += 1;
                }
            }
            println!("{name}: {counts:?}");
            assert_eq!(counts.keys().copied().collect::<Vec<_>>(), numbers);
            assert!(counts[&0] >= 1_000 && counts.values().all(|count| *count >= 50), "{counts:?}");
        }
    }

    /// Each call is given the tree that the one before returned; the list at once gives the last.
    #[test]
    fn lists_follow_their_answers() {
        let random = &mut Random::new(7);
        let mut at_once = 0;
        for _ in 0..300 {
            let all = random_list(random);
            let (words, Some(answer)) = answered(&all[0]) else { panic!("{all:?} is no list") };
            let mut tree = if all[0].0 == "grow_new" { answer[1..].to_vec() } else { words[1..4].to_vec() };
            for asked in &all {
                let (words, Some(answer)) = answered(asked) else { panic!("{asked:?} is no request") };
                match asked.0 {
                    "grow" => {
                        assert_eq!(answer[2..], tree[..]);
                        at_once += 1;
                    }
                    "grow_new" => assert_eq!(answer[1..], tree[..]),
                    _ => assert_eq!(words[1..4], tree[..]),
                }
                if ["grow_page", "grow_leaves"].contains(&asked.0) {
                    tree = answer[1..].to_vec();
                }
            }
        }
        assert!(at_once > 100);
    }
}
