//! Each call is made on both sides, from the same lent bytes: the answers and all lent bytes must be
//! the same. What kind of call it was is counted by the reference's answer, for each hash by itself.

use crate::code::{ways, Code, Step, Two, Wrote};
use crate::forge::LONGEST;
use crate::given::hashes;
use reference::algorithm::{KNOWN, REFUSED, SHA256, SM3};
use reference::auditor::{self, Dispute, Offer, PageCall, Second, Settled, Stored};
use reference::carry::{self, consistency_places, full_subtree, inclusion_places, parts, Carried, Compared, Known, Leaves, PAIR};
use reference::growing::{self, Call, Growing, Grown, LEVELS};
use reference::item::LONGEST_ITEM;
use reference::proofs::near_power;
use reference::random::Random;
use reference::tree::{self, hashes as nodes_of, leaf_hash, Hash, HashFunction, LARGEST_SIZE, MOST_LEAVES};
use reference::verdict::{self, Consistency, Inclusion};
use reference::yields;
use std::cell::Cell;
use std::cmp::Ordering::{Equal, Greater, Less};
use std::collections::BTreeMap;
use std::fmt::{Debug, Formatter};
use std::panic::{catch_unwind, AssertUnwindSafe};

thread_local! {
    static IS_TRIED: Cell<bool> = const { Cell::new(false) };
}

/// A panic of the code under test is an answer that differs; it is not printed.
pub fn quiet_while_tried() {
    let old = std::panic::take_hook();
    std::panic::set_hook(Box::new(move |info| {
        if !IS_TRIED.get() {
            old(info);
        }
    }));
}

fn tried<T>(call: impl FnOnce() -> T) -> Option<T> {
    IS_TRIED.set(true);
    let answer = catch_unwind(AssertUnwindSafe(call)).ok();
    IS_TRIED.set(false);
    answer
}

/// The column of kinds in which no hash is.
const NEITHER: usize = 2;

pub struct Hold<'a> {
    pub code: &'a dyn Code,
    pub calls: u64,
    /// How often each kind came up: in calls by SHA-256, by SM3, and by neither.
    pub kinds: BTreeMap<String, [u64; 3]>,
    /// Which of the three the call at hand is.
    column: usize,
    /// Calls on which the two sides disagree; the first few are shown.
    pub failed: u64,
    pub shown: Vec<String>,
}

/// Which levels of two proofs differ, from the top.
struct Levels(Vec<bool>);

impl Levels {
    fn of(one: &Known, two: &Known, top: Leaves, bottom: &Leaves) -> Levels {
        let mut levels = Vec::new();
        let mut at = top;
        while at != *bottom {
            let (left, right) = parts(&at);
            levels.push(one.hash(&left) != two.hash(&left) || one.hash(&right) != two.hash(&right));
            at = if bottom.start < left.end { left } else { right };
        }
        Levels(levels)
    }

    fn topmost(&self) -> Option<usize> {
        self.0.iter().position(|differs| *differs)
    }

    fn count(&self) -> usize {
        self.0.iter().filter(|differs| **differs).count()
    }
}

/// How a buffer's length stands to what it must hold.
fn room(length: usize, needed: usize) -> &'static str {
    match length.cmp(&needed) {
        std::cmp::Ordering::Less => "shorter",
        std::cmp::Ordering::Equal => "exact",
        std::cmp::Ordering::Greater => "longer",
    }
}

/// Nobody reads a page of 32 MB.
struct Short<'a>(&'a [u8]);

impl Debug for Short<'_> {
    fn fmt(&self, to: &mut Formatter) -> std::fmt::Result {
        if self.0.len() > 4000 {
            return write!(to, "{} bytes", self.0.len());
        }
        self.0.fmt(to)
    }
}

/// How far up the leaf goes that merges most, of so many more.
fn levels_up(count: u64, more: u64) -> &'static str {
    const HIGHEST: u32 = LEVELS as u32 - 1;
    match (count..count + more).map(u64::trailing_ones).max() {
        None => "no leaf",
        Some(0) => "no level up",
        Some(1) => "one level up",
        Some(HIGHEST) => "all levels up",
        Some(_) => "several levels up",
    }
}

fn known_inclusion(h: HashFunction, place: u64, size: u64, leaf: &[u8], path: &[u8]) -> Known {
    let leaf: Hash = leaf.try_into().unwrap();
    Known::new(h, inclusion_places(place, 0..size), &nodes_of(path).unwrap()).with(place..place + 1, &leaf)
}

impl<'a> Hold<'a> {
    pub fn new(code: &'a dyn Code) -> Hold<'a> {
        Hold { code, calls: 0, kinds: BTreeMap::new(), column: NEITHER, failed: 0, shown: Vec::new() }
    }

    fn kind(&mut self, entry: &str, what: impl AsRef<str>) {
        self.kinds.entry(format!("{entry}: {}", what.as_ref())).or_default()[self.column] += 1;
    }

    /// The hash that a call by this number goes by; its kinds are counted there.
    fn under(&mut self, algorithm: u64) -> Option<HashFunction> {
        self.column = match algorithm {
            SHA256 => 0,
            SM3 => 1,
            _ => NEITHER,
        };
        hashes(algorithm)
    }

    /// 16, where the two hashes would give these numbers.
    fn first_of_all(&mut self, entry: &str, number_by: impl Fn(u64) -> u64) {
        let numbers = KNOWN.map(number_by);
        self.kind(entry, "16");
        let what = if numbers.contains(&0) { "16 where nothing else is wrong".to_string() } else { format!("16 before {}", numbers[0]) };
        self.kind(entry, what);
    }

    /// 16 for a call by one number over what holds another, or over what holds a number that no hash has.
    fn beside_the_held(&mut self, entry: &str, algorithm: u64, held: u64) {
        let what = match (hashes(algorithm), hashes(held)) {
            (Some(_), Some(_)) => "16 for the other hash's number",
            (None, Some(_)) => "16 for a number that no hash has",
            (Some(_), None) => "16 by a hash's number, where one that no hash has is held",
            (None, None) if algorithm == held => "16 by the number that is held, which no hash has",
            (None, None) => "16 by a number that no hash has, where another such is held",
        };
        self.kind(entry, what);
    }

    fn same<T: PartialEq + Debug>(&mut self, entry: &str, expected: T, found: Option<T>, of: impl Debug) {
        self.calls += 1;
        if found.as_ref() == Some(&expected) {
            return;
        }
        self.failed += 1;
        if self.shown.len() < 3 {
            let found = found.map_or("a panic".to_string(), |found| format!("{found:?}"));
            let short = |text: String| if text.len() > 2000 { format!("{} ..", &text[..2000]) } else { text };
            let [of, expected, found] = [format!("{of:?}"), format!("{expected:?}"), found].map(short);
            self.shown.push(format!("{entry} of {of}\n  expected {expected}\n  found    {found}"));
        }
    }

    // Carrying.

    pub fn carry(&mut self, algorithm: u64, one: &Step, out: &[u8], pair: &[u8]) {
        let old = Inclusion { leaf: &one.leaf, place: one.place, size: one.first, root: &one.old, path: &one.path };
        let expected = |algorithm: u64| {
            let (mut out, mut pair) = (out.to_vec(), pair.to_vec());
            let carry = |h| carry::carry(h, &old, one.second, &one.new, &one.proof, &mut out, &mut pair);
            (hashes(algorithm).ok_or(REFUSED).and_then(carry), out, pair)
        };
        let whole = expected(algorithm);
        let (answer, out_after, pair_after) = &whole;
        match (answer, self.under(algorithm)) {
            (Ok(Carried::Path(length)), Some(_)) => {
                assert!(*pair_after == pair && out_after[*length..] == out[*length..]);
                self.carried(one, *length, out.len());
            }
            (Ok(Carried::Collision), Some(h)) => {
                assert!(*out_after == out && pair_after[PAIR..] == pair[PAIR..]);
                is_collision(h, pair_after);
                self.carried_collision(h, one, out.len(), pair.len());
            }
            (Err(number), h) => {
                assert!(*out_after == out && *pair_after == pair, "a refusal changes no byte");
                match h {
                    Some(h) => self.carry_refused(h, one, *number, out.len(), pair.len()),
                    None => self.first_of_all("carrying", |known| expected(known).0.err().unwrap_or(0)),
                }
            }
            (Ok(_), None) => unreachable!("no hash"),
        }
        let code = self.code;
        for by in ways(algorithm) {
            let found = tried(|| {
                let (mut out, mut pair) = (out.to_vec(), pair.to_vec());
                (code.carry(by, one, &mut out, &mut pair), out, pair)
            });
            self.same("carrying", whole.clone(), found, (by, one, out, pair));
        }
    }

    fn carried(&mut self, one: &Step, length: usize, lent: usize) {
        self.kind("carrying", format!("a path, its buffer {}", room(lent, length)));
        let subtree = full_subtree(one.place, one.first);
        let what = match () {
            _ if one.first == one.second => "equal sizes",
            _ if subtree == (0..one.first) => "S is the whole old tree",
            _ if subtree.end == one.first => "S is the last full subtree",
            _ => "S has full subtrees behind it",
        };
        self.kind("carrying", format!("a path, {what}"));
        if length == LONGEST {
            self.kind("carrying", format!("a path of 64 nodes, its buffer {}", room(lent, length)));
        }
        if one.proof.len() == LONGEST + 32 {
            self.kind("carrying", "a path, by a consistency path of 65 nodes");
        }
    }

    fn carry_levels(h: HashFunction, one: &Step) -> (Levels, bool) {
        let by_inclusion = known_inclusion(h, one.place, one.first, &one.leaf, &one.path);
        let nodes = nodes_of(&one.proof).unwrap();
        let by_consistency = Known::new(h, consistency_places(one.first, 0..one.second, true), &nodes);
        let subtree = full_subtree(one.place, one.first);
        let levels = Levels::of(&by_inclusion, &by_consistency, 0..one.first, &subtree);
        let is_in_subtree = by_inclusion.hash(&subtree) != by_consistency.hash(&subtree);
        (levels, is_in_subtree)
    }

    fn carried_collision(&mut self, h: HashFunction, one: &Step, lent: usize, pair: usize) {
        let (levels, is_in_subtree) = Self::carry_levels(h, one);
        let at = levels.topmost().unwrap();
        let last = levels.0.len() - 1;
        if at == 0 && last > 0 {
            self.kind("carrying", "a collision at the top");
        }
        if at > 0 && at < last {
            self.kind("carrying", "a collision below equal pairs, above S");
        }
        if at > 0 && at == last {
            self.kind(
                "carrying",
                if is_in_subtree { "a collision at S, below equal pairs" } else { "a collision beside S, below equal pairs" },
            );
        }
        if levels.count() > 1 {
            self.kind("carrying", "a collision, two levels at once");
        }
        if levels.count() > 1 && levels.0[at..].windows(2).any(|two| !two[0] && two[1]) {
            self.kind("carrying", "a collision, two levels with an equal one between");
        }
        let length = 32 * yields::inclusion_count(one.place, one.second);
        if length == LONGEST {
            self.kind("carrying", "a collision over 64 nodes");
        }
        self.kind("carrying", format!("a collision, path buffer {}", room(lent, length)));
        self.kind("carrying", format!("a collision, pair buffer {}", room(pair, PAIR)));
    }

    fn carry_refused(&mut self, h: HashFunction, one: &Step, number: u64, lent: usize, pair: usize) {
        let old = Inclusion { leaf: &one.leaf, place: one.place, size: one.first, root: &one.old, path: &one.path };
        if verdict::inclusion(h, &old) != 0 {
            return self.kind("carrying", format!("refused with {number} for the inclusion proof"));
        }
        if number != 9 {
            return self.kind("carrying", format!("refused with {number} for the consistency proof"));
        }
        let length = 32 * yields::inclusion_count(one.place, one.second);
        if (lent, length) == (LONGEST - 1, LONGEST) {
            self.kind("carrying", "refused with 9 for a byte that 64 nodes lack");
        }
        let what = match (lent >= length, pair >= PAIR) {
            (false, false) => "both buffers",
            (false, true) => "the path buffer",
            _ => "the pair buffer",
        };
        self.kind("carrying", format!("refused with 9 for {what}"));
        if one.first < one.second && !one.first.is_power_of_two() && Self::carry_levels(h, one).0.topmost().is_some() {
            self.kind("carrying", format!("a collision that is refused with 9 for {what}"));
        }
    }

    // Comparing.

    pub fn compare(&mut self, algorithm: u64, one: &Two, pair: &[u8]) {
        let ([leaf, leaf_two], [path, path_two]) = (&one.leaves, &one.paths);
        let first = Inclusion { leaf, place: one.place, size: one.size, root: &one.root, path };
        let expected = |algorithm: u64| {
            let mut pair = pair.to_vec();
            let compare = |h| carry::compare(h, &first, leaf_two, path_two, &mut pair);
            (hashes(algorithm).ok_or(REFUSED).and_then(compare), pair)
        };
        let whole = expected(algorithm);
        let (answer, after) = &whole;
        match (answer, self.under(algorithm)) {
            (Ok(Compared::Same), Some(_)) => {
                assert_eq!(*after, pair);
                self.kind("comparing", if path.len() == LONGEST { "the same, over 64 nodes" } else { "the same" });
            }
            (Ok(Compared::Collision), Some(h)) => {
                assert_eq!(after[PAIR..], pair[PAIR..]);
                is_collision(h, after);
                self.compared_collision(h, one, pair.len());
            }
            (Err(number), Some(h)) => {
                assert_eq!(*after, pair, "a refusal changes no byte");
                let what = match (verdict::inclusion(h, &first), number) {
                    (0, 9) => "the pair buffer",
                    (0, _) => "the second proof",
                    _ => "the first proof",
                };
                self.kind("comparing", format!("refused with {number} for {what}"));
            }
            (_, None) => {
                assert_eq!(*after, pair, "a refusal changes no byte");
                self.first_of_all("comparing", |known| expected(known).0.err().unwrap_or(0));
            }
        }
        let code = self.code;
        for by in ways(algorithm) {
            let found = tried(|| {
                let mut pair = pair.to_vec();
                (code.compare(by, one, &mut pair), pair)
            });
            self.same("comparing", whole.clone(), found, (by, one, pair));
        }
    }

    fn compared_collision(&mut self, h: HashFunction, one: &Two, pair: usize) {
        let known = [0, 1].map(|which| known_inclusion(h, one.place, one.size, &one.leaves[which], &one.paths[which]));
        let levels = Levels::of(&known[0], &known[1], 0..one.size, &(one.place..one.place + 1));
        let at = levels.topmost().unwrap();
        let last = levels.0.len() - 1;
        if at == 0 && last > 0 {
            self.kind("comparing", "a collision at the top");
        }
        if at > 0 && at < last {
            self.kind("comparing", "a collision below equal pairs");
        }
        if at > 0 && at == last {
            let is_leaf = one.leaves[0] != one.leaves[1];
            self.kind("comparing", if is_leaf { "a collision at the leaf, below equal pairs" } else { "a collision beside the leaf" });
        }
        if levels.count() > 1 {
            self.kind("comparing", "a collision, two levels at once");
        }
        if levels.count() > 1 && levels.0[at..].windows(2).any(|two| !two[0] && two[1]) {
            self.kind("comparing", "a collision, two levels with an equal one between");
        }
        if levels.0.len() == 64 {
            self.kind("comparing", "a collision over 64 nodes");
        }
        self.kind("comparing", format!("a collision, pair buffer {}", room(pair, PAIR)));
    }

    // Disputes.

    pub fn dispute(&mut self, algorithm: u64, one: &Dispute, pair: &[u8]) {
        let expected = |algorithm: u64| {
            let mut pair = pair.to_vec();
            (auditor::dispute(hashes, algorithm, one, &mut pair), pair)
        };
        let (answer, after) = expected(algorithm);
        let h = self.under(algorithm);
        match (answer, h) {
            (Settled::Nodes, Some(h)) => {
                assert_eq!(after[PAIR..], pair[PAIR..]);
                is_collision(h, &after);
                self.kind("dispute", format!("a collision, pair buffer {}", room(pair.len(), PAIR)));
            }
            _ => assert_eq!(after, pair, "only a collision is written"),
        }
        if let (Settled::Pages, Some(h)) = (answer, h) {
            let pages = [&one.first.page, &one.second_page];
            assert!(pages[0] != pages[1] && leaf_hash(h, pages[0]) == leaf_hash(h, pages[1]));
        }
        match h {
            Some(h) => Self::ends(h, one, answer, pair.len()).iter().for_each(|what| self.kind("dispute", what)),
            None => self.first_of_all("dispute", |known| match expected(known).0 {
                Settled::Refused(number) => number,
                _ => 0,
            }),
        }
        let code = self.code;
        let found = tried(|| {
            let mut pair = pair.to_vec();
            (code.dispute(algorithm, one, &mut pair), pair)
        });
        let of = (
            algorithm,
            &one.first.place,
            Short(&one.first.page),
            &one.first.path,
            one.size,
            &one.root,
            &one.heads,
            Short(&one.second_page),
            &one.second_path,
        );
        self.same("dispute", (answer, after), found, (of, pair));
    }

    /// Where a dispute ends, and how: over a head, in the comparison, or before both.
    fn ends(h: HashFunction, one: &Dispute, answer: Settled, pair: usize) -> Vec<String> {
        let refused = |number: u64, by: &str| vec![format!("refused with {number} for {by}")];
        for (page, by) in [(&one.first.page, "the first page"), (&one.second_page, "the second page")] {
            if page.len() > LONGEST_ITEM {
                return refused(1, by);
            }
        }
        let leaf = leaf_hash(h, &one.first.page);
        let place = one.first.place;
        let (mut size, mut root, mut path) = (one.size, one.root.clone(), one.first.path.clone());
        match verdict::inclusion(h, &Inclusion { leaf: &leaf, place, size, root: &root, path: &path }) {
            0 => (),
            number => return refused(number, "the first proof"),
        }
        let (heads, is_cut) = heads_of(&one.heads);
        for (at, (new_size, new_root, step)) in heads.iter().enumerate() {
            let mut lent = [0; LONGEST];
            let old = Inclusion { leaf: &leaf, place, size, root: &root, path: &path };
            match carry::carry(h, &old, *new_size, new_root, step, &mut lent, &mut vec![0; pair]) {
                Err(number) => return refused(number, "a head"),
                Ok(Carried::Collision) => {
                    return vec![match at {
                        _ if heads.len() == 1 => "a collision at the only head".to_string(),
                        0 => "a collision at the first head of several".to_string(),
                        _ if at + 1 == heads.len() => "a collision at the last head of several".to_string(),
                        _ => "a collision at a head between others".to_string(),
                    }]
                }
                Ok(Carried::Path(length)) => path = lent[..length].to_vec(),
            }
            (size, root) = (*new_size, new_root.clone());
        }
        let is_longest = !heads.is_empty() && path.len() == LONGEST;
        if is_cut {
            return refused(2, if heads.is_empty() { "the first head" } else { "a later head" });
        }
        let over = if heads.is_empty() { "no head" } else { "heads" };
        let mut ends = match answer {
            Settled::Same => vec![format!("the same, over {over}")],
            Settled::Nodes => vec![format!("a collision in the comparison, over {over}")],
            Settled::Pages => vec![format!("two pages of one leaf hash, over {over}")],
            Settled::Refused(number) => refused(number, "the comparison"),
        };
        if is_longest {
            ends.push("a carried path of 64 nodes".to_string());
        }
        ends
    }

    // The tree.

    /// The numbers that a smaller limit would exchange are kinds of their own at the largest size.
    fn verdict(&mut self, entry: &str, number: u64, size: u64) {
        self.kind(entry, number.to_string());
        if size == LARGEST_SIZE && (number == 0 || number == 6) {
            self.kind(entry, format!("{number} at the largest size"));
        }
    }

    pub fn inclusion(&mut self, algorithm: u64, leaf: &[u8], place: u64, size: u64, root: &[u8], path: &[u8]) {
        let expected =
            |algorithm: u64| hashes(algorithm).map_or(REFUSED, |h| verdict::inclusion(h, &Inclusion { leaf, place, size, root, path }));
        let (h, number, code) = (self.under(algorithm), expected(algorithm), self.code);
        match h {
            Some(_) => self.verdict("inclusion verdict", number, size),
            None => self.first_of_all("inclusion verdict", expected),
        }
        for by in ways(algorithm) {
            let found = tried(|| code.inclusion_verdict(by, leaf, place, size, root, path));
            self.same("inclusion verdict", number, found, (by, leaf, place, size, root, path));
        }
        if let (Some(h), Ok(leaf), Some(nodes)) = (h, <&Hash>::try_from(leaf), nodes_of(path)) {
            if number == 0 || number == 8 {
                let expected = yields::inclusion(h, leaf, place, size, &nodes).unwrap();
                let found = tried(|| code.yielded_root(algorithm, leaf, place, size, path));
                self.same("yielded root", expected, found, (algorithm, leaf, place, size, path));
            }
        }
        self.counts(place, size);
    }

    pub fn consistency(&mut self, algorithm: u64, first: u64, second: u64, old: &[u8], new: &[u8], path: &[u8]) {
        let proof = Consistency { first, second, first_root: old, second_root: new, path };
        let expected = |algorithm: u64| hashes(algorithm).map_or(REFUSED, |h| verdict::consistency(h, &proof));
        let (h, number, code) = (self.under(algorithm), expected(algorithm), self.code);
        match h {
            Some(_) => self.verdict("consistency verdict", number, second),
            None => self.first_of_all("consistency verdict", expected),
        }
        for by in ways(algorithm) {
            let found = tried(|| code.consistency_verdict(by, first, second, old, new, path));
            self.same("consistency verdict", number, found, (by, first, second, old, new, path));
        }
        if let (Some(h), Ok(old), Some(nodes)) = (h, <&Hash>::try_from(old), nodes_of(path)) {
            if (number == 0 || number == 8) && first < second {
                let expected = yields::consistency(h, first, second, old, &nodes).unwrap();
                let found = tried(|| code.yielded_roots(algorithm, old, first, second, true, path));
                self.same("yielded roots", expected, found, (algorithm, old, first, second, path));
            }
        }
        self.counts(first, second);
    }

    /// The counts of any two numbers, in the papers' range and out of it.
    fn counts(&mut self, m: u64, n: u64) {
        let code = self.code;
        self.same("inclusion count", yields::inclusion_count(m, n), tried(|| code.inclusion_count(m, n)), (m, n));
        for known in [true, false] {
            let expected = yields::subproof_count(m, n, known);
            self.same("subproof count", expected, tried(|| code.subproof_count(m, n, known)), (m, n, known));
        }
    }

    /// What is written into a buffer, or a refusal; the code's in each of its ways. `behind`: what one hash would be refused with behind 16.
    #[allow(clippy::too_many_arguments)]
    fn built<By: Copy + Debug>(
        &mut self,
        entry: &str,
        out: &[u8],
        of: impl Debug,
        expected: impl Fn(&mut [u8]) -> Wrote,
        behind: impl Fn(u64) -> u64,
        ways: &[By],
        found: impl Fn(By, &mut [u8]) -> Wrote,
    ) {
        let mut after = out.to_vec();
        let answer = expected(&mut after);
        match answer {
            Ok(length) => {
                assert_eq!(after[length..], out[length..]);
                self.kind(entry, format!("written, buffer {}", room(out.len(), length)));
            }
            Err(number) => {
                assert_eq!(after, out, "a refusal changes no byte");
                match number {
                    REFUSED => self.first_of_all(entry, behind),
                    _ => self.kind(entry, format!("refused with {number}")),
                }
            }
        }
        for by in ways {
            let found = tried(|| {
                let mut out = out.to_vec();
                (found(*by, &mut out), out)
            });
            self.same(entry, (answer, after.clone()), found, (by, &of, out));
        }
    }

    /// By the length alone.
    pub fn bad_leaves(&mut self, leaves: &[u8]) {
        let (count, rest) = (leaves.len() as u64 / 32, leaves.len() % 32);
        let what = match () {
            _ if rest != 0 => "true of a hash that is not whole",
            _ if count > MOST_LEAVES => "true of more than 2^32 hashes",
            _ if count == MOST_LEAVES => "false of 2^32 hashes",
            _ => "false of fewer hashes",
        };
        self.column = NEITHER;
        self.kind("bad leaves", what);
        let code = self.code;
        self.same("bad leaves", rest != 0 || count > MOST_LEAVES, tried(|| code.bad_leaves(leaves)), leaves.len());
    }

    /// All builders over one list.
    pub fn builders(&mut self, algorithm: u64, leaves: &[u8], place: u64, first: u64, out: &[u8]) {
        let code = self.code;
        self.bad_leaves(leaves);
        self.under(algorithm);
        // Each builder by a number: the reference's, and what it gives behind 16.
        let by = |algorithm: u64, build: &dyn Fn(HashFunction, &mut [u8]) -> Wrote, out: &mut [u8]| {
            hashes(algorithm).ok_or(REFUSED).and_then(|h| build(h, out))
        };
        let behind = |known: u64, build: &dyn Fn(HashFunction, &mut [u8]) -> Wrote| by(known, build, &mut out.to_vec()).err().unwrap_or(0);
        let ways = &ways(algorithm)[..];
        let root: &dyn Fn(HashFunction, &mut [u8]) -> Wrote = &|h, out| tree::build_root(h, leaves, out);
        let (expected, after_16) = (|out: &mut [u8]| by(algorithm, root, out), |known| behind(known, root));
        self.built("root", out, leaves, expected, after_16, ways, |by, out| code.root(by, leaves, out));
        let path: &dyn Fn(HashFunction, &mut [u8]) -> Wrote = &|h, out| tree::build_path(h, leaves, place, out);
        let (expected, after_16) = (|out: &mut [u8]| by(algorithm, path, out), |known| behind(known, path));
        self.built("inclusion path", out, leaves, expected, after_16, ways, |by, out| code.inclusion_path(by, leaves, place, out));
        let path: &dyn Fn(HashFunction, &mut [u8]) -> Wrote = &|h, out| tree::build_consistency_path(h, leaves, first, out);
        let (expected, after_16) = (|out: &mut [u8]| by(algorithm, path, out), |known| behind(known, path));
        self.built("consistency path", out, leaves, expected, after_16, ways, |by, out| code.consistency_path(by, leaves, first, out));
        if let Some(h) = hashes(algorithm) {
            let expected = nodes_of(leaves).map_or((10, [0; 32]), |list| (0, tree::root(h, &list)));
            self.same("root by value", expected, tried(|| code.root_of(algorithm, leaves)), (algorithm, leaves));
        }
    }

    /// Byte strings and numbers.
    pub fn octets(&mut self, bytes: &[u8], out: &[u8], random: &mut Random) {
        self.column = NEITHER;
        let code = self.code;
        let mut other = bytes.to_vec();
        match (random.below(4), random.below(bytes.len() as u64 + 1) as usize) {
            (0, _) => (),
            (1, length) => other.truncate(length),
            (2, _) => other.push(random.draw() as u8),
            (_, at) => other.iter_mut().skip(at).take(1).for_each(|byte| *byte ^= 1 << random.below(8)),
        }
        for (one, two) in [(bytes, &other[..]), (&other[..], bytes)] {
            let length = if one.len() == two.len() { "one length" } else { "two lengths" };
            self.kind("same", format!("{} of {length}", one == two));
            self.same("same", one == two, tried(|| code.same(one, two)), (one, two));
        }
        let [start, length, to] = [bytes.len(), 40, out.len()].map(|most| random.below(most as u64 + 2) as usize);
        let from = bytes.get(start..start + length);
        self.kind("copy", if from.is_some() { "bytes that are there" } else { "bytes that are not there" });
        self.written("copy", out, from.map(|from| (to, from)), |out| code.copy(bytes, start, length, out, to), (bytes, start, length, to));
        let some = &other[..length.min(other.len())];
        self.written("put", out, Some((to, some)), |out| code.put(out, to, some), (some, to));

        let (width, at) = (random.between(1, 8) as usize, random.below(bytes.len() as u64 + 2) as usize);
        let there = bytes.get(at..).unwrap_or(&[]);
        let digits = &there[..width.min(there.len())];
        self.kind("number at", format!("{}{}", if digits.len() < width { "fewer bytes than " } else { "" }, width));
        let number = digits.iter().fold(0, |number, digit| number << 8 | u64::from(*digit));
        self.same("number at", number, tried(|| code.number_at(bytes, at, width)), (bytes, at, width));
        let n = random.draw() >> random.below(64);
        self.same("be8", n.to_be_bytes(), tried(|| code.be8(n)), n);
        self.same("width_of", width, tried(|| code.width_of(width)), width);
        let digits = &n.to_be_bytes()[8 - width..];
        self.written("put number", out, Some((to, digits)), |out| code.put_number(out, to, width, n), (to, width, n));
    }

    /// Bytes written over a buffer from a place on, or nothing where they do not fit.
    fn written(&mut self, entry: &str, out: &[u8], bytes: Option<(usize, &[u8])>, write: impl FnOnce(&mut [u8]), of: impl Debug) {
        let mut after = out.to_vec();
        if let Some((at, bytes)) = bytes {
            self.kind(entry, format!("a buffer that is {}", room(out.len(), at + bytes.len())));
            if let Some(part) = after.get_mut(at..at + bytes.len()) {
                part.copy_from_slice(bytes);
            }
        }
        let found = tried(|| {
            let mut out = out.to_vec();
            write(&mut out);
            out
        });
        self.same(entry, after, found, (out, of));
    }

    /// What the crates above build on.
    pub fn tools(&mut self, joined: &[u8], random: &mut Random) {
        let code = self.code;
        let at = random.below(joined.len() as u64 / 32 + 2) as usize;
        let node = joined.get(32 * at..32 * at + 32).map_or([0; 32], |bytes| bytes.try_into().unwrap());
        self.same("node at", node, tried(|| code.node_at(joined, at)), (joined, at));
        let other = if random.one_in(2) { joined.get(..32).unwrap_or(joined) } else { joined };
        self.same("equals", node[..] == *other, tried(|| code.equals(&node, other)), (node, other));
        let n = if random.one_in(2) { near_power(random) } else { random.draw() >> random.below(64) }.max(2);
        self.same("split_of", tree::split(n), tried(|| code.split_of(n)), n);
        for other in [random.draw() >> random.below(64), n - 1, n, 0] {
            self.counts(other, n);
            self.counts(n, other);
        }
    }

    // The growing tree.

    /// Made by any number: 16, and a tree that holds the number all the same, where no hash has it.
    pub fn new_tree(&mut self, algorithm: u64) {
        self.under(algorithm);
        let expected = Growing::make(hashes, algorithm);
        self.kind("new tree", expected.0.to_string());
        let code = self.code;
        self.same("new tree", expected, tried(|| code.new_tree(algorithm)), algorithm);
    }

    pub fn add_page(&mut self, algorithm: u64, tree: &Growing, page: &[u8]) -> Growing {
        let code = self.code;
        let expected = tree.page(hashes, algorithm, page);
        let found = tried(|| code.add_page(algorithm, tree, page));
        let behind = growing::page_refusal(page.len() as u64, tree.count);
        self.added("growing page", algorithm, tree, page, 1, behind, expected, found)
    }

    pub fn add_leaves(&mut self, algorithm: u64, tree: &Growing, joined: &[u8]) -> Growing {
        let code = self.code;
        let expected = tree.leaves(hashes, algorithm, joined);
        let found = tried(|| code.add_leaves(algorithm, tree, joined));
        let behind = growing::leaves_refusal(joined.len() as u64, tree.count);
        self.added("growing leaves", algorithm, tree, joined, joined.len() as u64 / 32, behind, expected, found)
    }

    /// A call that would add so many leaves: the tree after it. `behind`: what it would be refused with behind 16.
    #[allow(clippy::too_many_arguments)]
    fn added(
        &mut self,
        entry: &str,
        algorithm: u64,
        tree: &Growing,
        given: &[u8],
        more: u64,
        behind: u64,
        (number, after): (u64, Growing),
        found: Option<(u64, Growing)>,
    ) -> Growing {
        assert!(number == 0 || after == *tree, "a refusal changes no tree");
        self.under(algorithm);
        let left = LARGEST_SIZE - tree.count;
        let before = if more > left { " before 6" } else { "" };
        match number {
            REFUSED => {
                self.first_of_all(entry, |_| behind);
                self.beside_the_held(entry, algorithm, tree.algorithm);
            }
            0 if more == 0 && left == 0 => self.kind(entry, "no leaf taken by a full tree"),
            0 if more > 0 && more == left => self.kind(entry, "taken, the last leaf"),
            0 => self.kind(entry, format!("taken, {}", levels_up(tree.count, more))),
            6 if more - left == 1 => self.kind(entry, "refused with 6 for one leaf too many"),
            6 => self.kind(entry, "refused with 6 for several leaves too many"),
            10 if more > MOST_LEAVES && given.len() % 32 == 0 => {
                self.kind(entry, format!("refused with 10 for more than 2^32 hashes{before}"));
            }
            _ => self.kind(entry, format!("refused with {number}{before}")),
        }
        // The counts first: what is shown is cut.
        let shown = |(number, tree): (u64, Growing)| (number, tree.algorithm, tree.count, tree.hashes);
        let of = (algorithm, tree.algorithm, tree.count, Short(given), tree.hashes);
        self.same(entry, shown((number, after.clone())), found.map(shown), of);
        after
    }

    /// The root, by value and into a buffer.
    pub fn growing_root(&mut self, algorithm: u64, tree: &Growing, out: &[u8]) {
        let code = self.code;
        self.under(algorithm);
        let expected = tree.root(hashes, algorithm);
        match (expected, (0..LEVELS).filter(|level| tree.count >> level & 1 == 1).count()) {
            (Err(_), _) => self.beside_the_held("growing root", algorithm, tree.algorithm),
            (_, 0) => self.kind("growing root", "of no leaf"),
            (_, 1) => self.kind("growing root", "of one hash"),
            (_, 2) => self.kind("growing root", "of two hashes"),
            (_, LEVELS) => self.kind("growing root", "of all hashes"),
            _ => self.kind("growing root", "of more hashes"),
        }
        let expected = expected.map_or_else(|number| (number, [0; 32]), |root| (0, root));
        self.same("growing root", expected, tried(|| code.growing_root(algorithm, tree)), (algorithm, tree));
        let into = |out: &mut [u8]| tree.root_into(hashes, algorithm, out);
        let behind = |_| if out.len() < 32 { 9 } else { 0 };
        self.built("growing root", out, tree, into, behind, &[algorithm], |by, out| code.growing_root_into(by, tree, out));
    }

    /// A list of calls from a new tree, each given the tree that the code itself returned, and the root after each: the tree at the end.
    pub fn grow(&mut self, algorithm: u64, calls: &[(u64, Call)]) -> Growing {
        let code = self.code;
        let found = tried(|| {
            let (number, mut tree) = code.new_tree(algorithm);
            let mut told = Vec::new();
            for (by, call) in calls {
                let (number, after) = match call {
                    Call::Page(page) => code.add_page(*by, &tree, page),
                    Call::Leaves(joined) => code.add_leaves(*by, &tree, joined),
                };
                told.push((number, code.growing_root(algorithm, &after).1));
                tree = after;
            }
            Grown { number, told, tree }
        });
        self.under(algorithm);
        let expected = growing::grow(hashes, algorithm, calls);
        let tree = expected.tree.clone();
        let last_taken = expected.told.iter().rposition(|(number, _)| *number == 0).unwrap_or(0);
        for number in [1, 10, REFUSED] {
            if expected.told[..last_taken].iter().any(|told| told.0 == number) {
                self.kind("growing list", format!("a call taken behind one refused with {number}"));
            }
        }
        if expected.number == REFUSED {
            self.kind("growing list", "by a number that no hash has");
        } else if expected.told.iter().all(|told| told.0 == 0) {
            self.kind("growing list", if tree.count > 0 { "all calls taken" } else { "of no leaves" });
        }
        let of = calls.iter().map(|(by, call)| match call {
            Call::Page(page) => (by, "page", Short(page)),
            Call::Leaves(joined) => (by, "leaves", Short(joined)),
        });
        self.same("growing list", expected, found, (algorithm, of.collect::<Vec<_>>()));
        tree
    }

    // The auditor.

    pub fn empty(&mut self) {
        let code = self.code;
        self.same("empty record", Stored::EMPTY, tried(|| code.empty()), ());
    }

    pub fn offer(&mut self, algorithm: u64, record: &Stored, one: &Offer) -> (u64, Stored) {
        let (number, after) = record.offer(hashes, algorithm, one);
        // Over another second place it answers alike; where the two are one after it, it was written.
        let second = Second { number: !record.second.number, ..record.second.clone() };
        let beside = Stored { second: second.clone(), ..record.clone() };
        let expected = beside.offer(hashes, algorithm, one);
        let is_kept = expected.1.second == after.second;
        assert_eq!(expected, (number, Stored { second: if is_kept { after.second.clone() } else { second }, ..after.clone() }));
        assert!(
            number == 0 || after == Stored { second: after.second.clone(), ..record.clone() },
            "a refusal changes the second place alone"
        );
        assert!(is_kept || after.second == record.second);
        let code = self.code;
        let found = tried(|| code.offer(algorithm, record, one));
        self.under(algorithm);
        self.same("offer", expected, tried(|| code.offer(algorithm, &beside, one)), (algorithm, &beside, one));
        if is_kept {
            let over = if record.second.number == 0 { "nothing" } else { "another" };
            self.kind("offer", format!("kept, {}, over {over}", beside_held(record, one, number).unwrap_or("8")));
        } else {
            self.leaves_what_is_kept("offer", record, number);
        }
        if record.held && number == 0 && (one.timestamp, one.size, &one.root[..]) == kept(record) {
            self.kind("offer", "0 for the head that is kept");
        }
        let held = if record.held { "a head" } else { "no head" };
        self.kind("offer", format!("{number} where {held} is held"));
        if one.size == LARGEST_SIZE && number == 0 {
            self.kind("offer", format!("0 at the largest size, where {held} is held"));
        }
        if number == REFUSED {
            self.first_of_all("offer", |known| Stored { algorithm: known, ..record.clone() }.offer(hashes, known, one).0);
        }
        self.beside_record("offer", algorithm, record, number);
        if let Some(what) = beside_held(record, one, number) {
            self.kind("offer", what);
        }
        self.same("offer", (number, after.clone()), found, (algorithm, record, one));
        (number, after)
    }

    pub fn ask(&mut self, algorithm: u64, record: &Stored, one: &PageCall) -> u64 {
        let number = record.page(hashes, algorithm, one);
        let code = self.code;
        let found = tried(|| code.ask(algorithm, record, one));
        self.under(algorithm);
        match number {
            REFUSED => self.first_of_all("page", |known| Stored { algorithm: known, ..record.clone() }.page(hashes, known, one)),
            _ => self.verdict("page", number, record.size),
        }
        self.beside_record("page", algorithm, record, number);
        self.leaves_what_is_kept("page", record, number);
        self.same("page", (number, record.clone()), found, (algorithm, record, one.place, one.page.len(), &one.path));
        number
    }

    /// What a list of calls leaves in the second place.
    pub fn list_left(&mut self, record: &Stored) {
        self.under(record.algorithm);
        let what = match record.second.number {
            0 => "nothing".to_string(),
            number => format!("a head refused with {number}"),
        };
        self.kind("list", format!("{what} is kept at its end"));
    }

    /// A call that leaves the second place as it was, where that is filled.
    fn leaves_what_is_kept(&mut self, entry: &str, record: &Stored, number: u64) {
        if record.second.number > 0 {
            let held = if record.held { "" } else { ", where no head is held" };
            self.kind(entry, format!("{number} leaves what is kept{held}"));
        }
    }

    /// How the number of a call stands to the record's.
    fn beside_record(&mut self, entry: &str, algorithm: u64, record: &Stored, number: u64) {
        if record.held && number == REFUSED {
            self.beside_the_held(entry, algorithm, record.algorithm);
        }
        // Where no head is held, the record's number is not looked at.
        if !record.held && number != REFUSED && record.algorithm != algorithm {
            self.kind(entry, format!("{number} beside another number, where no head is held"));
        }
    }
}

#[cfg(journal)]
impl Hold<'_> {
    /// A head joined on behind what is used: 5 for its root's length or a path over 65,535 nodes, 10,
    /// then 9. The answer, and the journal after it.
    pub fn append(&mut self, journal: &[u8], used: usize, size: u64, root: &[u8], path: &[u8]) -> (Wrote, Vec<u8>) {
        self.column = NEITHER;
        let mut after = journal.to_vec();
        let answer = appended(&mut after, used, size, root, path);
        let code = self.code;
        let found = tried(|| {
            let mut journal = journal.to_vec();
            (code.append(&mut journal, used, size, root, path), journal)
        });
        let what = match answer {
            Ok(end) => format!("joined on, buffer {}", room(journal.len(), end)),
            Err(number) => format!("refused with {number}"),
        };
        self.kind("journal", what);
        self.same("journal", (answer, after.clone()), found, (journal.len(), used, size, root, path.len()));
        (answer, after)
    }
}

#[cfg(journal)]
fn appended(journal: &mut [u8], used: usize, size: u64, root: &[u8], path: &[u8]) -> Wrote {
    if root.len() != 32 || path.len() > 32 * 65_535 {
        return Err(5);
    }
    if path.len() % 32 != 0 {
        return Err(10);
    }
    let mut head = Vec::new();
    auditor::join_head(size, root, path, &mut head);
    let rest = journal.get_mut(used..).ok_or(9u64)?;
    rest.get_mut(..head.len()).ok_or(9u64)?.copy_from_slice(&head);
    Ok(used + head.len())
}

/// What an offer is beside the head that is held, where its timestamp or its root matters.
fn beside_held(record: &Stored, one: &Offer, number: u64) -> Option<&'static str> {
    if !record.held {
        return None;
    }
    let later = || Offer { timestamp: one.timestamp.saturating_add(1), ..one.clone() };
    match (number, one.timestamp.cmp(&record.timestamp)) {
        (12, Less) if one.size > record.size => Some("12 at an earlier timestamp, a larger size"),
        (12, Less) if one.root == record.root => Some("12 at an earlier timestamp, the held size and root"),
        (12, Less) => Some("12 at an earlier timestamp, another root"),
        (12, Equal) if one.size == record.size => Some("12 at an equal timestamp, another root"),
        (12, Equal) if record.offer(hashes, record.algorithm, &later()).0 == 0 => {
            Some("12 at an equal timestamp, a larger size, the path right")
        }
        (12, Equal) => Some("12 at an equal timestamp, a larger size"),
        (0, Equal) => Some("0 for the held head again"),
        (7, Equal) => Some("7 for the held head again"),
        (6, Equal) => Some("6 at an equal timestamp"),
        (13, Greater) => Some("13 at a later timestamp"),
        _ => None,
    }
}

/// Timestamp, size and root in the second place, where it is filled.
fn kept(record: &Stored) -> (u64, u64, &[u8]) {
    let second = &record.second;
    (second.timestamp, second.size, if second.number > 0 { &second.root } else { &[] })
}

/// The strings differ and have one value, by the hash of the call.
fn is_collision(h: HashFunction, pair: &[u8]) {
    let (one, two) = pair[..PAIR].split_at(PAIR / 2);
    assert!(one[0] == 1 && two[0] == 1 && one != two && h(one) == h(two));
}

type Head = (u64, Vec<u8>, Vec<u8>);

/// The whole heads of a buffer, and whether one is cut short behind them.
fn heads_of(mut joined: &[u8]) -> (Vec<Head>, bool) {
    let mut heads = Vec::new();
    while joined.len() >= 42 {
        let end = 42 + 32 * (256 * joined[40] as usize + joined[41] as usize);
        if joined.len() < end {
            return (heads, true);
        }
        heads.push((u64::from_be_bytes(joined[..8].try_into().unwrap()), joined[8..40].to_vec(), joined[42..end].to_vec()));
        joined = &joined[end..];
    }
    (heads, !joined.is_empty())
}
