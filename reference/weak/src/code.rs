//! The entries that are compared, in the reference's types.

use crate::given::hashes;
use reference::auditor::{Dispute, Offer, PageCall, Settled, Stored};
use reference::carry::{Carried, Compared};
use reference::growing::Growing;
use reference::tree::Hash;

/// Each public function of the translated crates; one more is a failure of the run until it is compared too.
pub const COMPARED: &[&str] = &[
    "octets::same",
    "octets::put",
    "octets::copy",
    "octets::number_at",
    "octets::put_number",
    "octets::be8",
    "octets::width_of",
    "tree::by_number::root",
    "tree::by_number::inclusion_path",
    "tree::by_number::consistency_path",
    "tree::by_number::inclusion_verdict",
    "tree::by_number::consistency_verdict",
    "tree::build::bad_leaves",
    "tree::build::root_of",
    "tree::build::root",
    "tree::build::inclusion_path",
    "tree::build::consistency_path",
    "tree::verdict::inclusion_verdict",
    "tree::verdict::consistency_verdict",
    "tree::count::inclusion_count",
    "tree::count::subproof_count",
    "tree::nodes::node_at",
    "tree::nodes::equals",
    "tree::split::split_of",
    "tree::yields::yielded_root",
    "tree::yields::yielded_roots",
    "growing::new",
    "growing::add::add_page",
    "growing::add::add_leaves",
    "growing::root",
    "growing::root_into",
    "carry::by_number::carry",
    "carry::by_number::compare",
    "carry::forward::carry",
    "carry::compare::compare",
    "auditor::empty",
    "auditor::head::offer",
    "auditor::page::ask",
    "auditor::dispute::dispute",
    #[cfg(journal)]
    "auditor::journal::append",
];

/// How a function is called: by the number of a hash, any number; or by the hash that has it.
#[derive(Clone, Copy, Debug)]
pub enum By {
    Number(u64),
    Hash(u64),
}

/// Each way that there is for a number.
pub fn ways(algorithm: u64) -> Vec<By> {
    match hashes(algorithm) {
        Some(_) => vec![By::Number(algorithm), By::Hash(algorithm)],
        None => vec![By::Number(algorithm)],
    }
}

/// An inclusion proof at the old size and a consistency proof from it.
#[derive(Clone, Debug)]
pub struct Step {
    pub leaf: Vec<u8>,
    pub place: u64,
    pub first: u64,
    pub second: u64,
    pub old: Vec<u8>,
    pub new: Vec<u8>,
    pub path: Vec<u8>,
    pub proof: Vec<u8>,
}

/// Two inclusion proofs for one place, size and root.
#[derive(Clone, Debug)]
pub struct Two {
    pub place: u64,
    pub size: u64,
    pub root: Vec<u8>,
    pub leaves: [Vec<u8>; 2],
    pub paths: [Vec<u8>; 2],
}

pub type Wrote = Result<usize, u64>;

pub trait Code: Sync {
    fn same(&self, one: &[u8], two: &[u8]) -> bool;
    fn put(&self, to: &mut [u8], at: usize, bytes: &[u8]);
    fn copy(&self, from: &[u8], start: usize, length: usize, to: &mut [u8], at: usize);
    /// A width is 1 to 8.
    fn number_at(&self, bytes: &[u8], at: usize, width: usize) -> u64;
    fn put_number(&self, to: &mut [u8], at: usize, width: usize, n: u64);
    fn be8(&self, n: u64) -> [u8; 8];
    fn width_of(&self, width: usize) -> usize;
    fn split_of(&self, n: u64) -> u64;
    fn inclusion_count(&self, place: u64, size: u64) -> usize;
    fn subproof_count(&self, first: u64, second: u64, known: bool) -> usize;
    fn node_at(&self, joined: &[u8], at: usize) -> Hash;
    fn equals(&self, hash: &Hash, bytes: &[u8]) -> bool;
    /// By a hash alone, which is that of this number; so is each `algorithm` down to the root by value.
    fn yielded_root(&self, algorithm: u64, leaf: &Hash, place: u64, size: u64, path: &[u8]) -> Hash;
    fn yielded_roots(&self, algorithm: u64, known_root: &Hash, first: u64, second: u64, known: bool, path: &[u8]) -> (Hash, Hash);
    fn root_of(&self, algorithm: u64, leaves: &[u8]) -> (u64, Hash);
    fn bad_leaves(&self, leaves: &[u8]) -> bool;
    fn root(&self, by: By, leaves: &[u8], out: &mut [u8]) -> Wrote;
    fn inclusion_path(&self, by: By, leaves: &[u8], place: u64, out: &mut [u8]) -> Wrote;
    fn consistency_path(&self, by: By, leaves: &[u8], first: u64, out: &mut [u8]) -> Wrote;
    fn inclusion_verdict(&self, by: By, leaf: &[u8], place: u64, size: u64, root: &[u8], path: &[u8]) -> u64;
    fn consistency_verdict(&self, by: By, first: u64, second: u64, old: &[u8], new: &[u8], path: &[u8]) -> u64;
    fn new_tree(&self, algorithm: u64) -> (u64, Growing);
    fn add_page(&self, algorithm: u64, tree: &Growing, page: &[u8]) -> (u64, Growing);
    fn add_leaves(&self, algorithm: u64, tree: &Growing, leaves: &[u8]) -> (u64, Growing);
    fn growing_root(&self, algorithm: u64, tree: &Growing) -> (u64, Hash);
    fn growing_root_into(&self, algorithm: u64, tree: &Growing, out: &mut [u8]) -> Wrote;
    fn carry(&self, by: By, one: &Step, out: &mut [u8], pair: &mut [u8]) -> Result<Carried, u64>;
    fn compare(&self, by: By, one: &Two, pair: &mut [u8]) -> Result<Compared, u64>;
    fn empty(&self) -> Stored;
    fn offer(&self, algorithm: u64, record: &Stored, one: &Offer) -> (u64, Stored);
    fn ask(&self, algorithm: u64, record: &Stored, one: &PageCall) -> (u64, Stored);
    fn dispute(&self, algorithm: u64, one: &Dispute, pair: &mut [u8]) -> Settled;
    #[cfg(journal)]
    fn append(&self, journal: &mut [u8], used: usize, size: u64, root: &[u8], path: &[u8]) -> Wrote;
}
