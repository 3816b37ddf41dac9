// Included in each variant: its entries, in the reference's types. Names of crates are the variant's own.

use crate::code::By;

pub struct Entries;

fn digest(bytes: &[u8; 32]) -> hash::Digest {
    hash::Digest { bytes: *bytes }
}

/// The hash of a number that has one.
fn hash_of(number: u64) -> hash::Algorithm {
    match number {
        0x00 => hash::Algorithm::Sha256,
        0xf0 => hash::Algorithm::Sm3,
        _ => panic!("no hash has the number {number}"),
    }
}

fn width(count: usize) -> octets::Width {
    use octets::Width::*;
    [One, Two, Three, Four, Five, Six, Seven, Eight][count - 1]
}

fn wrote(built: tree::build::Built) -> crate::code::Wrote {
    match built {
        tree::build::Built::Wrote(length) => Ok(length),
        tree::build::Built::Refused(number) => Err(number.into()),
    }
}

fn hashed(of: hash::Hashed) -> (u64, [u8; 32]) {
    (of.number.into(), of.digest.bytes)
}

fn growing_tree(of: &reference::growing::Growing) -> growing::Growing {
    growing::Growing { algorithm: of.algorithm, hashes: of.hashes.map(|bytes| hash::Digest { bytes }), count: of.count }
}

fn tree_of(of: growing::Growing) -> reference::growing::Growing {
    reference::growing::Growing { algorithm: of.algorithm, hashes: of.hashes.map(|hash| hash.bytes), count: of.count }
}

fn grown(of: growing::Grown) -> (u64, reference::growing::Growing) {
    (of.number.into(), tree_of(of.after))
}

fn evidence(of: &reference::auditor::Second) -> auditor::Evidence {
    auditor::Evidence {
        number: of.number,
        id: of.id,
        idlen: of.id_length as usize,
        timestamp: of.timestamp,
        size: of.size,
        root: of.root,
    }
}

fn second(of: auditor::Evidence) -> reference::auditor::Second {
    reference::auditor::Second {
        number: of.number,
        id: of.id,
        id_length: of.idlen as u64,
        timestamp: of.timestamp,
        size: of.size,
        root: of.root,
    }
}

fn record(of: &reference::auditor::Stored) -> auditor::Record {
    auditor::Record {
        held: of.held,
        algorithm: of.algorithm,
        id: of.id,
        idlen: of.id_length as usize,
        timestamp: of.timestamp,
        size: of.size,
        root: of.root,
        evidence: evidence(&of.second),
    }
}

fn stored(of: auditor::Record) -> reference::auditor::Stored {
    reference::auditor::Stored {
        held: of.held,
        algorithm: of.algorithm,
        id: of.id,
        id_length: of.idlen as u64,
        timestamp: of.timestamp,
        size: of.size,
        root: of.root,
        second: second(of.evidence),
    }
}

fn answered(of: auditor::Answered) -> (u64, reference::auditor::Stored) {
    (of.number.into(), stored(of.after))
}

impl crate::code::Code for Entries {
    fn same(&self, one: &[u8], two: &[u8]) -> bool {
        octets::same(one, two)
    }

    fn put(&self, to: &mut [u8], at: usize, bytes: &[u8]) {
        octets::put(to, at, bytes)
    }

    fn copy(&self, from: &[u8], start: usize, length: usize, to: &mut [u8], at: usize) {
        octets::copy(from, start, length, to, at)
    }

    fn number_at(&self, bytes: &[u8], at: usize, of: usize) -> u64 {
        octets::number_at(bytes, at, width(of))
    }

    fn put_number(&self, to: &mut [u8], at: usize, of: usize, n: u64) {
        octets::put_number(to, at, width(of), n)
    }

    fn be8(&self, n: u64) -> [u8; 8] {
        octets::be8(n)
    }

    fn width_of(&self, of: usize) -> usize {
        octets::width_of(width(of))
    }

    fn split_of(&self, n: u64) -> u64 {
        tree::split::split_of(n)
    }

    fn inclusion_count(&self, place: u64, size: u64) -> usize {
        tree::count::inclusion_count(place, size)
    }

    fn subproof_count(&self, first: u64, second: u64, known: bool) -> usize {
        tree::count::subproof_count(first, second, known)
    }

    fn node_at(&self, joined: &[u8], at: usize) -> [u8; 32] {
        tree::nodes::node_at(joined, at).bytes
    }

    fn equals(&self, hash: &[u8; 32], bytes: &[u8]) -> bool {
        tree::nodes::equals(digest(hash), bytes)
    }

    fn yielded_root(&self, algorithm: u64, leaf: &[u8; 32], place: u64, size: u64, path: &[u8]) -> [u8; 32] {
        tree::yields::yielded_root(hash_of(algorithm), digest(leaf), place, size, path).bytes
    }

    fn yielded_roots(
        &self,
        algorithm: u64,
        known_root: &[u8; 32],
        first: u64,
        second: u64,
        known: bool,
        path: &[u8],
    ) -> ([u8; 32], [u8; 32]) {
        let roots = tree::yields::yielded_roots(hash_of(algorithm), digest(known_root), first, second, known, path);
        (roots.old.bytes, roots.new.bytes)
    }

    fn root_of(&self, algorithm: u64, leaves: &[u8]) -> (u64, [u8; 32]) {
        hashed(tree::build::root_of(hash_of(algorithm), leaves))
    }

    fn bad_leaves(&self, leaves: &[u8]) -> bool {
        tree::build::bad_leaves(leaves)
    }

    fn root(&self, by: By, leaves: &[u8], out: &mut [u8]) -> crate::code::Wrote {
        wrote(match by {
            By::Number(number) => tree::by_number::root(number, leaves, out),
            By::Hash(number) => tree::build::root(hash_of(number), leaves, out),
        })
    }

    fn inclusion_path(&self, by: By, leaves: &[u8], place: u64, out: &mut [u8]) -> crate::code::Wrote {
        wrote(match by {
            By::Number(number) => tree::by_number::inclusion_path(number, leaves, place, out),
            By::Hash(number) => tree::build::inclusion_path(hash_of(number), leaves, place, out),
        })
    }

    fn consistency_path(&self, by: By, leaves: &[u8], first: u64, out: &mut [u8]) -> crate::code::Wrote {
        wrote(match by {
            By::Number(number) => tree::by_number::consistency_path(number, leaves, first, out),
            By::Hash(number) => tree::build::consistency_path(hash_of(number), leaves, first, out),
        })
    }

    fn inclusion_verdict(&self, by: By, leaf: &[u8], place: u64, size: u64, root: &[u8], path: &[u8]) -> u64 {
        let number = match by {
            By::Number(number) => tree::by_number::inclusion_verdict(number, leaf, place, size, root, path),
            By::Hash(number) => tree::verdict::inclusion_verdict(hash_of(number), leaf, place, size, root, path),
        };
        number.into()
    }

    fn consistency_verdict(&self, by: By, first: u64, second: u64, old: &[u8], new: &[u8], path: &[u8]) -> u64 {
        let number = match by {
            By::Number(number) => tree::by_number::consistency_verdict(number, first, second, old, new, path),
            By::Hash(number) => tree::verdict::consistency_verdict(hash_of(number), first, second, old, new, path),
        };
        number.into()
    }

    fn new_tree(&self, algorithm: u64) -> (u64, reference::growing::Growing) {
        grown(growing::new(algorithm))
    }

    fn add_page(&self, algorithm: u64, tree: &reference::growing::Growing, page: &[u8]) -> (u64, reference::growing::Growing) {
        grown(growing::add::add_page(algorithm, growing_tree(tree), page))
    }

    fn add_leaves(&self, algorithm: u64, tree: &reference::growing::Growing, leaves: &[u8]) -> (u64, reference::growing::Growing) {
        grown(growing::add::add_leaves(algorithm, growing_tree(tree), leaves))
    }

    fn growing_root(&self, algorithm: u64, tree: &reference::growing::Growing) -> (u64, [u8; 32]) {
        hashed(growing::root(algorithm, growing_tree(tree)))
    }

    fn growing_root_into(&self, algorithm: u64, tree: &reference::growing::Growing, out: &mut [u8]) -> crate::code::Wrote {
        wrote(growing::root_into(algorithm, growing_tree(tree), out))
    }

    fn carry(&self, by: By, one: &crate::code::Step, out: &mut [u8], pair: &mut [u8]) -> Result<reference::carry::Carried, u64> {
        use carry::forward::Carried;
        let crate::code::Step { leaf, place, first, second, old, new, path, proof } = one;
        let carried = match by {
            By::Number(number) => {
                carry::by_number::carry(number, leaf, *place, *first, *second, old, new, path, proof, out, pair)
            }
            By::Hash(number) => {
                carry::forward::carry(hash_of(number), leaf, *place, *first, *second, old, new, path, proof, out, pair)
            }
        };
        match carried {
            Carried::Path(length) => Ok(reference::carry::Carried::Path(length)),
            Carried::Collision => Ok(reference::carry::Carried::Collision),
            Carried::Refused(number) => Err(number.into()),
        }
    }

    fn compare(&self, by: By, one: &crate::code::Two, pair: &mut [u8]) -> Result<reference::carry::Compared, u64> {
        use carry::compare::Compared;
        let crate::code::Two { place, size, root, leaves: [leaf1, leaf2], paths: [path1, path2] } = one;
        let compared = match by {
            By::Number(number) => carry::by_number::compare(number, *place, *size, root, leaf1, path1, leaf2, path2, pair),
            By::Hash(number) => carry::compare::compare(hash_of(number), *place, *size, root, leaf1, path1, leaf2, path2, pair),
        };
        match compared {
            Compared::Same => Ok(reference::carry::Compared::Same),
            Compared::Collision => Ok(reference::carry::Compared::Collision),
            Compared::Refused(number) => Err(number.into()),
        }
    }

    fn empty(&self) -> reference::auditor::Stored {
        stored(auditor::empty())
    }

    fn offer(
        &self,
        algorithm: u64,
        before: &reference::auditor::Stored,
        one: &reference::auditor::Offer,
    ) -> (u64, reference::auditor::Stored) {
        answered(auditor::head::offer(algorithm, record(before), &one.log_id, one.timestamp, one.size, &one.root, &one.path))
    }

    fn ask(
        &self,
        algorithm: u64,
        before: &reference::auditor::Stored,
        one: &reference::auditor::PageCall,
    ) -> (u64, reference::auditor::Stored) {
        answered(auditor::page::ask(algorithm, record(before), one.place, &one.page, &one.path))
    }

    fn dispute(&self, algorithm: u64, one: &reference::auditor::Dispute, pair: &mut [u8]) -> reference::auditor::Settled {
        use auditor::dispute::Settled;
        let first = &one.first;
        match auditor::dispute::dispute(
            algorithm, &first.page, first.place, &first.path, one.size, &one.root, &one.heads, &one.second_page, &one.second_path, pair,
        ) {
            Settled::Same => reference::auditor::Settled::Same,
            Settled::Nodes => reference::auditor::Settled::Nodes,
            Settled::Pages => reference::auditor::Settled::Pages,
            Settled::Refused(number) => reference::auditor::Settled::Refused(number.into()),
        }
    }

    #[cfg(journal)]
    fn append(&self, journal: &mut [u8], used: usize, size: u64, root: &[u8], path: &[u8]) -> crate::code::Wrote {
        use auditor::journal::Appended;
        match auditor::journal::append(journal, used, size, root, path) {
            Appended::Used(used) => Ok(used),
            Appended::Refused(number) => Err(number.into()),
        }
    }
}
