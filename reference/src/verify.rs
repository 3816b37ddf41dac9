//! RFC 9162's verification algorithms, bottom up, as the RFC writes them.

use crate::tree::{node_hash, Hash, HashFunction};

fn lsb(number: u64) -> bool {
    number & 1 == 1
}

/// Section 2.1.3.2.
pub fn inclusion(h: HashFunction, hash: &Hash, leaf_index: u64, tree_size: u64, root_hash: &Hash, path: &[Hash]) -> bool {
    // Step 1.
    if leaf_index >= tree_size {
        return false;
    }
    // Steps 2 and 3.
    let mut f_n = leaf_index;
    let mut s_n = tree_size - 1;
    let mut r = *hash;
    // Step 4.
    for p in path {
        if s_n == 0 {
            return false;
        }
        if lsb(f_n) || f_n == s_n {
            r = node_hash(h, p, &r);
            if !lsb(f_n) {
                while !lsb(f_n) && f_n != 0 {
                    f_n >>= 1;
                    s_n >>= 1;
                }
            }
        } else {
            r = node_hash(h, &r, p);
        }
        f_n >>= 1;
        s_n >>= 1;
    }
    // Step 5.
    s_n == 0 && r == *root_hash
}

/// Section 2.1.4.2, for 0 < first < second.
pub fn consistency(h: HashFunction, first: u64, second: u64, first_hash: &Hash, second_hash: &Hash, path: &[Hash]) -> bool {
    // Step 1.
    if path.is_empty() {
        return false;
    }
    // Step 2.
    let mut path = path.to_vec();
    if first.is_power_of_two() {
        path.insert(0, *first_hash);
    }
    // Steps 3 and 4.
    let mut f_n = first - 1;
    let mut s_n = second - 1;
    while lsb(f_n) {
        f_n >>= 1;
        s_n >>= 1;
    }
    // Step 5.
    let mut fr = path[0];
    let mut sr = path[0];
    // Step 6.
    for c in &path[1..] {
        if s_n == 0 {
            return false;
        }
        if lsb(f_n) || f_n == s_n {
            fr = node_hash(h, c, &fr);
            sr = node_hash(h, c, &sr);
            if !lsb(f_n) {
                while !lsb(f_n) && f_n != 0 {
                    f_n >>= 1;
                    s_n >>= 1;
                }
            }
        } else {
            sr = node_hash(h, &sr, c);
        }
        f_n >>= 1;
        s_n >>= 1;
    }
    // Step 7.
    fr == *first_hash && sr == *second_hash && s_n == 0
}
