//! The Merkle tree by its recursive definitions (RFC 9162, 2.1.1, 2.1.3.1 and
//! 2.1.4.1), over leaf hashes and any hash.

pub type Hash = [u8; 32];
/// The hash is a parameter, so that a weak one can be put in.
pub type HashFunction = fn(&[u8]) -> Hash;

/// The largest size of a tree.
pub const LARGEST_SIZE: u64 = u64::MAX;
/// Joined leaf hashes are at most so many, whatever the size of a tree.
pub const MOST_LEAVES: u64 = 1 << 32;

pub fn leaf_hash(h: HashFunction, input: &[u8]) -> Hash {
    h(&[&[0], input].concat())
}

pub fn node_hash(h: HashFunction, left: &Hash, right: &Hash) -> Hash {
    h(&[&[1], &left[..], right].concat())
}

/// The largest power of two smaller than `n`, which is above 1.
pub fn split(n: u64) -> u64 {
    let mut k = 1;
    while k < n - k {
        k *= 2;
    }
    k
}

/// MTH, over leaf hashes.
pub fn root(h: HashFunction, leaves: &[Hash]) -> Hash {
    match leaves {
        [] => h(&[]),
        [one] => *one,
        _ => {
            let (first, rest) = leaves.split_at(split(leaves.len() as u64) as usize);
            node_hash(h, &root(h, first), &root(h, rest))
        }
    }
}

/// PATH(m, D_n), for m below n.
pub fn path(h: HashFunction, m: usize, leaves: &[Hash]) -> Vec<Hash> {
    if leaves.len() == 1 {
        return Vec::new();
    }
    let k = split(leaves.len() as u64) as usize;
    let (first, rest) = leaves.split_at(k);
    let (mut nodes, last) = if m < k { (path(h, m, first), root(h, rest)) } else { (path(h, m - k, rest), root(h, first)) };
    nodes.push(last);
    nodes
}

/// PROOF(m, D_n), for m from 1 to n; from n to itself it is empty.
pub fn consistency_path(h: HashFunction, m: usize, leaves: &[Hash]) -> Vec<Hash> {
    sub(h, m, leaves, true)
}

/// SUBPROOF(m, D_n, flag).
fn sub(h: HashFunction, m: usize, leaves: &[Hash], flag: bool) -> Vec<Hash> {
    if m == leaves.len() {
        return if flag { Vec::new() } else { vec![root(h, leaves)] };
    }
    let k = split(leaves.len() as u64) as usize;
    let (first, rest) = leaves.split_at(k);
    let (mut nodes, last) = if m <= k { (sub(h, m, first, flag), root(h, rest)) } else { (sub(h, m - k, rest, false), root(h, first)) };
    nodes.push(last);
    nodes
}

/// Joined hashes, 32 bytes each; `None` where they aren't a multiple of 32.
pub fn hashes(joined: &[u8]) -> Option<Vec<Hash>> {
    if joined.len() % 32 != 0 {
        return None;
    }
    Some(joined.chunks_exact(32).map(|one| one.try_into().unwrap()).collect())
}

// The builders. Each answers how many bytes it wrote to the lent buffer, or its
// refusal: 10, then 6, then 9.

pub fn leaves_of(joined: &[u8]) -> Result<Vec<Hash>, u64> {
    hashes(joined).filter(|leaves| leaves.len() as u64 <= MOST_LEAVES).ok_or(10)
}

pub fn hand_out(nodes: &[Hash], lent: &mut [u8]) -> Result<usize, u64> {
    let joined = nodes.concat();
    lent.get_mut(..joined.len()).ok_or(9u64)?.copy_from_slice(&joined);
    Ok(joined.len())
}

pub fn build_root(h: HashFunction, leaves: &[u8], lent: &mut [u8]) -> Result<usize, u64> {
    let leaves = leaves_of(leaves)?;
    hand_out(&[root(h, &leaves)], lent)
}

pub fn build_path(h: HashFunction, leaves: &[u8], place: u64, lent: &mut [u8]) -> Result<usize, u64> {
    let leaves = leaves_of(leaves)?;
    if place >= leaves.len() as u64 {
        return Err(6);
    }
    hand_out(&path(h, place as usize, &leaves), lent)
}

pub fn build_consistency_path(h: HashFunction, leaves: &[u8], first: u64, lent: &mut [u8]) -> Result<usize, u64> {
    let leaves = leaves_of(leaves)?;
    if first == 0 || first > leaves.len() as u64 {
        return Err(6);
    }
    hand_out(&consistency_path(h, first as usize, &leaves), lent)
}

#[cfg(test)]
mod tests {
    use super::*;
    use crate::sha256::{digest, leaf, node};
    use crate::words::hex;

    #[test]
    fn splits() {
        let expected = [(2, 1), (3, 2), (4, 2), (5, 4), (7, 4), (8, 4), (9, 8), (1 << 32, 1 << 31), ((1 << 32) + 1, 1 << 32)];
        for (n, k) in expected {
            assert_eq!(split(n), k);
        }
        assert_eq!(split(u64::MAX), 1 << 63);
        assert_eq!(split(1 << 63), 1 << 62);
        assert_eq!(split((1 << 63) + 1), 1 << 63);
        for bit in 1..64 {
            let power = 1u64 << bit;
            assert_eq!([split(power), split(power + 1), split(power + (power - 1))], [power / 2, power, power]);
        }
    }

    /// Eight inputs and the roots of their first ones, from the test data of the
    /// Certificate Transparency programs.
    #[test]
    fn known_roots() {
        let inputs: [&[u8]; 8] = [
            b"",
            b"\x00",
            b"\x10",
            b"\x20\x21",
            b"\x30\x31",
            b"\x40\x41\x42\x43",
            b"\x50\x51\x52\x53\x54\x55\x56\x57",
            b"`abcdefghijklmno",
        ];
        let roots = [
            "e3b0c44298fc1c149afbf4c8996fb92427ae41e4649b934ca495991b7852b855",
            "6e340b9cffb37a989ca544e6bb780a2c78901d3fb33738768511a30617afa01d",
            "fac54203e7cc696cf0dfcb42c92a1d9dbaf70ad9e621f4bd8d98662f00e3c125",
            "aeb6bcfe274b70a14fb067a5e5578264db0fa9b51af5e0ba159158f329e06e77",
            "d37ee418976dd95753c1c73862b9398fa2a2cf9b4ff0fdfe8b30cd95209614b7",
            "4e3bbb1f7b478dcfe71fb631631519a3bca12c9aefca1612bfce4c13a86264d4",
            "76e67dadbcdf1e10e1b74ddc608abd2f98dfb16fbce75277b5232a127f2087ef",
            "ddb89be403809e325750d3d263cd78929c2942b7942a34b77e122c9594a74c8c",
            "5dc9da79a70659a9ad559cb701ded9a2ab9d823aad2f4960cfe370eff4604328",
        ];
        let leaves: Vec<Hash> = inputs.iter().map(|input| leaf(input)).collect();
        for (count, expected) in roots.iter().enumerate() {
            assert_eq!(hex(&root(digest, &leaves[..count])), *expected, "{count}");
        }
        assert_eq!(leaf_hash(digest, b"item"), leaf(b"item"));
    }

    /// The papers' seven leaves.
    #[test]
    fn starred_cases() {
        let [a, b, c, d, e, f, j] = [1u8, 2, 3, 4, 5, 6, 7].map(|i| [i; 32]);
        let leaves = [a, b, c, d, e, f, j];
        let (g, h, i) = (node(&a, &b), node(&c, &d), node(&e, &f));
        let (k, l) = (node(&g, &h), node(&i, &j));
        assert_eq!(root(digest, &leaves), node(&k, &l));
        assert_eq!(path(digest, 0, &leaves), [b, h, l]);
        assert_eq!(path(digest, 3, &leaves), [c, g, l]);
        assert_eq!(path(digest, 4, &leaves), [f, j, k]);
        assert_eq!(path(digest, 6, &leaves), [i, k]);
        assert_eq!(consistency_path(digest, 3, &leaves), [c, d, g, l]);
        assert_eq!(consistency_path(digest, 4, &leaves), [l]);
        assert_eq!(consistency_path(digest, 6, &leaves), [i, j, k]);
        assert!(consistency_path(digest, 7, &leaves).is_empty());
    }

    #[test]
    fn builders_refuse_in_order() {
        let mut lent = [9; 40];
        assert_eq!(build_root(digest, &[], &mut lent), Ok(32));
        assert_eq!(lent[..32], digest(&[]));
        assert_eq!(lent[32..], [9; 8]);
        assert_eq!(build_root(digest, &[0; 33], &mut []), Err(10));
        assert_eq!(build_root(digest, &[0; 32], &mut [0; 31]), Err(9));
        assert_eq!(build_path(digest, &[0; 33], 7, &mut []), Err(10));
        assert_eq!(build_path(digest, &[], 0, &mut []), Err(6));
        assert_eq!(build_path(digest, &[0; 64], 2, &mut []), Err(6));
        assert_eq!(build_path(digest, &[0; 64], 1, &mut [0; 31]), Err(9));
        assert_eq!(build_path(digest, &[5; 64], 1, &mut lent), Ok(32));
        assert_eq!(lent[..32], [5; 32]);
        assert_eq!(build_path(digest, &[0; 32], 0, &mut []), Ok(0));
        assert_eq!(build_consistency_path(digest, &[], 0, &mut []), Err(6));
        assert_eq!(build_consistency_path(digest, &[0; 64], 0, &mut []), Err(6));
        assert_eq!(build_consistency_path(digest, &[0; 64], 3, &mut []), Err(6));
        assert_eq!(build_consistency_path(digest, &[0; 64], 1, &mut [0; 31]), Err(9));
        assert_eq!(build_consistency_path(digest, &[0; 64], 2, &mut []), Ok(0));
    }
}
