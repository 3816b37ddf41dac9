//! SHA-256, FIPS 180-4.

/// Section 4.2.2: the 64 constants.
pub const K: [u32; 64] = [
    0x428a2f98, 0x71374491, 0xb5c0fbcf, 0xe9b5dba5, 0x3956c25b, 0x59f111f1, 0x923f82a4, 0xab1c5ed5, //
    0xd807aa98, 0x12835b01, 0x243185be, 0x550c7dc3, 0x72be5d74, 0x80deb1fe, 0x9bdc06a7, 0xc19bf174, //
    0xe49b69c1, 0xefbe4786, 0x0fc19dc6, 0x240ca1cc, 0x2de92c6f, 0x4a7484aa, 0x5cb0a9dc, 0x76f988da, //
    0x983e5152, 0xa831c66d, 0xb00327c8, 0xbf597fc7, 0xc6e00bf3, 0xd5a79147, 0x06ca6351, 0x14292967, //
    0x27b70a85, 0x2e1b2138, 0x4d2c6dfc, 0x53380d13, 0x650a7354, 0x766a0abb, 0x81c2c92e, 0x92722c85, //
    0xa2bfe8a1, 0xa81a664b, 0xc24b8b70, 0xc76c51a3, 0xd192e819, 0xd6990624, 0xf40e3585, 0x106aa070, //
    0x19a4c116, 0x1e376c08, 0x2748774c, 0x34b0bcb5, 0x391c0cb3, 0x4ed8aa4a, 0x5b9cca4f, 0x682e6ff3, //
    0x748f82ee, 0x78a5636f, 0x84c87814, 0x8cc70208, 0x90befffa, 0xa4506ceb, 0xbef9a3f7, 0xc67178f2,
];

/// Section 5.3.3: the first hash value.
pub const INITIAL: [u32; 8] = [0x6a09e667, 0xbb67ae85, 0x3c6ef372, 0xa54ff53a, 0x510e527f, 0x9b05688c, 0x1f83d9ab, 0x5be0cd19];

// Section 4.1.2: the six functions.

fn ch(x: u32, y: u32, z: u32) -> u32 {
    (x & y) ^ (!x & z)
}

fn maj(x: u32, y: u32, z: u32) -> u32 {
    (x & y) ^ (x & z) ^ (y & z)
}

fn big_sigma_0(x: u32) -> u32 {
    x.rotate_right(2) ^ x.rotate_right(13) ^ x.rotate_right(22)
}

fn big_sigma_1(x: u32) -> u32 {
    x.rotate_right(6) ^ x.rotate_right(11) ^ x.rotate_right(25)
}

fn small_sigma_0(x: u32) -> u32 {
    x.rotate_right(7) ^ x.rotate_right(18) ^ (x >> 3)
}

fn small_sigma_1(x: u32) -> u32 {
    x.rotate_right(17) ^ x.rotate_right(19) ^ (x >> 10)
}

/// Section 6.2.2, step 1: the message schedule of a block.
pub fn schedule(block: &[u8; 64], w: &mut [u32; 64]) {
    for t in 0..16 {
        w[t] = u32::from_be_bytes([block[4 * t], block[4 * t + 1], block[4 * t + 2], block[4 * t + 3]]);
    }
    for t in 16..64 {
        w[t] = small_sigma_1(w[t - 2]).wrapping_add(w[t - 7]).wrapping_add(small_sigma_0(w[t - 15])).wrapping_add(w[t - 16]);
    }
}

/// Section 6.2.2, steps 2 to 4: 64 rounds over a schedule.
pub fn rounds(state: &mut [u32; 8], w: &[u32; 64]) {
    let [mut a, mut b, mut c, mut d, mut e, mut f, mut g, mut h] = *state;
    for t in 0..64 {
        let t1 = h.wrapping_add(big_sigma_1(e)).wrapping_add(ch(e, f, g)).wrapping_add(K[t]).wrapping_add(w[t]);
        let t2 = big_sigma_0(a).wrapping_add(maj(a, b, c));
        h = g;
        g = f;
        f = e;
        e = d.wrapping_add(t1);
        d = c;
        c = b;
        b = a;
        a = t1.wrapping_add(t2);
    }
    for (word, add) in state.iter_mut().zip([a, b, c, d, e, f, g, h]) {
        *word = word.wrapping_add(add);
    }
}

/// One block: the state after it, and its schedule.
pub fn step(state: &mut [u32; 8], block: &[u8; 64], w: &mut [u32; 64]) {
    schedule(block, w);
    rounds(state, w);
}

/// The digest of `prefix || message`; the prefix has fewer than 64 bytes.
fn digest_after(prefix: &[u8], message: &[u8]) -> [u8; 32] {
    let mut state = INITIAL;
    let mut w = [0; 64];
    let mut rest = message;

    // A block that begins with the prefix.
    let mut prefix_left = prefix;
    if !prefix.is_empty() && prefix.len() + message.len() >= 64 {
        let (head, tail) = message.split_at(64 - prefix.len());
        let mut block = [0; 64];
        block[..prefix.len()].copy_from_slice(prefix);
        block[prefix.len()..].copy_from_slice(head);
        step(&mut state, &block, &mut w);
        prefix_left = &[];
        rest = tail;
    }

    let mut blocks = rest.chunks_exact(64);
    for block in &mut blocks {
        step(&mut state, block.try_into().unwrap(), &mut w);
    }

    // Section 5.1.1: a one-bit, zeros up to 448 modulo 512, the length in bits in 64 bits.
    let tail = blocks.remainder();
    let mut last = [0; 128];
    let used = prefix_left.len() + tail.len();
    last[..prefix_left.len()].copy_from_slice(prefix_left);
    last[prefix_left.len()..used].copy_from_slice(tail);
    last[used] = 0x80;
    let end = if used < 56 { 64 } else { 128 };
    let bits = (prefix.len() as u64 + message.len() as u64) * 8;
    last[end - 8..end].copy_from_slice(&bits.to_be_bytes());
    for block in last[..end].chunks_exact(64) {
        step(&mut state, block.try_into().unwrap(), &mut w);
    }

    let mut digest = [0; 32];
    for (four, word) in digest.chunks_exact_mut(4).zip(state) {
        four.copy_from_slice(&word.to_be_bytes());
    }
    digest
}

pub fn digest(message: &[u8]) -> [u8; 32] {
    digest_after(&[], message)
}

/// RFC 9162, 2.1.1: the hash of a leaf, H(0x00 || item).
pub fn leaf(item: &[u8]) -> [u8; 32] {
    digest_after(&[0], item)
}

/// RFC 9162, 2.1.1: the hash of an inner node, H(0x01 || left || right).
pub fn node(left: &[u8; 32], right: &[u8; 32]) -> [u8; 32] {
    let mut both = [1; 65];
    both[1..33].copy_from_slice(left);
    both[33..].copy_from_slice(right);
    digest_after(&[], &both)
}

#[cfg(test)]
mod tests {
    use super::*;
    use crate::vectors;

    #[test]
    fn published_vectors() {
        for vector in vectors::sha256() {
            assert_eq!(digest(&vector.message()), vector.digest(), "{}", vector.text);
        }
    }

    #[test]
    fn prefixed_equals_joined() {
        for count in 0..300 {
            let item: Vec<u8> = (0..count).map(|i| (i * 7 + count) as u8).collect();
            let joined = [&[0][..], &item].concat();
            assert_eq!(leaf(&item), digest(&joined));
        }
        assert_eq!(node(&[2; 32], &[3; 32]), digest(&[&[1][..], &[2; 32], &[3; 32]].concat()));
    }

    #[test]
    fn one_block_of_abc() {
        // FIPS 180-4's example: 'abc' padded is one block.
        let mut block = [0; 64];
        block[..4].copy_from_slice(b"abc\x80");
        block[63] = 24;
        let mut state = INITIAL;
        let mut w = [0; 64];
        step(&mut state, &block, &mut w);
        assert_eq!(w[0], 0x61626380);
        assert_eq!(w[15], 0x18);
        assert_eq!(w[16], 0x61626380);
        assert_eq!(w[17], 0x000f0000);
        assert_eq!(state, [0xba7816bf, 0x8f01cfea, 0x414140de, 0x5dae2223, 0xb00361a3, 0x96177a9c, 0xb410ff61, 0xf20015ad]);
    }
}
