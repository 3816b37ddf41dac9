//! SM3, GB/T 32905-2016.

/// Section 4.1: the first value.
pub const INITIAL: [u32; 8] = [0x7380166f, 0x4914b2b9, 0x172442d7, 0xda8a0600, 0xa96f30bc, 0x163138aa, 0xe38dee4d, 0xb0fb0e4e];

/// The words that the block step works in: W0 to W67, then W'0 to W'63.
pub const WORDS: usize = 132;
/// Where W'0 stands.
const PRIMED: usize = 68;

/// Section 4.2: the constant of a round. The rounds take it rotated by their number,
/// which counts modulo 32.
fn t(j: usize) -> u32 {
    if j < 16 {
        0x79cc4519
    } else {
        0x7a879d8a
    }
}

// Section 4.3: the two Boolean functions, each of another form from round 16 on.

fn ff(j: usize, x: u32, y: u32, z: u32) -> u32 {
    if j < 16 {
        x ^ y ^ z
    } else {
        (x & y) | (x & z) | (y & z)
    }
}

fn gg(j: usize, x: u32, y: u32, z: u32) -> u32 {
    if j < 16 {
        x ^ y ^ z
    } else {
        (x & y) | (!x & z)
    }
}

// Section 4.4: the two permutations.

fn p0(x: u32) -> u32 {
    x ^ x.rotate_left(9) ^ x.rotate_left(17)
}

fn p1(x: u32) -> u32 {
    x ^ x.rotate_left(15) ^ x.rotate_left(23)
}

/// Section 5.3.2: the block expanded to W0 to W67 and W'0 to W'63.
pub fn expand(block: &[u8; 64], w: &mut [u32; WORDS]) {
    for (word, four) in w.iter_mut().zip(block.chunks_exact(4)) {
        *word = u32::from_be_bytes(four.try_into().unwrap());
    }
    for j in 16..PRIMED {
        w[j] = p1(w[j - 16] ^ w[j - 9] ^ w[j - 3].rotate_left(15)) ^ w[j - 13].rotate_left(7) ^ w[j - 6];
    }
    for j in 0..64 {
        w[PRIMED + j] = w[j] ^ w[j + 4];
    }
}

/// Section 5.3.3: 64 rounds over an expanded block. What they come to is joined to the
/// value before by exclusive or.
pub fn compress(v: &mut [u32; 8], w: &[u32; WORDS]) {
    let [mut a, mut b, mut c, mut d, mut e, mut f, mut g, mut h] = *v;
    for j in 0..64 {
        let ss1 = a.rotate_left(12).wrapping_add(e).wrapping_add(t(j).rotate_left(j as u32 % 32)).rotate_left(7);
        let ss2 = ss1 ^ a.rotate_left(12);
        let tt1 = ff(j, a, b, c).wrapping_add(d).wrapping_add(ss2).wrapping_add(w[PRIMED + j]);
        let tt2 = gg(j, e, f, g).wrapping_add(h).wrapping_add(ss1).wrapping_add(w[j]);
        d = c;
        c = b.rotate_left(9);
        b = a;
        a = tt1;
        h = g;
        g = f.rotate_left(19);
        f = e;
        e = p0(tt2);
    }
    for (word, new) in v.iter_mut().zip([a, b, c, d, e, f, g, h]) {
        *word ^= new;
    }
}

/// One block: the value after it, and the words that it was expanded to.
pub fn step(v: &mut [u32; 8], block: &[u8; 64], w: &mut [u32; WORDS]) {
    expand(block, w);
    compress(v, w);
}

/// Sections 5.2 to 5.4: the message padded by a one-bit, zeros and its length in bits in
/// 64 bits, to whole blocks; these in order; the last value, each word's highest byte first.
pub fn digest(message: &[u8]) -> [u8; 32] {
    let (mut v, mut w) = (INITIAL, [0; WORDS]);
    let mut blocks = message.chunks_exact(64);
    for block in &mut blocks {
        step(&mut v, block.try_into().unwrap(), &mut w);
    }
    let mut last = blocks.remainder().to_vec();
    last.push(0x80);
    while last.len() % 64 != 56 {
        last.push(0);
    }
    last.extend((8 * message.len() as u64).to_be_bytes());
    for block in last.chunks_exact(64) {
        step(&mut v, block.try_into().unwrap(), &mut w);
    }
    let mut digest = [0; 32];
    for (four, word) in digest.chunks_exact_mut(4).zip(v) {
        four.copy_from_slice(&word.to_be_bytes());
    }
    digest
}

#[cfg(test)]
mod tests {
    use super::*;
    use crate::vectors;
    use crate::words::hex;
    use std::process::Command;

    #[test]
    fn published_vectors() {
        for vector in vectors::SM3 {
            assert_eq!(digest(&vector.message()), vector.digest(), "{}", vector.text);
        }
    }

    /// Appendix A.1: `abc` padded is one block.
    #[test]
    fn one_block_of_abc() {
        let mut block = [0; 64];
        block[..4].copy_from_slice(b"abc\x80");
        block[63] = 24;
        let (mut v, mut w) = (INITIAL, [0xffff_ffff; WORDS]);
        step(&mut v, &block, &mut w);
        assert_eq!([w[0], w[1], w[14], w[15], w[16], w[17], w[18]], [0x61626380, 0, 0, 0x18, 0x9092e200, 0, 0x000c0606]);
        assert_eq!([w[67], w[68], w[131]], [0xb99c0545, 0x61626380, 0x49e260d5]);
        assert_eq!(v, [0x66c7f0f4, 0x62eeedd9, 0xd1f2d46b, 0xdc10e4e2, 0x4167c487, 0x5cf2f7a2, 0x297da02b, 0x8f4ba8e0]);
    }

    /// Every length up to 300.
    const LENGTHS: std::ops::RangeInclusive<usize> = 0..=300;

    fn message(length: usize) -> Vec<u8> {
        (0..length).map(|i| (i * 7 + length) as u8).collect()
    }

    /// The digest of all their digests, as OpenSSL has it.
    #[test]
    fn every_length() {
        let all: Vec<u8> = LENGTHS.flat_map(|length| digest(&message(length))).collect();
        assert_eq!(hex(&digest(&all)), "10e597d19de6ef579a2bd9fc979f44567567ef2b1e52945db3b4b0753129d953");
    }

    /// Beside OpenSSL, by way of Python; where one of them is missing, nothing is compared.
    #[test]
    fn every_length_beside_openssl() {
        let program =
            "import hashlib\nfor n in range(301): print(hashlib.new('sm3', bytes((i * 7 + n) % 256 for i in range(n))).hexdigest())";
        let Ok(answer) = Command::new("python3").args(["-c", program]).output() else { return println!("no python3") };
        if !answer.status.success() {
            return println!("no SM3 in python3");
        }
        let answer = String::from_utf8(answer.stdout).unwrap();
        let expected: Vec<String> = LENGTHS.map(|length| hex(&digest(&message(length)))).collect();
        assert_eq!(answer.lines().collect::<Vec<_>>(), expected);
    }
}
