//! The hashes, by number: digest, leaf hash and node hash, by value and into lent
//! buffers. The two block steps, which take no number.

use crate::algorithm::{self, known, KNOWN, SHA256, SM3, UNKNOWN};
use crate::random::Random;
use crate::requests::{lines_that_are_no_request, with_unknown, Asked, Entry, Layer, Requests};
use crate::tree::{leaf_hash, node_hash, Hash, HashFunction};
use crate::words::{bytes, number, repeated, Word};
use crate::{sha256, sm3, vectors};

pub const LAYER: Layer = Layer {
    name: "hash",
    entries: &[
        Entry { name: "digest", answer: |words| by_value(words, LONGEST_INPUT, digest), random: random_input },
        Entry { name: "leaf", answer: |words| by_value(words, LONGEST_ITEM, leaf_hash), random: random_input },
        Entry { name: "node", answer: node, random: random_node },
        Entry { name: "digest_into", answer: |words| into(words, LONGEST_INPUT, digest), random: random_into },
        Entry { name: "leaf_into", answer: |words| into(words, LONGEST_ITEM, leaf_hash), random: random_into },
        Entry { name: "step", answer: |words| step(words, sha256::step), random: |random| random_step(64, random) },
        Entry { name: "sm3_step", answer: |words| step(words, sm3::step), random: |random| random_step(sm3::WORDS, random) },
    ],
    lists: None,
    cases,
    full,
};

/// The longest item, and the longest hash input: one more for the 0x00.
const LONGEST_ITEM: usize = 33_554_432;
const LONGEST_INPUT: usize = 33_554_433;
/// The words of a schedule that a request can have.
const MOST_WORDS: usize = 256;

/// Over a hash: the digest, or the leaf hash.
type Over = fn(HashFunction, &[u8]) -> Hash;

fn digest(h: HashFunction, input: &[u8]) -> Hash {
    h(input)
}

/// Checks 16, then 1.
fn hashed(algorithm: u64, input: &[u8], longest: usize, over: Over) -> Result<Hash, u64> {
    let h = known(algorithm)?;
    if input.len() > longest {
        return Err(1);
    }
    Ok(over(h, input))
}

fn told(answer: Result<Hash, u64>) -> Vec<Word> {
    vec![number(answer.err().unwrap_or(0)), bytes(&answer.unwrap_or([0; 32]))]
}

fn by_value(words: &[Word], longest: usize, over: Over) -> Option<Vec<Word>> {
    let [algorithm, input] = words else { return None };
    Some(told(hashed(algorithm.as_number()?, input.as_bytes()?, longest, over)))
}

/// Checks 16, 1, then 9.
fn into(words: &[Word], longest: usize, over: Over) -> Option<Vec<Word>> {
    let [algorithm, input, lent] = words else { return None };
    let mut lent = lent.as_bytes()?.to_vec();
    let refusal = match hashed(algorithm.as_number()?, input.as_bytes()?, longest, over) {
        Err(refusal) => refusal,
        Ok(_) if lent.len() < 32 => 9,
        Ok(hash) => {
            lent[..32].copy_from_slice(&hash);
            0
        }
    };
    Some(vec![number(refusal), bytes(&lent)])
}

fn node(words: &[Word]) -> Option<Vec<Word>> {
    let [algorithm, left, right] = words else { return None };
    let (left, right) = (left.as_hash()?, right.as_hash()?);
    Some(told(known(algorithm.as_number()?).map(|h| node_hash(h, &left, &right))))
}

/// A block not of 64 bytes is 5, then a schedule not of as many words as the step works in 9.
fn step<const WORDS: usize>(words: &[Word], step: fn(&mut [u32; 8], &[u8; 64], &mut [u32; WORDS])) -> Option<Vec<Word>> {
    let [state, block, schedule] = words else { return None };
    let mut state: [u32; 8] = state.as_words()?.try_into().ok()?;
    let block = block.as_bytes()?;
    let mut schedule = schedule.as_words().filter(|words| words.len() <= MOST_WORDS)?;
    let refusal = match (<&[u8; 64]>::try_from(block), <&mut [u32; WORDS]>::try_from(&mut schedule[..])) {
        (Err(_), _) => 5,
        (_, Err(_)) => 9,
        (Ok(block), Ok(schedule)) => {
            step(&mut state, block, schedule);
            0
        }
    };
    Some(vec![number(refusal), words_as_bytes(&state), words_as_bytes(&schedule)])
}

fn words_as_bytes(words: &[u32]) -> Word {
    let all: Vec<u8> = words.iter().flat_map(|word| word.to_be_bytes()).collect();
    bytes(&all)
}

// Committed cases.

const BY_VALUE: [&str; 2] = ["digest", "leaf"];
const INTO: [&str; 2] = ["digest_into", "leaf_into"];

fn cases(requests: &mut Requests) {
    let random = &mut Random::new(1804);

    for (algorithm, vector) in vectors::all() {
        assert_eq!(algorithm::of(algorithm)(&vector.message()), vector.digest(), "published value of {}", vector.text);
        let input = match vector.repeated() {
            Some((count, byte)) => repeated(count, byte),
            None => bytes(&vector.message()),
        };
        requests.ask("digest", &[number(algorithm), input.clone()]);
        requests.ask("digest_into", &[number(algorithm), input, repeated(32, 0)]);
    }

    // Every length up to two blocks.
    for count in 0..=130 {
        for (algorithm, entry) in [(SHA256, "digest"), (SHA256, "leaf"), (SM3, BY_VALUE[count % 2])] {
            requests.ask(entry, &[number(algorithm), bytes(&random.bytes(count))]);
        }
        for (algorithm, entry) in [(SHA256, "digest_into"), (SHA256, "leaf_into"), (SM3, INTO[(count + 1) % 2])] {
            requests.ask(entry, &[number(algorithm), repeated(count, random.byte()), repeated(32, random.byte())]);
        }
    }

    // Lengths around multiples of 64, and where the padding takes one more block.
    for count in edges().filter(|count| (131..=600).contains(count) || *count > 4_000) {
        for (algorithm, entry) in [(SHA256, "digest"), (SHA256, "leaf"), (SM3, BY_VALUE[count % 2])] {
            requests.ask(entry, &[number(algorithm), repeated(count, random.byte())]);
        }
        for (algorithm, entry) in [(SHA256, "digest_into"), (SHA256, "leaf_into"), (SM3, INTO[(count + 1) % 2])] {
            requests.ask(entry, &[number(algorithm), repeated(count, random.byte()), repeated(32, 0)]);
        }
    }

    // Lent buffers: too short, of 32 bytes, and longer, where the rest stays.
    for (algorithm, entry) in KNOWN.into_iter().flat_map(|algorithm| INTO.map(|entry| (algorithm, entry))) {
        for lent in [0, 1, 15, 16, 30, 31, 32, 33, 34, 63, 64, 65, 128, 300] {
            let count = random.below(70) as usize;
            requests.ask(entry, &[number(algorithm), bytes(&random.bytes(count)), bytes(&random.bytes(lent))]);
        }
        for lent in [0, 31, 32, 33] {
            requests.ask(entry, &[number(algorithm), repeated(100_000, 7), bytes(&random.bytes(lent))]);
        }
    }
    for (turn, count) in [65_535, 65_536, 65_537, 1_048_575, 1_048_576].into_iter().enumerate() {
        for (at, entry) in BY_VALUE.into_iter().enumerate() {
            requests.ask(entry, &[number(KNOWN[(turn + at) % 2]), repeated(count, random.byte())]);
        }
    }

    // Nodes.
    for algorithm in KNOWN {
        for (left, right) in [(0, 0), (0, 255), (255, 0), (255, 255), (1, 1), (0x80, 1)] {
            requests.ask("node", &[number(algorithm), repeated(32, left), repeated(32, right)]);
        }
        for _ in 0..10 {
            let (left, right) = (random.hash(), random.hash());
            requests.ask("node", &[number(algorithm), bytes(&left), bytes(&right)]);
            requests.ask("node", &[number(algorithm), bytes(&right), bytes(&left)]);
        }
    }
    second_hash_cases().iter().for_each(|(_, _, (name, words))| requests.ask(name, words));

    // The block steps.
    for (entry, initial, words) in STEPS {
        let initial = words_as_bytes(&initial);
        let mut abc = [0; 64];
        abc[..4].copy_from_slice(b"abc\x80");
        abc[63] = 24;
        requests.ask(entry, &[initial.clone(), bytes(&abc), repeated(4 * words, 0)]);
        for byte in [0, 255, 0x80, 1] {
            requests.ask(entry, &[initial.clone(), repeated(64, byte), repeated(4 * words, !byte)]);
            requests.ask(entry, &[repeated(32, byte), repeated(64, byte), repeated(4 * words, byte)]);
        }
        for _ in 0..8 {
            let state = bytes(&random.hash());
            requests.ask(entry, &[state, bytes(&random.bytes(64)), bytes(&random.bytes(4 * words))]);
        }
        for block in [0, 1, 63, 64, 65, 128] {
            for schedule in [0, 1, 63, 64, 65, 68, 131, 132, 133, 256] {
                requests.ask(entry, &[bytes(&random.hash()), repeated(block, 1), repeated(4 * schedule, 2)]);
            }
        }
    }

    // Lines that are no request.
    lines_that_are_no_request(requests, "digest 0");
    for line in [
        "digest",
        "digest x00",
        "digest 0",
        "digest 240",
        "digest 0 5",
        "digest x00 x00",
        "digest 1*f0 x00",
        "digest 0xf0 x00",
        "digest f0 x00",
        "digest 0 x00 x00",
        "digest 0 0 x00",
        "digest 1 5",
        "digest 18446744073709551616 x",
        "digest 0 1048577*00",
        "digest 1 1048577*00",
        "digest 0 18446744073709551616*00",
        "leaf",
        "leaf x",
        "leaf 0 0",
        "leaf 0 x x",
        "leaf x x",
        "node",
        "node 32*00 32*00",
        "node 0 32*00",
        "node 0 32*00 31*00",
        "node 240 33*00 32*00",
        "node 1 33*00 32*00",
        "node 0 32*00 32*00 32*00",
        "node 0 x x",
        "node 0 1 2",
        "node x 32*00 32*00",
        "digest_into x 32*00",
        "digest_into 0 x",
        "digest_into 0 x 32",
        "digest_into 0 0 32*00",
        "digest_into x x 32*00",
        "digest_into 0 x 32*00 x",
        "digest_into 0 1048576*00 1*00",
        "leaf_into 0 32*00",
        "leaf_into 32*00 32*00",
    ] {
        requests.line(line.as_bytes());
    }
    for (entry, _, words) in STEPS {
        for rest in [
            "",
            " 32*00 64*00",
            " 31*00 64*00 N*00",
            " 33*00 64*00 N*00",
            " 28*00 64*00 N*00",
            " 36*00 64*00 N*00",
            " x 64*00 N*00",
            " 32*00 64*00 255*00",
            " 32*00 64*00 257*00",
            " 32*00 64*00 1025*00",
            " 32*00 64*00 1028*00",
            " 32*00 63*00 1028*00",
            " 32*00 64 N*00",
            " 32*00 64*00 64",
            " 0 64*00 N*00",
            " 32*00 64*00 N*00 x",
            " 0 32*00 64*00 N*00",
            " 240 32*00 64*00 N*00",
        ] {
            requests.line(format!("{entry}{rest}").replace("N*", &format!("{}*", 4 * words)).as_bytes());
        }
    }
    for algorithm in KNOWN {
        requests.ask("digest", &[number(algorithm), bytes(b"abc")]);
    }
}

/// The block steps, with the first state and the words of the schedule.
const STEPS: [(&str, [u32; 8], usize); 2] = [("step", sha256::INITIAL, 64), ("sm3_step", sm3::INITIAL, sm3::WORDS)];

/// Request 7, a second hash: its cases by hand, as its readings list them, with the number and,
/// where it is given, the start of the digest; then each entry, also with no room, by each
/// number that no hash has.
fn second_hash_cases() -> Vec<(u64, &'static str, Asked)> {
    let mut all = vec![
        (0, "1ab21d83", ("digest", vec![number(SM3), bytes(b"")])),
        (0, "66c7f0f4", ("digest", vec![number(SM3), bytes(b"abc")])),
        (0, "debe9ff9", ("digest", vec![number(SM3), bytes(&b"abcd".repeat(16))])),
        (0, "2daef60e", ("leaf", vec![number(SM3), bytes(b"")])),
        (0, "5ec1420c", ("node", vec![number(SM3), repeated(32, 0), repeated(32, 0)])),
        (0, "e3b0c442", ("digest", vec![number(SHA256), bytes(b"")])),
        (0, "6e340b9c", ("leaf", vec![number(SHA256), bytes(b"")])),
        (0, "ae0798d0", ("node", vec![number(SHA256), repeated(32, 0), repeated(32, 0)])),
    ];
    let mut entries = vec![
        (0, ("digest", vec![number(SM3), bytes(b"abc")])),
        (0, ("leaf", vec![number(SM3), bytes(b"abc")])),
        (0, ("node", vec![number(SM3), repeated(32, 1), repeated(32, 2)])),
    ];
    for entry in INTO {
        for (refusal, room) in [(0, 32), (0, 33), (9, 31), (9, 0)] {
            entries.push((refusal, (entry, vec![number(SM3), bytes(b"abc"), repeated(room, 0xa5)])));
        }
        // The longest input that a request holds.
        entries.push((9, (entry, vec![number(SM3), repeated(1_048_545, 0x61), repeated(31, 0xa5)])));
    }
    all.extend(with_unknown(entries, true).into_iter().map(|(refusal, asked)| (refusal, "", asked)));
    all
}

/// For each multiple of 64 up to 4,096: the lengths next to it, and those where
/// the padding needs one more block, with and without a byte before the input.
fn edges() -> impl Iterator<Item = usize> {
    let near = |multiple: usize| [54, 55, 56, 57, 62, 63, 64, 65].map(|add| multiple + add);
    (0..=4096 - 64).step_by(64).flat_map(near)
}

/// Every length up to 300 and the long ones, with random bytes, by both hashes.
fn full(requests: &mut Requests) {
    let random = &mut Random::new(1805);
    for (count, algorithm) in (0..=300).chain(edges()).flat_map(|count| KNOWN.map(|algorithm| (count, algorithm))) {
        for entry in BY_VALUE {
            requests.ask(entry, &[number(algorithm), bytes(&random.bytes(count))]);
        }
        for entry in INTO {
            requests.ask(entry, &[number(algorithm), bytes(&random.bytes(count)), bytes(&random.bytes(32))]);
        }
    }
    for (count, algorithm) in [10_000, 65_535, 65_536, 65_537, 100_000, 131_000].into_iter().flat_map(|count| KNOWN.map(|one| (count, one)))
    {
        for entry in BY_VALUE {
            requests.ask(entry, &[number(algorithm), bytes(&random.bytes(count))]);
        }
    }
    // Every number of 16 bits, and each power of two with what is known: two of them have a hash.
    let powers = (0..64).flat_map(|bit| KNOWN.map(|known| known ^ 1 << bit));
    for algorithm in (0..=0xffff).chain(powers).chain(UNKNOWN) {
        requests.ask("digest", &[number(algorithm), bytes(b"abc")]);
    }
    for (entry, _, _) in STEPS {
        for (block, schedule) in [63, 64, 65].into_iter().flat_map(|block| (0..=MOST_WORDS).map(move |schedule| (block, schedule))) {
            requests.ask(entry, &[bytes(&random.hash()), bytes(&random.bytes(block)), repeated(4 * schedule, random.byte())]);
        }
    }
}

// Random requests.

/// Short, around a block, long, or very long.
fn random_input_word(random: &mut Random) -> Word {
    let byte = random.byte();
    match random.below(400) {
        0..=149 => {
            let count = random.below(130) as usize;
            bytes(&random.bytes(count))
        }
        150..=299 => {
            let count = (64 * random.between(1, 6) + 3 - random.below(14)) as usize;
            bytes(&random.bytes(count))
        }
        300..=359 => {
            let count = random.below(2_000) as usize;
            bytes(&random.bytes(count))
        }
        360..=363 => {
            let count = random.below(20_000) as usize;
            bytes(&random.bytes(count))
        }
        364..=397 => repeated(random.below(5_000) as usize, byte),
        398 => repeated(random.below(1_000_000) as usize, byte),
        _ => bytes(&[]),
    }
}

/// Both known numbers about equally, and some that no hash has.
fn random_algorithm(random: &mut Random) -> Word {
    number(algorithm::mostly(algorithm::some(random), random))
}

fn random_input(random: &mut Random) -> Vec<Word> {
    vec![random_algorithm(random), random_input_word(random)]
}

fn random_lent(random: &mut Random) -> Word {
    let count = match random.below(8) {
        0 => random.below(32),
        1..=4 => 32,
        5 => 33,
        _ => random.between(33, 200),
    };
    bytes(&random.bytes(count as usize))
}

fn random_into(random: &mut Random) -> Vec<Word> {
    vec![random_algorithm(random), random_input_word(random), random_lent(random)]
}

fn random_hash_word(random: &mut Random) -> Word {
    if random.one_in(20) {
        let count = *random.pick(&[0, 1, 31, 33, 64]);
        return bytes(&random.bytes(count));
    }
    bytes(&random.hash())
}

fn random_node(random: &mut Random) -> Vec<Word> {
    vec![random_algorithm(random), random_hash_word(random), random_hash_word(random)]
}

/// For a step that works in so many words.
fn random_step(words: usize, random: &mut Random) -> Vec<Word> {
    let block = if random.one_in(6) { random.below(140) } else { 64 };
    let schedule = match random.below(12) {
        0 => random.below(520),
        1 => *random.pick(&[63, 64, 65, 131, 132, 133, 256]) * 4,
        _ => 4 * words as u64,
    };
    let schedule = if random.one_in(10) { schedule } else { schedule & !3 };
    vec![random_hash_word(random), bytes(&random.bytes(block as usize)), bytes(&random.bytes(schedule as usize))]
}

#[cfg(test)]
mod tests {
    use super::*;
    use crate::requests::{answer, layer};

    fn ask(line: &str) -> String {
        String::from_utf8(answer(&[layer("hash").unwrap()], line.as_bytes())).unwrap()
    }

    #[test]
    fn lent_buffers() {
        let digest = "ba7816bf8f01cfea414140de5dae2223b00361a396177a9cb410ff61f20015ad";
        let sm3 = "66c7f0f462eeedd9d1f2d46bdc10e4e24167c4875cf2f7a2297da02b8f4ba8e0";
        let zeros = "00".repeat(32);
        assert_eq!(ask("digest 0 x616263"), format!("0 x{digest}\n"));
        assert_eq!(ask("digest 240 x616263"), format!("0 x{sm3}\n"));
        assert_eq!(ask("digest 1 x616263"), format!("16 x{zeros}\n"));
        assert_eq!(ask("digest_into 0 x616263 32*00"), format!("0 x{digest}\n"));
        assert_eq!(ask("digest_into 240 x616263 34*07"), format!("0 x{sm3}0707\n"));
        assert_eq!(ask("digest_into 240 x616263 31*07"), format!("9 x{}\n", "07".repeat(31)));
        assert_eq!(ask("digest_into 241 x616263 31*07"), format!("16 x{}\n", "07".repeat(31)));
        assert_eq!(ask("digest_into 256 x616263 33*07"), format!("16 x{}\n", "07".repeat(33)));
        assert_eq!(ask("leaf 0 x"), "0 x6e340b9cffb37a989ca544e6bb780a2c78901d3fb33738768511a30617afa01d\n");
        assert_eq!(ask("leaf 240 x"), "0 x2daef60e7a0b8f5e024c81cd2ab3109f2b4f155cf83adeb2ae5532f74a157fdf\n");
        assert_eq!(ask("node 240 32*00 32*00"), "0 x5ec1420cd14f308650cb6ac8dcd6bab89589f1f3dced7c1a17345f269e605291\n");
        assert_eq!(ask("node 496 32*00 32*00"), format!("16 x{zeros}\n"));
    }

    #[test]
    fn second_hash_cases_have_their_numbers() {
        let all = second_hash_cases();
        for (refusal, start, (name, words)) in &all {
            let mut requests = Vec::new();
            Requests::new(&mut requests).ask(name, words);
            let answer = ask(String::from_utf8(requests).unwrap().trim_end());
            assert!(answer.starts_with(&format!("{refusal} x{start}")), "{name} {words:?}: {answer}");
        }
        for (entry, _) in [("digest", 0), ("leaf", 0), ("node", 0), ("digest_into", 9), ("leaf_into", 9)] {
            assert!(all.iter().filter(|(refusal, _, asked)| *refusal == 16 && asked.0 == entry).count() >= UNKNOWN.len());
        }
    }

    /// 16 before 1, which no request reaches: see `hashed`.
    #[test]
    fn inputs_that_are_too_long() {
        let long = vec![0; LONGEST_INPUT + 1];
        for (length, longest, over) in [(LONGEST_INPUT + 1, LONGEST_INPUT, digest as Over), (LONGEST_ITEM + 1, LONGEST_ITEM, leaf_hash)] {
            assert_eq!(UNKNOWN.map(|number| hashed(number, &long[..length], longest, over)), UNKNOWN.map(|_| Err(16)));
            assert_eq!(KNOWN.map(|number| hashed(number, &long[..length], longest, over)), [Err(1); 2]);
            assert!(KNOWN.iter().all(|number| hashed(*number, &long[..length - 1], longest, over).is_ok()));
        }
    }

    #[test]
    fn refused_steps() {
        let state = "05".repeat(32);
        for (entry, words) in [("step", 64), ("sm3_step", 132)] {
            assert_eq!(ask(&format!("{entry} 32*05 63*00 12*01")), format!("5 x{state} x{}\n", "01".repeat(12)));
            assert_eq!(ask(&format!("{entry} 32*05 64*00 12*01")), format!("9 x{state} x{}\n", "01".repeat(12)));
            assert_eq!(ask(&format!("{entry} 32*05 65*00 {}*01", 4 * words)), format!("5 x{state} x{}\n", "01".repeat(4 * words)));
            for words in [words - 1, words + 1, 196 - words] {
                assert_eq!(ask(&format!("{entry} 32*05 64*00 {}*01", 4 * words)), format!("9 x{state} x{}\n", "01".repeat(4 * words)));
            }
        }
        let block = format!("x61626380{}00000018", "00".repeat(56));
        let initial = "x7380166f4914b2b9172442d7da8a0600a96f30bc163138aae38dee4db0fb0e4e";
        let answer = ask(&format!("sm3_step {initial} {block} 528*ff"));
        let digest = "66c7f0f462eeedd9d1f2d46bdc10e4e24167c4875cf2f7a2297da02b8f4ba8e0";
        let words: Vec<&str> = answer.trim_end().split(' ').collect();
        assert_eq!(words[..2], ["0", &format!("x{digest}")]);
        let word = |at: usize| &words[2][1 + 8 * at..9 + 8 * at];
        assert_eq!([0, 15, 16, 67, 68, 131].map(word), ["61626380", "00000018", "9092e200", "b99c0545", "61626380", "49e260d5"]);
        assert_eq!(words[2].len(), 1 + 8 * 132);
    }
}
