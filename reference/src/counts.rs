//! Every count of nodes: three requests for each of five million pairs of
//! numbers, in the papers' range and out of it, and each answer compared with
//! the recursive count as it comes.

use crate::pipe::{compare_all, Question};
use crate::proofs::next_to_powers;
use crate::random::Random;
use crate::yields::{inclusion_count, subproof_count};
use std::io::{self, Write};

/// All pairs up to this number.
const SMALL: u64 = 2_000;
/// So many random pairs.
const RANDOM: u64 = 1_000_000;

/// What is asked of a pair: the entry, its words behind the pair, and the count.
type Asked = (&'static str, &'static str, fn(u64, u64) -> usize);
static ASKED: [Asked; 3] = [
    ("inclusion_count", "", inclusion_count),
    ("subproof_count", " 1", |m, n| subproof_count(m, n, true)),
    ("subproof_count", " 0", |m, n| subproof_count(m, n, false)),
];

/// All small pairs, all pairs of numbers next to a power of two, and random
/// ones, half of them of any length in bits.
fn pairs(seed: u64) -> impl Iterator<Item = (u64, u64)> + Clone {
    let small = (0..=SMALL).flat_map(|m| (0..=SMALL).map(move |n| (m, n)));
    let near = next_to_powers(2);
    let next = near.clone().into_iter().flat_map(move |m| near.clone().into_iter().map(move |n| (m, n)));
    let mut random = Random::new(seed);
    let any = (0..RANDOM).map(move |_| match random.one_in(2) {
        true => (random.draw(), random.draw()),
        false => (random.draw() >> random.below(64), random.draw() >> random.below(64)),
    });
    small.chain(next).chain(any)
}

/// One of what is asked of a pair.
struct Count(u64, u64, &'static Asked);

impl Question for Count {
    fn request(&self, line: &mut Vec<u8>) {
        let Count(m, n, (name, words, _)) = self;
        writeln!(line, "{name} {m} {n}{words}").unwrap();
    }

    fn answer(&self, line: &mut Vec<u8>) {
        let Count(m, n, (_, _, count)) = self;
        writeln!(line, "{}", count(*m, *n)).unwrap();
    }
}

fn questions(pairs: impl Iterator<Item = (u64, u64)> + Clone) -> impl Iterator<Item = Count> + Clone {
    pairs.flat_map(|(m, n)| ASKED.iter().map(move |asked| Count(m, n, asked)))
}

/// What was answered otherwise goes to `out`, and at the end `N passed, M failed`.
pub fn counts(program: &str, seed: u64, out: &mut dyn Write) -> io::Result<()> {
    compare_all(program, questions(pairs(seed)), out)
}

#[cfg(test)]
mod tests {
    use super::*;
    use crate::requests::answer_to;

    const PAIRS: [(u64, u64); 4] = [(0, 0), (6, 7), (9, 7), (3, u64::MAX)];

    /// The requests are those of the layer, which answers them alike.
    #[test]
    fn requests_and_answers() {
        let (mut requests, mut answers) = (Vec::new(), Vec::new());
        for question in questions(PAIRS.into_iter()) {
            question.request(&mut requests);
            question.answer(&mut answers);
        }
        assert_eq!(answers, b"0\n0\n1\n2\n3\n3\n2\n3\n3\n64\n65\n65\n");
        assert_eq!(requests.split_inclusive(|byte| *byte == b'\n').flat_map(answer_to).collect::<Vec<u8>>(), answers);
    }

    #[test]
    fn all_pairs() {
        let near = next_to_powers(2);
        let small = (SMALL + 1).pow(2) as usize;
        let count = small + near.len().pow(2) + RANDOM as usize;
        assert_eq!(pairs(1).count(), count);
        let mut after = pairs(1).skip(small - 1);
        assert_eq!([after.next(), after.next()], [Some((SMALL, SMALL)), Some((0, 0))]);
        assert!(pairs(1).skip(count - 1000).eq(pairs(1).skip(count - 1000)), "a seed repeats its pairs");
        assert!(!pairs(1).skip(count - 1000).eq(pairs(2).skip(count - 1000)));
    }
}
