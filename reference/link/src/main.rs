//! link [COUNT [SEED]]: every entry of the proved static library beside the
//! reference, the number and all lent memory compared: the ends of every
//! range, then COUNT random verdicts, a fiftieth of it of mta_carry and of
//! mta_compare, and a fifth of it of each other entry.

mod carry;
mod compare;
mod first;
mod hash;
mod item;
mod tree;

use compare::Tally;
use reference::random::Random;
use std::process::ExitCode;

fn main() -> ExitCode {
    let mut arguments = std::env::args().skip(1).map(|word| word.parse().expect("a number"));
    let count: u64 = arguments.next().unwrap_or(200_000);
    let random = &mut Random::new(arguments.next().unwrap_or(1));
    let tally = &mut Tally::default();
    for edges in [hash::edges, tree::edges, carry::edges, item::edges, first::edges] {
        edges(tally, random);
    }
    for _ in 0..count {
        tree::some_verdict(tally, random);
    }
    for _ in 0..count / 5 {
        for some in [hash::some, tree::some, item::some, first::some] {
            some(tally, random);
        }
    }
    for _ in 0..count / 50 {
        carry::some(tally, random);
    }
    if std::mem::take(tally).end() {
        ExitCode::SUCCESS
    } else {
        ExitCode::FAILURE
    }
}
