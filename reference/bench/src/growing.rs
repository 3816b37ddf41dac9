//! The growing tree, by the program `pace`, since the library has none: each way
//! beside the node hashes that it needs, which `pace` times too, and beside a frontier in Rust with the same hash code.

use crate::pairs::node;
use crate::{best, ratio};
use reference::growing::LEVELS;
use reference::pace;
use reference::tree::Hash;
use std::hint::black_box;
use std::io::{Read, Write};
use std::process::{Child, ChildStdin, ChildStdout, Command, Stdio};
use std::time::Instant;

const TURNS: usize = 21;
const PROGRAM: &str = concat!(env!("CARGO_MANIFEST_DIR"), "/../../crates/pace/out/pace");

/// The program, asked for one job at a time.
struct Pace {
    child: Child,
    ask: ChildStdin,
    answer: ChildStdout,
}

impl Pace {
    fn start() -> Pace {
        let mut child = Command::new(PROGRAM).stdin(Stdio::piped()).stdout(Stdio::piped()).spawn().expect(PROGRAM);
        let (ask, answer) = (child.stdin.take().unwrap(), child.stdout.take().unwrap());
        Pace { child, ask, answer }
    }

    fn job(&mut self, name: u8) -> Hash {
        let mut hash = [0; 32];
        self.ask.write_all(&[name]).expect("pace");
        self.answer.read_exact(&mut hash).expect("pace");
        hash
    }

    fn end(mut self) {
        drop(self.ask);
        let _ = self.child.wait();
    }
}

/// The hash at level i stands for 2^i leaves, where bit i of the count is one.
struct Frontier {
    hashes: [Hash; LEVELS],
    count: u64,
}

impl Frontier {
    const NEW: Frontier = Frontier { hashes: [[0; 32]; LEVELS], count: 0 };

    fn add(&mut self, leaf: &Hash) {
        let (mut level, mut hash) = (0, *leaf);
        while self.count >> level & 1 == 1 {
            hash = node(&self.hashes[level], &hash);
            level += 1;
        }
        self.hashes[level] = hash;
        self.count += 1;
    }

    /// Of a leaf or more.
    fn root(&self) -> Hash {
        let lowest = self.count.trailing_zeros() as usize;
        let mut right = self.hashes[lowest];
        for (level, left) in self.hashes.iter().enumerate().skip(lowest + 1) {
            if self.count >> level & 1 == 1 {
                right = node(left, &right);
            }
        }
        right
    }
}

fn last_root(leaves: &[Hash]) -> Hash {
    let mut frontier = Frontier::NEW;
    leaves.iter().for_each(|leaf| frontier.add(leaf));
    frontier.root()
}

fn all_roots(leaves: &[Hash]) -> Hash {
    let (mut frontier, mut all) = (Frontier::NEW, [0; 32]);
    for leaf in leaves {
        frontier.add(leaf);
        all = pace::xor(all, frontier.root());
    }
    all
}

/// All contestants give the reference's answers, or nothing is timed.
fn check(ours: &mut Pace, leaves: &[Hash]) {
    for name in *b"haer" {
        assert_eq!(Some(ours.job(name)), pace::answer(name, leaves), "pace: {}", name as char);
    }
    assert_eq!(Some(last_root(leaves)), pace::answer(b'e', leaves));
    assert_eq!(Some(all_roots(leaves)), pace::answer(b'r', leaves));
}

/// Nanoseconds a leaf in each turn: of the program's four jobs, then of the frontier
/// without the roots between and with them.
fn times(ours: &mut Pace, leaves: &[Hash]) -> [Vec<f64>; 6] {
    let mut all = [(); 6].map(|()| Vec::new());
    for _ in 0..TURNS {
        let mut place = 0;
        let mut turn = |job: &mut dyn FnMut() -> Hash| {
            let start = Instant::now();
            black_box(job());
            all[place].push(start.elapsed().as_nanos() as f64 / leaves.len() as f64);
            place += 1;
        };
        for name in *b"haer" {
            turn(&mut || ours.job(name));
        }
        turn(&mut || last_root(black_box(leaves)));
        turn(&mut || all_roots(black_box(leaves)));
    }
    all
}

pub fn print_table() {
    let leaves = pace::leaves();
    let count = leaves.len();
    let mut ours = Pace::start();
    check(&mut ours, &leaves);
    let [hashes, at_once, one_by_one, with_roots, frontier, frontier_with_roots] = times(&mut ours, &leaves);
    ours.end();

    println!();
    println!("{TURNS} turns of each; nanoseconds of the best turn, for each of {count} leaves");
    println!("ratio, of the best turns (and the median of each turn's): our time / the time of the bare node hashes,");
    println!("the time of a frontier in Rust / ours");
    println!();
    print!("{:<30}{:>14}{:>14}{:>14}", "", "ours", "node hashes", "frontier");
    println!("{:>18}{:>18}  target", "ours / hashes", "frontier / ours");
    // A root needs a node hash for each bit of the count that is one, but the lowest.
    let roots: usize = (1..=count).map(|n| n.count_ones() as usize - 1).sum();
    let adding = count - 1;
    for (name, ours, needed, other, most) in [
        ("growing, in one call", at_once, adding, &frontier, 1.25),
        ("growing, one by one", one_by_one, adding, &frontier, 1.5),
        ("growing, root after each", with_roots, adding + roots, &frontier_with_roots, 2.0),
    ] {
        let bare: Vec<f64> = hashes.iter().map(|time| time * needed as f64 / count as f64).collect();
        print!("{name:<30}{:>14.1}{:>14.1}{:>14.1}", best(&ours), best(&bare), best(other));
        println!("{:>18}{:>18}  at most {most:.2}", ratio(&ours, &bare), ratio(other, &ours));
    }
}
