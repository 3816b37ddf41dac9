//! Ours beside an earlier library, in turn, where the build was given one: SHA-256 by its number
//! beside SHA-256 without one, each verdict to its bare node hashes, and the count of nodes alone.
//! That is a refusal with 7 less one with 6: the checks before the count are the same.

use crate::contestants::{self, Sha256};
use crate::library::{before, Library, OURS};
use crate::pairs::{alternating, bare_nodes, needed, time, verdicts, TURNS, TURNS_OF_ROOT, TURN_NANOSECONDS};
use crate::{best, check, input, jobs, ratio, Job};
use reference::algorithm::SHA256;
use reference::proofs::{made_consistency, made_inclusion, Proof};
use reference::random::Random;
use reference::tree::LARGEST_SIZE;
use std::hint::black_box;

/// The time that the turns of a long job should take.
const ALL_NANOSECONDS: f64 = 3e9;

/// What is wanted of the earlier library's time divided by ours.
const WANTED: &str = "at least 0.99";

/// The turns of all jobs, which take turns. A long job has fewer.
fn in_turn<const COUNT: usize>(mut jobs: [&mut dyn FnMut(); COUNT]) -> [Vec<f64>; COUNT] {
    let mut all = [(); COUNT].map(|()| Vec::new());
    let one: Vec<f64> = jobs.iter_mut().map(|job| best(&[0; 3].map(|_| time(*job, 1)))).collect();
    let turns = ((ALL_NANOSECONDS / best(&one)) as usize).clamp(TURNS_OF_ROOT, TURNS);
    for _ in 0..turns {
        for (job, (one, all)) in jobs.iter_mut().zip(one.iter().zip(&mut all)) {
            all.push(time(*job, ((TURN_NANOSECONDS / one) as usize).max(1)));
        }
    }
    all
}

/// The best turns of all jobs.
fn best_of<const COUNT: usize>(jobs: [&mut dyn FnMut(); COUNT]) -> [f64; COUNT] {
    in_turn(jobs).map(|times| best(&times))
}

/// The proof without its path, and one that is refused at the last check before the count.
fn refused(proof: &Proof) -> [Proof; 2] {
    let [_, size] = proof.numbers;
    let short = Proof { path: Vec::new(), ..proof.clone() };
    let past = Proof { numbers: [size, size - u64::from(!proof.is_inclusion)], ..short.clone() };
    [(short, 7), (past, 6)].map(|(proof, number)| {
        assert_eq!(OURS.judge(&proof), number);
        proof
    })
}

fn count_alone(name: &str, proof: &Proof, library: Library) {
    let [short, past] = refused(proof);
    // Past the largest size of the earlier library there is nothing to compare.
    if library.judge(&short) == 6 {
        return;
    }
    let judge = |library: Library, proof: &Proof| {
        black_box(library.judge(black_box(proof)));
    };
    let [ours, our_checks, other, other_checks] =
        best_of([&mut || judge(OURS, &short), &mut || judge(OURS, &past), &mut || judge(library, &short), &mut || judge(library, &past)]);
    let (ours, other) = (ours - our_checks, other - other_checks);
    println!("{name:<40}{ours:>12.1}{other:>12.1}{:>14.3}", ours / other);
}

/// One job, done again and again.
fn worker(contestant: Sha256, job: Job) -> Box<dyn FnMut()> {
    let mut out = [0; 32];
    match job {
        Job::Step => {
            let (mut state, mut words) = ([1; 8], [0; 64]);
            let block: [u8; 64] = input(64).try_into().unwrap();
            Box::new(move || (contestant.step)(black_box(&mut state), black_box(&block), black_box(&mut words)))
        }
        Job::Digest(count) => {
            let input = input(count);
            Box::new(move || (contestant.digest)(black_box(&input), black_box(&mut out)))
        }
        Job::Leaf(count) => {
            let item = input(count);
            Box::new(move || (contestant.leaf)(black_box(&item), black_box(&mut out)))
        }
        Job::Node => {
            let (left, right) = ([7; 32], [8; 32]);
            Box::new(move || (contestant.node)(black_box(&left), black_box(&right), black_box(&mut out)))
        }
    }
}

fn print_hashes(earlier: Sha256) {
    check(&earlier, &contestants::PLAIN_RUST);
    println!("{:<46}{:>12}{:>12}{:>20}  wanted", "SHA-256 by number", "ours", "before", "before / ours");
    for (name, job) in jobs() {
        let [ours, other] = in_turn([&mut *worker(contestants::OURS, job), &mut *worker(earlier, job)]);
        println!(
            "{:<46}{:>12.1}{:>12.1}{:>20}  {WANTED}",
            format!("{name}, against before"),
            best(&ours),
            best(&other),
            ratio(&other, &ours)
        );
    }
    println!();
}

pub fn print_table() {
    let (Some(library), Some(earlier)) = (before(), contestants::before()) else { return };
    let random = &mut Random::new(7);
    println!();
    println!("beside the library given as MTA_BEFORE; nanoseconds of the best of {TURNS} turns, of 1 MiB fewer");
    println!();
    print_hashes(earlier);
    println!("{:<40}{:>12}{:>12}{:>14}", "count of nodes alone", "ours", "before", "ours / before");
    for (name, size) in [("2^10", 1 << 10), ("2^32", 1 << 32), ("2^32 - 1", (1 << 32) - 1), ("2^64 - 1", LARGEST_SIZE)] {
        count_alone(&format!("inclusion at {name}"), &made_inclusion(SHA256, alternating(size), size, random), library);
        count_alone(&format!("consistency to {name}"), &made_consistency(SHA256, alternating(size), size, random), library);
        count_alone(&format!("consistency from 1 to {name}"), &made_consistency(SHA256, 1, size, random), library);
    }
    println!();
    print!("{:<46}{:>12}{:>12}{:>14}{:>14}", "verdict", "ours", "before", "ours / bare", "before / bare");
    println!("{:>20}  wanted", "before / ours");
    for (name, proof) in verdicts(random).into_iter().filter(|(_, proof)| library.judge(proof) != 6) {
        let hashes = needed(&proof);
        let [ours, other, bare] = in_turn([
            &mut || assert_eq!(OURS.judge(black_box(&proof)), 0),
            &mut || assert_eq!(library.judge(black_box(&proof)), 0),
            &mut || bare_nodes(hashes),
        ]);
        let [best_ours, best_other, best_bare] = [&ours, &other, &bare].map(|times| best(times));
        print!("{:<46}{best_ours:>12.1}{best_other:>12.1}", format!("{name}, against before"));
        print!("{:>14.3}{:>14.3}", best_ours / best_bare, best_other / best_bare);
        println!("{:>20}  {WANTED}", ratio(&other, &ours));
    }
}
