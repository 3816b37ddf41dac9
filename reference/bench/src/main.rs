//! Times the proved hashes beside the plain algorithms in C (gcc -O3) and Rust
//! (release), and OpenSSL: one machine, one run, the contestants in turn.
//! A ratio is the other's time divided by ours: above 1, ours is faster. Then the
//! tree and the items, each beside one other way, the growing tree, and SHA-256 and the
//! verdicts beside those of an earlier library where the build was given one.

mod before;
mod contestants;
mod growing;
mod library;
mod openssl;
mod pairs;

use contestants::{Contestant, OURS, PLAIN_C, PLAIN_RUST};
use contestants::{OUR_SM3, PLAIN_C_SM3, PLAIN_RUST_SM3, SCALAR_C_SM3, SCALAR_TABLE_C_SM3, TABLE_C_SM3};
use std::hint::black_box;
use std::io::{BufRead, BufReader, Write};
use std::process::{Child, ChildStdin, ChildStdout, Command, Stdio};
use std::time::Instant;

/// Turns of each contestant, and the time one turn should take.
const TURNS: usize = 101;
const TURN_NANOSECONDS: f64 = 400_000.0;

#[derive(Clone, Copy)]
enum Job {
    Step,
    Digest(usize),
    Leaf(usize),
    Node,
}

const SHORT: [usize; 8] = [0, 1, 32, 55, 56, 64, 100, 118];

fn sm3_jobs() -> Vec<(String, Job)> {
    let jobs = [("block step", Job::Step), ("node hash", Job::Node), ("digest 1 MiB", Job::Digest(1 << 20)), ("leaf 100", Job::Leaf(100))];
    jobs.map(|(name, job)| (format!("SM3 {name}"), job)).into()
}

fn jobs() -> Vec<(String, Job)> {
    let mut jobs = vec![
        ("block step".to_string(), Job::Step),
        ("digest 1 MiB".to_string(), Job::Digest(1 << 20)),
        ("node hash".to_string(), Job::Node),
    ];
    jobs.extend(SHORT.map(|count| (format!("digest {count}"), Job::Digest(count))));
    jobs.extend(SHORT.map(|count| (format!("leaf {count}"), Job::Leaf(count))));
    jobs
}

fn input(count: usize) -> Vec<u8> {
    (0..count).map(|i| (i * 31 + i / 251) as u8).collect()
}

/// Does a job so many times; nanoseconds of all of them.
fn time<const WORDS: usize>(contestant: &Contestant<WORDS>, job: Job, times: usize) -> f64 {
    let mut out = [0; 32];
    match job {
        Job::Step => {
            let mut state = [1; 8];
            let block: [u8; 64] = input(64).try_into().unwrap();
            let mut schedule = [0; WORDS];
            let start = Instant::now();
            for _ in 0..times {
                (contestant.step)(black_box(&mut state), black_box(&block), black_box(&mut schedule));
            }
            start.elapsed().as_nanos() as f64
        }
        Job::Digest(count) => {
            let input = input(count);
            let start = Instant::now();
            for _ in 0..times {
                (contestant.digest)(black_box(&input), black_box(&mut out));
            }
            start.elapsed().as_nanos() as f64
        }
        Job::Leaf(count) => {
            let item = input(count);
            let start = Instant::now();
            for _ in 0..times {
                (contestant.leaf)(black_box(&item), black_box(&mut out));
            }
            start.elapsed().as_nanos() as f64
        }
        Job::Node => {
            let (left, right) = ([7; 32], [8; 32]);
            let start = Instant::now();
            for _ in 0..times {
                (contestant.node)(black_box(&left), black_box(&right), black_box(&mut out));
            }
            start.elapsed().as_nanos() as f64
        }
    }
}

/// All contestants give the same answers as plain Rust, or nothing is timed.
fn check<const WORDS: usize>(contestant: &Contestant<WORDS>, plain: &Contestant<WORDS>) {
    let (mut out, mut expected) = ([0; 32], [0; 32]);
    for count in (0..300).chain([1 << 20]) {
        let input = input(count);
        (contestant.digest)(&input, &mut out);
        (plain.digest)(&input, &mut expected);
        assert_eq!(out, expected, "{}: digest of {count} bytes", contestant.name);
        (contestant.leaf)(&input, &mut out);
        (plain.leaf)(&input, &mut expected);
        assert_eq!(out, expected, "{}: leaf of {count} bytes", contestant.name);
    }
    (contestant.node)(&[7; 32], &[8; 32], &mut out);
    (plain.node)(&[7; 32], &[8; 32], &mut expected);
    assert_eq!(out, expected, "{}: node", contestant.name);
    let block: [u8; 64] = input(64).try_into().unwrap();
    let (mut state, mut expected) = ([5; 8], [5; 8]);
    let (mut words, mut expected_words) = ([0; WORDS], [0; WORDS]);
    if contestant.is_step_over_the_given {
        (contestant.step)(&mut state, &block, &mut words);
        (plain.step)(&mut expected, &block, &mut expected_words);
        assert_eq!(state, expected, "{}: block step", contestant.name);
    }
}

/// OpenSSL in a process of its own, asked for one turn at a time.
struct OtherProcess {
    child: Child,
    ask: ChildStdin,
    answer: BufReader<ChildStdout>,
}

impl OtherProcess {
    fn start(which: &str, without_hardware: bool) -> OtherProcess {
        let mut command = Command::new(std::env::current_exe().unwrap());
        command.arg(which).stdin(Stdio::piped()).stdout(Stdio::piped());
        if without_hardware {
            // CPUID 7, EBX, bit 29: the SHA instructions.
            command.env("OPENSSL_ia32cap", ":~0x20000000");
        }
        let mut child = command.spawn().expect("cannot start");
        let ask = child.stdin.take().unwrap();
        let answer = BufReader::new(child.stdout.take().unwrap());
        OtherProcess { child, ask, answer }
    }

    fn time(&mut self, job: usize, times: usize) -> f64 {
        writeln!(self.ask, "{job} {times}").expect("other process");
        let mut line = String::new();
        self.answer.read_line(&mut line).expect("other process");
        line.trim().parse().expect("other process")
    }

    fn end(mut self) {
        drop(self.ask);
        let _ = self.child.wait();
    }
}

fn serve<const WORDS: usize>(contestant: &Contestant<WORDS>, plain: &Contestant<WORDS>, jobs: &[(String, Job)]) {
    check(contestant, plain);
    for line in std::io::stdin().lines() {
        let line = line.unwrap();
        let (job, times) = line.split_once(' ').unwrap();
        let (_, job) = jobs[job.parse::<usize>().unwrap()];
        println!("{}", time(contestant, job, times.parse().unwrap()));
    }
}

fn best(times: &[f64]) -> f64 {
    times.iter().copied().fold(f64::INFINITY, f64::min)
}

fn median(times: &[f64]) -> f64 {
    let mut sorted = times.to_vec();
    sorted.sort_by(f64::total_cmp);
    sorted[sorted.len() / 2]
}

fn machine() -> String {
    let info = std::fs::read_to_string("/proc/cpuinfo").unwrap_or_default();
    let model = info.lines().find_map(|line| line.strip_prefix("model name")?.split_once(':').map(|(_, name)| name.trim()));
    model.unwrap_or("unknown machine").to_string()
}

/// Of the best turns, and the median of each turn's.
fn ratio(above: &[f64], below: &[f64]) -> String {
    let turns: Vec<f64> = above.iter().zip(below).map(|(above, below)| above / below).collect();
    format!("{:.3} ({:.3})", best(above) / best(below), median(&turns))
}

/// One hash: ours and the others here, then those in processes of their own. `heads` are the
/// names of all; of those in `ratios` the time is divided by ours. `target`: of which jobs what is wanted.
fn print_hash<const WORDS: usize>(
    here: &[Contestant<WORDS>],
    others: &mut [OtherProcess],
    heads: &[&str],
    ratios: &[usize],
    jobs: &[(String, Job)],
    target: impl Fn(Job) -> &'static str,
) {
    let ratio_heads: Vec<String> = ratios.iter().map(|place| format!("{} / ours", heads[*place])).collect();
    let widths: Vec<usize> = heads.iter().map(|head| 14.max(head.len() + 2)).collect();
    let ratio_widths: Vec<usize> = ratio_heads.iter().map(|head| 20.max(head.len() + 2)).collect();
    print!("{:<18}", "");
    heads.iter().zip(&widths).for_each(|(head, width)| print!("{head:>width$}"));
    ratio_heads.iter().zip(&ratio_widths).for_each(|(head, width)| print!("{head:>width$}"));
    println!();
    for (index, (name, job)) in jobs.iter().enumerate() {
        let one = best(&[0; 5].map(|_| time(&here[1], *job, 3) / 3.0));
        let times = ((TURN_NANOSECONDS / one) as usize).max(1);
        let mut all = vec![Vec::new(); here.len() + others.len()];
        for _ in 0..TURNS {
            for (place, contestant) in here.iter().enumerate() {
                all[place].push(time(contestant, *job, times) / times as f64);
            }
            for (place, other) in others.iter_mut().enumerate() {
                all[here.len() + place].push(other.time(index, times) / times as f64);
            }
        }
        let mut line = format!("{name:<18}");
        all.iter().zip(&widths).for_each(|(times, width)| line += &format!("{:>width$.1}", best(times)));
        ratios.iter().zip(&ratio_widths).for_each(|(place, width)| line += &format!("{:>width$}", ratio(&all[*place], &all[0])));
        println!("{}", format!("{line}  {}", target(*job)).trim_end());
    }
    println!();
}

fn print_sha256() {
    let here = [OURS, PLAIN_C, PLAIN_RUST];
    here.iter().for_each(|contestant| check(contestant, &PLAIN_RUST));
    let mut others = Vec::new();
    if openssl::is_here() {
        others.push(OtherProcess::start("openssl", false));
        others.push(OtherProcess::start("openssl", true));
    }
    let heads = ["ours", "plain C", "plain Rust", "OpenSSL", "no SHA-NI"];
    let heads = &heads[..here.len() + others.len()];
    print_hash(&here, &mut others, heads, &[1, 2], &jobs(), |_| "");
    others.into_iter().for_each(OtherProcess::end);
}

/// SM3, beside plain C without gcc's vectoriser and with it, the constants rotated in the round and in a table.
fn print_sm3() {
    let here = [OUR_SM3, SCALAR_C_SM3, PLAIN_C_SM3, SCALAR_TABLE_C_SM3, TABLE_C_SM3, PLAIN_RUST_SM3];
    here.iter().for_each(|contestant| check(contestant, &PLAIN_RUST_SM3));
    let mut others = Vec::new();
    if openssl::is_sm3_here() {
        others.push(OtherProcess::start("openssl-sm3", false));
    }
    let heads = ["ours", "C, no vector", "C", "C, table, no vector", "C, table", "plain Rust", "OpenSSL"];
    let ratios = [1, 2, 3, 4, 5, 6];
    let (heads, ratios) = (&heads[..here.len() + others.len()], &ratios[..here.len() - 1 + others.len()]);
    print_hash(&here, &mut others, heads, ratios, &sm3_jobs(), |job| match job {
        Job::Step | Job::Node => "at least 1.15",
        _ => "",
    });
    others.into_iter().for_each(OtherProcess::end);
}

fn main() {
    match std::env::args().nth(1).as_deref() {
        Some("openssl") => return serve(&openssl::OPENSSL, &PLAIN_RUST, &jobs()),
        Some("openssl-sm3") => return serve(&openssl::OPENSSL_SM3, &PLAIN_RUST_SM3, &sm3_jobs()),
        _ => (),
    }
    println!("machine: {}", machine());
    println!("{TURNS} turns of each contestant, one after the other; nanoseconds of the best turn");
    println!("ratio: the other's time / ours, of the best turns (and the median of each turn's); above 1, ours is faster");
    println!();
    print_sha256();
    println!("SM3 by its number; plain C by gcc -O3 with the vectoriser off (no vector) and on");
    println!("C: the constants rotated in each round, as the standard prints it; C, table: rotated beforehand, in a table");
    println!();
    print_sm3();
    pairs::print_table();
    growing::print_table();
    before::print_table();
}
