//! Requests sent through a pipe while the answers are compared as they come:
//! for runs of millions, of which no list is kept.

use std::io::{self, BufRead, BufReader, BufWriter, Error, Read, Write};
use std::process::{Command, Stdio};
use std::sync::mpsc::channel;
use std::thread;
use std::time::Duration;

/// So many programs are asked at once, each a part of the questions: the program
/// takes longer to answer than we to compare.
const PARTS: usize = 2;
/// The bytes that are written, and read if there are so many, at once.
const BLOCK: usize = 1 << 16;
/// A line of more bytes is no answer to any of these questions.
const LONGEST_ANSWER: u64 = 4_096;
const PATIENCE: Duration = Duration::from_secs(300);

/// A request and the answer that it must get: lines, each with its line feed.
pub trait Question {
    fn request(&self, line: &mut Vec<u8>);
    fn answer(&self, line: &mut Vec<u8>);
}

fn write_requests(questions: impl Iterator<Item = impl Question>, mut out: impl Write) -> io::Result<()> {
    let mut line = Vec::new();
    for question in questions {
        line.clear();
        question.request(&mut line);
        out.write_all(&line)?;
    }
    out.flush()
}

/// Answers that gather before they are read: to be woken for each costs both
/// sides more than the answer.
struct Gathered<R>(R);

impl<R: Read> Read for Gathered<R> {
    fn read(&mut self, block: &mut [u8]) -> io::Result<usize> {
        thread::sleep(Duration::from_millis(2));
        self.0.read(block)
    }
}

#[derive(Default)]
struct Tally {
    passed: u64,
    failed: u64,
    /// The first few that failed.
    shown: Vec<String>,
}

impl Tally {
    fn fail(&mut self, what: impl FnOnce() -> String) {
        self.failed += 1;
        if self.shown.len() < 5 {
            self.shown.push(what());
        }
    }
}

fn shown(line: &[u8]) -> String {
    String::from_utf8_lossy(line).trim_end().to_string()
}

fn request_of(question: &impl Question) -> String {
    let mut line = Vec::new();
    question.request(&mut line);
    shown(&line)
}

/// One answer for each question: none may be wrong, be missing or be left over.
fn compare(questions: impl Iterator<Item = impl Question>, mut answers: impl BufRead) -> Tally {
    let mut tally = Tally::default();
    let (mut answer, mut expected) = (Vec::new(), Vec::new());
    let mut next = |answer: &mut Vec<u8>| {
        answer.clear();
        answers.by_ref().take(LONGEST_ANSWER).read_until(b'\n', answer).is_ok_and(|length| length > 0)
    };
    for question in questions {
        if !next(&mut answer) {
            tally.fail(|| format!("{}: no answer", request_of(&question)));
            return tally;
        }
        expected.clear();
        question.answer(&mut expected);
        if answer == expected {
            tally.passed += 1;
        } else {
            tally.fail(|| format!("{}: answered {:?}, expected {:?}", request_of(&question), shown(&answer), shown(&expected)));
        }
    }
    if next(&mut answer) {
        tally.fail(|| "more than an answer for each request".to_string());
    }
    tally
}

/// Starts the program and asks it the questions.
fn ask<Q: Question>(program: &str, questions: impl Iterator<Item = Q> + Clone + Send + 'static) -> io::Result<Tally> {
    let mut child = Command::new(program).stdin(Stdio::piped()).stdout(Stdio::piped()).spawn()?;
    let (input, output) = (child.stdin.take().unwrap(), child.stdout.take().unwrap());
    let asked = questions.clone();
    // What cannot be written is not answered either: nobody waits for this thread.
    thread::spawn(move || write_requests(asked, BufWriter::with_capacity(BLOCK, input)));
    let (sender, receiver) = channel();
    thread::spawn(move || sender.send(compare(questions, BufReader::with_capacity(BLOCK, Gathered(output)))));
    let mut tally = receiver.recv_timeout(PATIENCE).unwrap_or_else(|_| {
        let mut tally = Tally::default();
        tally.fail(|| format!("no end of the answers in {} s", PATIENCE.as_secs()));
        tally
    });
    if tally.failed > 0 {
        child.kill()?;
    }
    let status = child.wait()?;
    if tally.failed == 0 && !status.success() {
        tally.fail(|| format!("{program} ended with {status}"));
    }
    Ok(tally)
}

/// What was answered otherwise goes to `out`, and at the end `N passed, M failed`.
pub fn compare_all<Q: Question>(
    program: &str,
    questions: impl Iterator<Item = Q> + Clone + Send + 'static,
    out: &mut dyn Write,
) -> io::Result<()> {
    let tallies: io::Result<Vec<Tally>> = thread::scope(|scope| {
        let parts = (0..PARTS).map(|part| {
            let questions = questions.clone().skip(part).step_by(PARTS);
            scope.spawn(move || ask(program, questions))
        });
        let parts: Vec<_> = parts.collect();
        parts.into_iter().map(|part| part.join().expect("a thread that asks")).collect()
    });
    let tallies = tallies?;
    for line in tallies.iter().flat_map(|tally| &tally.shown) {
        writeln!(out, "{line}")?;
    }
    let passed: u64 = tallies.iter().map(|tally| tally.passed).sum();
    let failed: u64 = tallies.iter().map(|tally| tally.failed).sum();
    writeln!(out, "{passed} passed, {failed} failed")?;
    out.flush()?;
    if failed > 0 {
        return Err(Error::other(format!("{program} does not answer all as it must")));
    }
    Ok(())
}

#[cfg(test)]
mod tests {
    use super::*;
    use crate::requests::answer_to;

    /// A request of the program's own, answered by the second program.
    #[derive(Clone, Copy)]
    struct Line(&'static str);

    impl Question for Line {
        fn request(&self, line: &mut Vec<u8>) {
            line.extend(self.0.bytes());
            line.push(b'\n');
        }

        fn answer(&self, line: &mut Vec<u8>) {
            let mut request = Vec::new();
            self.request(&mut request);
            line.extend(answer_to(&request));
        }
    }

    const LINES: [Line; 4] =
        [Line("inclusion_count 6 7"), Line("subproof_count 3 7 1"), Line("newer x x"), Line("subproof_count 3 18446744073709551615 0")];

    fn compared(answers: &[Vec<u8>]) -> (u64, u64) {
        let tally = compare(LINES.into_iter(), &answers.concat()[..]);
        assert_eq!(tally.shown.len() as u64, tally.failed.min(5));
        (tally.passed, tally.failed)
    }

    #[test]
    fn comparison_can_fail() {
        let mut requests = Vec::new();
        write_requests(LINES.into_iter(), &mut requests).unwrap();
        let right: Vec<Vec<u8>> = requests.split_inclusive(|byte| *byte == b'\n').map(answer_to).collect();
        assert_eq!(right.concat(), b"2\n4\nx\n65\n");
        assert_eq!(compared(&right), (4, 0));

        let with = |at: usize, answer: &[u8]| [&right[..at], &[answer.to_vec()], &right[at + 1..]].concat();
        for wrong in ["3\n", "02\n", "2 \n", "?\n", "\n"] {
            assert_eq!(compared(&with(0, wrong.as_bytes())), (3, 1), "{wrong:?}");
        }
        // A line that is cut off, and one that is too long.
        assert_eq!(compared(&with(3, b"65")), (3, 1));
        assert_eq!(compared(&with(3, &[b'6'; 10_000])), (3, 2));
        // One is missing: the last, the first, all.
        assert_eq!(compared(&right[..3]), (3, 1));
        assert_ne!(compared(&right[1..]).1, 0);
        assert_eq!(compared(&[]), (0, 1));
        // One is left over.
        assert_eq!(compared(&[&right[..], &[b"65\n".to_vec()]].concat()), (4, 1));
        assert_eq!(compared(&[&right[..], &[b"\n".to_vec()]].concat()), (4, 1));
    }

    /// Programs that do not read, that answer something else, and that never end.
    #[test]
    fn other_programs_fail() {
        for program in ["true", "cat", "yes"] {
            let tally = ask(program, LINES.into_iter()).unwrap();
            assert!(tally.passed == 0 && tally.failed > 0, "{program}");
            let mut said = Vec::new();
            assert!(compare_all(program, LINES.into_iter(), &mut said).is_err());
            assert!(String::from_utf8(said).unwrap().lines().last().unwrap().starts_with("0 passed, "), "{program}");
        }
        assert!(ask("no such program", LINES.into_iter()).is_err());
    }
}
