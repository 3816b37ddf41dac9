//! A caller that waits for each answer before it goes on: the program must
//! answer a line when it comes, and go on after a line that is none.

use crate::requests::answer_to;
use crate::words::LONGEST_LINE;
use std::io::{self, BufRead, BufReader, Error, Write};
use std::process::{ChildStdin, Command, Stdio};
use std::sync::mpsc::{channel, Receiver};
use std::time::Duration;

const PATIENCE: Duration = Duration::from_secs(20);

pub fn talk(program: &str) -> io::Result<()> {
    let mut child = Command::new(program).stdin(Stdio::piped()).stdout(Stdio::piped()).spawn()?;
    let mut input = child.stdin.take().unwrap();
    let (sender, answers) = channel();
    let mut output = BufReader::new(child.stdout.take().unwrap());
    std::thread::spawn(move || {
        let mut line = Vec::new();
        while output.read_until(b'\n', &mut line).is_ok_and(|count| count > 0) {
            if sender.send(std::mem::take(&mut line)).is_err() {
                return;
            }
        }
    });
    let result = converse(&mut input, &answers);
    // The end of the input, in the middle of a line.
    let result = result.and_then(|()| {
        input.write_all(b"newer x x")?;
        drop(input);
        expect(b"newer x x", &answers)?;
        match answers.recv_timeout(PATIENCE) {
            Err(std::sync::mpsc::RecvTimeoutError::Disconnected) => Ok(()),
            _ => Err(Error::other("more than an answer for each line, or no end")),
        }
    });
    if result.is_err() {
        child.kill()?;
    }
    let status = child.wait()?;
    result?;
    if status.success() {
        Ok(())
    } else {
        Err(Error::other(format!("{program} ended with {status}")))
    }
}

fn converse(input: &mut ChildStdin, answers: &Receiver<Vec<u8>>) -> io::Result<()> {
    let ask = |line: &[u8], input: &mut ChildStdin| {
        input.write_all(line)?;
        input.flush()?;
        expect(line, answers)
    };
    ask(b"digest 0 x616263\n", input)?;
    ask(b"\n", input)?;
    // A byte at a time.
    for byte in b"newer x01 x02\n" {
        input.write_all(&[*byte])?;
    }
    expect(b"newer x01 x02\n", answers)?;
    // Two lines and the start of a third at once.
    input.write_all(b"leaf 0 x\nnothing\nleaf 240 ")?;
    expect(b"leaf 0 x\n", answers)?;
    expect(b"nothing\n", answers)?;
    input.write_all(b"x00\n")?;
    expect(b"leaf 240 x00\n", answers)?;
    // The longest line, and longer ones, each followed by a request.
    for length in [LONGEST_LINE - 1, LONGEST_LINE, LONGEST_LINE + 1, LONGEST_LINE + 2, 2 * LONGEST_LINE + 2, 1_000_000] {
        let (name, end): (&[u8], &[u8]) = if length % 2 == 0 { (b"digest 0 x", b"\n") } else { (b"digest_into 0 x", b" x\n") };
        let line = [name, &vec![b'7'; length + 1 - name.len() - end.len()], end].concat();
        ask(&line, input)?;
        ask(b"leaf 0 x\n", input)?;
    }
    // Lines that fill the text more than once, in one go.
    let lines = b"leaf 0 1000*61\n".repeat(60_000);
    std::thread::scope(|scope| {
        let written = scope.spawn(|| input.write_all(&lines));
        for _ in 0..60_000 {
            expect(b"leaf 0 1000*61\n", answers)?;
        }
        written.join().expect("a thread that writes")
    })
}

/// The next answer is the one to this line.
fn expect(line: &[u8], answers: &Receiver<Vec<u8>>) -> io::Result<()> {
    let shown = String::from_utf8_lossy(&line[..line.len().min(60)]).into_owned();
    let answer = answers.recv_timeout(PATIENCE).map_err(|_| Error::other(format!("no answer to {shown:?}")))?;
    if answer == answer_to(line) {
        return Ok(());
    }
    Err(Error::other(format!("{shown:?} of {} bytes was answered with {:?}", line.len(), String::from_utf8_lossy(&answer))))
}
