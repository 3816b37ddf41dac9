//! Commands:
//!   cases DIR              write DIR/stdin and DIR/stdout, the committed files
//!   run LAYER SEED COUNT   write random requests to standard output
//!   full LAYER             write the large run's requests to standard output
//!   answer                 read requests from standard input, write the answers
//!   pace                   read jobs from standard input, write what the program `pace` must answer
//!   talk PROGRAM           talk to a program that answers requests: line by line, with lines too long and cut off
//!   counts PROGRAM SEED    compare the counts of nodes that a program answers, 15 million of them
//!   extensions PROGRAM     compare what a program says of extensions in every order, 3 million items
//!   first PROGRAM          compare what a program says of every structure of the first edition, 550,000 requests

use reference::requests::{self, Requests, LAYERS};
use reference::{counts, extensions, pace, structures, talk};
use std::io::{self, BufRead, BufWriter, Write};
use std::path::Path;
use std::process::ExitCode;

const USAGE: &str =
    "usage: reference cases DIR | run LAYER SEED COUNT | full LAYER | answer | pace | talk PROGRAM | counts PROGRAM SEED | \
    extensions PROGRAM | first PROGRAM";

fn main() -> ExitCode {
    let arguments: Vec<String> = std::env::args().skip(1).collect();
    let arguments: Vec<&str> = arguments.iter().map(String::as_str).collect();
    match run(&arguments) {
        Some(Ok(())) => ExitCode::SUCCESS,
        Some(Err(error)) => {
            eprintln!("reference: {error}");
            ExitCode::FAILURE
        }
        None => {
            eprintln!("{USAGE}");
            let names: Vec<&str> = LAYERS.iter().map(|layer| layer.name).collect();
            eprintln!("layers: {}", names.join(", "));
            ExitCode::FAILURE
        }
    }
}

fn run(arguments: &[&str]) -> Option<io::Result<()>> {
    let mut out = BufWriter::new(io::stdout().lock());
    match arguments {
        ["cases", dir] => Some(write_cases(Path::new(dir))),
        ["run", layer, seed, count] => {
            requests::random_run(requests::layer(layer)?, seed.parse().ok()?, count.parse().ok()?, &mut out);
            Some(out.flush())
        }
        ["full", layer] => {
            (requests::layer(layer)?.full)(&mut Requests::new(&mut out));
            Some(out.flush())
        }
        ["answer"] => Some(write_answers(&mut io::stdin().lock(), &mut out)),
        ["pace"] => Some(pace::pace(&mut io::stdin().lock(), &mut out)),
        ["talk", program] => Some(talk::talk(program)),
        ["counts", program, seed] => Some(counts::counts(program, seed.parse().ok()?, &mut out)),
        ["extensions", program] => Some(extensions::extensions(program, &mut out)),
        ["first", program] => Some(structures::structures(program, &mut out)),
        _ => None,
    }
}

fn write_cases(dir: &Path) -> io::Result<()> {
    let (questions, mut answers) = (requests::committed(), Vec::new());
    write_answers(&mut &questions[..], &mut answers)?;
    std::fs::create_dir_all(dir)?;
    std::fs::write(dir.join("stdin"), questions)?;
    std::fs::write(dir.join("stdout"), answers)
}

fn write_answers(input: &mut dyn BufRead, out: &mut dyn Write) -> io::Result<()> {
    let mut line = Vec::new();
    while input.read_until(b'\n', &mut line)? > 0 {
        out.write_all(&requests::answer_to(&line))?;
        line.clear();
    }
    out.flush()
}
