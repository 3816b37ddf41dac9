//! Layers and their entries: who answers which request.

use crate::random::Random;
use crate::words::{number, read_line, write_line, Word, LONGEST_LINE};
use crate::{algorithm, layers};
use std::collections::VecDeque;
use std::io::Write;

pub struct Entry {
    pub name: &'static str,
    /// The answer; `None` where these aren't the entry's arguments.
    pub answer: fn(&[Word]) -> Option<Vec<Word>>,
    /// The arguments of a random request.
    pub random: fn(&mut Random) -> Vec<Word>,
}

/// A request: the entry's name and its arguments.
pub type Asked = (&'static str, Vec<Word>);

/// A request whose first argument is the number of a hash, by other numbers.
pub fn by_numbers<'a>((name, words): &'a Asked, numbers: &'a [u64]) -> impl Iterator<Item = Asked> + 'a {
    numbers.iter().map(move |algorithm| (*name, [&[number(*algorithm)], &words[1..]].concat()))
}

/// Requests with the numbers that they must get, and after each the same by numbers that
/// no hash has, which are 16 before all else: one of these in turn, or all where they are wanted.
pub fn with_unknown(all: Vec<(u64, Asked)>, all_wanted: bool) -> Vec<(u64, Asked)> {
    let mut joined = Vec::new();
    for (turn, (expected, asked)) in all.into_iter().enumerate() {
        let start = turn % algorithm::UNKNOWN.len();
        let numbers = if all_wanted { &algorithm::UNKNOWN[..] } else { &algorithm::UNKNOWN[start..=start] };
        let refused: Vec<_> = by_numbers(&asked, numbers).map(|asked| (algorithm::REFUSED, asked)).collect();
        joined.push((expected, asked));
        joined.extend(refused);
    }
    joined
}

pub struct Layer {
    pub name: &'static str,
    pub entries: &'static [Entry],
    /// Random requests that belong together, each made from the answers before it.
    pub lists: Option<fn(&mut Random) -> Vec<Asked>>,
    /// The committed requests.
    pub cases: fn(&mut Requests),
    /// A large run without chance.
    pub full: fn(&mut Requests),
}

/// Every layer. A new one adds its module and its line here.
pub static LAYERS: &[&Layer] = &[
    &layers::hash::LAYER,
    &layers::tree::LAYER,
    &layers::growing::LAYER,
    &layers::carry::LAYER,
    &layers::item::LAYER,
    &layers::first::LAYER,
    &layers::auditor::LAYER,
];

pub fn layer(name: &str) -> Option<&'static Layer> {
    LAYERS.iter().copied().find(|layer| layer.name == name)
}

/// Where requests are written.
pub struct Requests<'a> {
    out: &'a mut dyn Write,
}

impl Requests<'_> {
    pub fn new(out: &mut dyn Write) -> Requests<'_> {
        Requests { out }
    }

    pub fn ask(&mut self, name: &str, words: &[Word]) {
        let mut line = Vec::new();
        write_line(Some(name), words, &mut line);
        self.out.write_all(&line).expect("cannot write");
    }

    /// A line as it stands, its line feed not included.
    pub fn line(&mut self, line: &[u8]) {
        self.out.write_all(line).expect("cannot write");
        self.out.write_all(b"\n").expect("cannot write");
    }
}

/// The committed requests, of all layers.
pub fn committed() -> Vec<u8> {
    let mut out = Vec::new();
    for layer in LAYERS {
        (layer.cases)(&mut Requests::new(&mut out));
    }
    out
}

/// The answer to one line as it was read: with its line feed, unless the input
/// ended in it.
pub fn answer_to(line: &[u8]) -> Vec<u8> {
    match line.strip_suffix(b"\n") {
        Some(line) if line.len() <= LONGEST_LINE => answer(LAYERS, line),
        _ => b"?\n".to_vec(),
    }
}

/// The answer to one line (without its line feed), with a line feed.
pub fn answer(layers: &[&Layer], line: &[u8]) -> Vec<u8> {
    let mut out = Vec::new();
    match answer_words(layers, line) {
        Some(words) => write_line(None, &words, &mut out),
        None => out.extend(b"?\n"),
    }
    out
}

fn answer_words(layers: &[&Layer], line: &[u8]) -> Option<Vec<Word>> {
    let (name, words) = read_line(line)?;
    let entry = layers.iter().flat_map(|layer| layer.entries).find(|entry| entry.name.as_bytes() == name)?;
    (entry.answer)(&words)
}

/// Random requests of a layer; about one line in twenty is damaged.
pub fn random_run(layer: &Layer, seed: u64, count: u64, out: &mut dyn Write) {
    let mut random = Random::new(seed);
    let mut list: VecDeque<Asked> = VecDeque::new();
    for _ in 0..count {
        if let (true, Some(lists)) = (list.is_empty() && random.one_in(2), layer.lists) {
            list.extend(lists(&mut random));
        }
        let (name, words) = list.pop_front().unwrap_or_else(|| {
            let entry = random.pick(layer.entries);
            (entry.name, (entry.random)(&mut random))
        });
        let mut line = Vec::new();
        write_line(Some(name), &words, &mut line);
        line.pop();
        if random.one_in(20) {
            damage(&mut line, &mut random);
        }
        line.push(b'\n');
        out.write_all(&line).expect("cannot write");
    }
}

/// One small change of a line; it may still be a request.
fn damage(line: &mut Vec<u8>, random: &mut Random) {
    let place = random.below(line.len() as u64) as usize;
    // The first bytes hold the name and the starts of words; the rest is mostly hex digits.
    let place = if random.one_in(2) { place.min(place % 24) } else { place };
    let byte = *random.pick(b" xX*0123456789abcdefgAF?,\r\t\0\xff");
    match random.below(7) {
        0 => line[place] = byte,
        1 => line.insert(place, byte),
        2 => {
            line.remove(place);
        }
        3 => line.truncate(place),
        4 => line.push(byte),
        5 => line.extend(b" x00"),
        _ => line.make_ascii_uppercase(),
    }
}

/// Lines that are no request of any entry, for a layer that has `entry`, which
/// takes one string of bytes behind the words that are given with its name.
pub fn lines_that_are_no_request(requests: &mut Requests, entry: &str) {
    for line in ["", " ", "  ", "?", "#", "x", "x00", "0", "nothing", "nothing x00", "*", "\t", "\r"] {
        requests.line(line.as_bytes());
    }
    let upper = entry.to_uppercase();
    for line in [
        format!(" {entry} x00"),
        format!("{entry}  x00"),
        format!("{entry} "),
        format!("{entry} x00 "),
        format!("{entry}\tx00"),
        format!("{entry} x00\r"),
        format!("{upper} x00"),
        format!("{entry}x00"),
        format!("{entry}s x00"),
        format!("{} x00", &entry[..entry.len() - 1]),
    ] {
        requests.line(line.as_bytes());
    }
    for word in [
        "", "X00", "x0", "x000", "xAB", "x0g", "xg0", "x 00", "00", "0x00", "*61", "3*", "3*6", "3*616", "3*6G", "3*AB", "3**61", "3*x61",
        "-1*61", "+1*61", "1.0*61", "x*61", "61*", "3 *61", "3* 61", "1e3*61", "abc", "\"abc\"", "\u{e9}",
    ] {
        requests.line(format!("{entry} {word}").as_bytes());
    }
    requests.line(&[entry.as_bytes(), b" x\xff\xfe"].concat());
    requests.line(&[entry.as_bytes(), b" x0\x00"].concat());
    requests.line(&[entry.as_bytes(), b" x/0"].concat());
    requests.line(&[entry.as_bytes(), b" x0:"].concat());
    requests.line(&[entry.as_bytes(), b" x`0"].concat());
}

#[cfg(test)]
mod tests {
    use super::*;

    fn written(write: impl Fn(&mut Requests)) -> Vec<u8> {
        let mut out = Vec::new();
        write(&mut Requests::new(&mut out));
        out
    }

    fn answers(layers: &[&Layer], requests: &[u8]) -> Vec<u8> {
        requests.strip_suffix(b"\n").unwrap().split(|c| *c == b'\n').flat_map(|line| answer(layers, line)).collect()
    }

    #[test]
    fn names_are_used_once() {
        let mut names: Vec<&str> = LAYERS.iter().flat_map(|layer| layer.entries).map(|entry| entry.name).collect();
        names.sort();
        let count = names.len();
        names.dedup();
        assert_eq!(names.len(), count);
    }

    #[test]
    fn committed_files_stay_small() {
        for layer in LAYERS {
            let requests = written(layer.cases);
            let (asked, answered) = (requests.len(), answers(LAYERS, &requests).len());
            println!("{}: {} requests, {asked} and {answered} bytes", layer.name, requests.iter().filter(|c| **c == b'\n').count());
        }
        let requests = committed();
        let (asked, answered) = (requests.len(), answers(LAYERS, &requests).len());
        assert!(asked < 3_000_000 && answered < 3_000_000, "{asked} and {answered}");
        assert_eq!(requests, committed());
    }

    /// A line that is too long would be answered with `?` by both programs, and show nothing.
    #[test]
    fn large_runs_keep_to_the_longest_line() {
        struct Lines(usize, usize);
        impl Write for Lines {
            fn write(&mut self, written: &[u8]) -> std::io::Result<usize> {
                for part in written.split_inclusive(|byte| *byte == b'\n') {
                    self.0 += part.len();
                    if part.ends_with(b"\n") {
                        self.1 = self.1.max(self.0 - 1);
                        self.0 = 0;
                    }
                }
                Ok(written.len())
            }

            fn flush(&mut self) -> std::io::Result<()> {
                Ok(())
            }
        }
        for layer in LAYERS {
            let mut lines = Lines(0, 0);
            (layer.full)(&mut Requests::new(&mut lines));
            println!("{}: {} bytes", layer.name, lines.1);
            assert!(lines.1 > 1_000 && lines.1 <= LONGEST_LINE, "{}: {} bytes", layer.name, lines.1);
        }
    }

    #[test]
    fn lines_too_long_or_cut_off_are_no_request() {
        let longest = [b"digest_into 0 x".to_vec(), vec![b'0'; LONGEST_LINE - 17], b" x\n".to_vec()].concat();
        assert_eq!(answer_to(&longest), b"9 x\n");
        let longer = [b"digest 0 x".to_vec(), vec![b'0'; LONGEST_LINE - 9], b"\n".to_vec()].concat();
        assert_eq!(answer_to(&longer), b"?\n");
        assert_eq!(answer_to(b"newer x x\n"), b"x\n");
        assert_eq!(answer_to(b"newer x x"), b"?\n");
    }

    #[test]
    fn no_request_is_answered_with_a_question_mark() {
        let requests = written(|requests| lines_that_are_no_request(requests, "digest 0"));
        for line in requests.strip_suffix(b"\n").unwrap().split(|c| *c == b'\n') {
            assert_eq!(answer(LAYERS, line), b"?\n", "{}", String::from_utf8_lossy(line));
        }
    }

    #[test]
    fn random_runs_repeat_and_reach_every_entry() {
        for layer in LAYERS {
            let run = || {
                let mut out = Vec::new();
                random_run(layer, 7, 600, &mut out);
                out
            };
            let requests = run();
            assert_eq!(requests, run());
            for entry in layer.entries {
                let start = format!("{} ", entry.name);
                let asked = requests.split(|c| *c == b'\n').filter(|line| line.starts_with(start.as_bytes()));
                let answered = asked.filter(|line| answer(&[layer], line) != b"?\n").count();
                assert!(answered > 10, "{}", entry.name);
            }
        }
    }
}
