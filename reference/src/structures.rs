//! Every structure of the first edition (RFC 6962): each layout with vectors of
//! many lengths, whole, cut at every byte, with every byte changed, under every
//! name, written in rooms of every kind and with every field of a wrong length,
//! and trees over such leaves. The answers are compared with the second program's
//! own as they come.

use crate::algorithm::SHA256;
use crate::first::{self, encode, Fields, EDITION, HEAD, LEAF, RECEIPT};
use crate::layers::first::{issued, judged_bytes, names, random_fields, read_words, write_words, LAYOUTS};
use crate::layers::item::ORDER_BY_HAND;
use crate::pipe::{compare_all, Question};
use crate::random::Random;
use crate::requests::answer_to;
use crate::sha256::{digest, leaf};
use crate::tree::{path, root};
use crate::words::{bytes, number, read_hex, repeated, write_line, Word};
use std::io::{self, Write};
use std::sync::LazyLock;

/// Structures with vectors of at most so many bytes are short: each byte is changed to all others.
const SHORT: usize = 2;
/// The lengths of vectors; a certificate is not empty.
const LENGTHS: [usize; 6] = [0, 1, 2, 255, 256, 300];
/// Lengths that are wrong for a hash, and that of a hash.
const HASH_LENGTHS: [usize; 6] = [0, 1, 31, 32, 33, 64];
/// Lengths at the ends of what two bytes say.
const LONG: [usize; 4] = [0, 65_535, 65_536, 65_537];
const ENTRY_TYPES: [u16; 7] = [0, 1, 2, 255, 256, 257, 65_535];
const NUMBERS: [u64; 8] = [0, 1, 255, 256, 1 << 16, 1 << 32, 1 << 63, u64::MAX];
/// Trees have up to so many leaves.
const MOST_LEAVES: usize = 9;

struct Sample {
    is_short: bool,
    which: u16,
    fields: Fields,
    /// The fields as this structure.
    whole: Vec<u8>,
    /// Where its types and lengths stand.
    judged: Vec<usize>,
}

impl Sample {
    fn new(is_short: bool, which: u16, fields: Fields) -> Sample {
        let whole = encode(EDITION, which, &fields).expect("fields in range");
        let judged = judged_bytes(which, &whole);
        Sample { is_short, which, fields, whole, judged }
    }
}

static SAMPLES: LazyLock<Vec<Sample>> = LazyLock::new(samples);
static TREES: LazyLock<Vec<Vec<u8>>> = LazyLock::new(trees);

/// The two vectors of a layout, in layout order: certificate and extensions, or extensions and signature.
fn set_vectors(which: u16, fields: &mut Fields, one: Vec<u8>, two: Vec<u8>) {
    match which {
        LEAF => (fields.certificate, fields.extensions) = (one, two),
        RECEIPT => (fields.extensions, fields.signature) = (one, two),
        _ => (),
    }
}

fn samples() -> Vec<Sample> {
    let random = &mut Random::new(620);
    let mut all = Vec::new();
    for (which, entry_type) in LAYOUTS {
        let mut add = |is_short: bool, change: &dyn Fn(&mut Fields, &mut Random)| {
            let mut fields = random_fields(entry_type, random);
            change(&mut fields, random);
            all.push(Sample::new(is_short, which, fields));
        };
        if which == HEAD {
            for value in NUMBERS {
                add(true, &|f, _| (f.timestamp, f.size) = (value, !value));
            }
            continue;
        }
        let least = (which == LEAF) as usize;
        for one in &LENGTHS[least..] {
            for two in LENGTHS {
                add(*one.max(&two) <= SHORT, &|f, random| set_vectors(which, f, random.bytes(*one), random.bytes(two)));
            }
        }
        // Extensions as the second edition has them, in order and not, whole and cut: here they are any bytes.
        for (elements, _, _) in ORDER_BY_HAND {
            let elements = read_hex(elements.as_bytes()).unwrap();
            add(false, &|f, random| {
                set_vectors(which, f, random.bytes(1), random.bytes(1));
                f.extensions = elements.clone();
            });
        }
        for value in NUMBERS {
            add(false, &|f, random| {
                set_vectors(which, f, random.bytes(1), random.bytes(1));
                (f.timestamp, f.size, f.algorithms) = (value, !value, !value as u16);
            });
        }
    }
    for (which, input, _) in issued() {
        let fields = Fields::of(&input, &first::read(EDITION, which, &input).unwrap());
        all.push(Sample::new(false, which, fields));
    }
    all
}

/// The fields that a writer can refuse, in the order of its arguments; then the entry type, whose number is set in place of a length.
const FIELDS: usize = 7;
const ENTRY_TYPE: usize = 6;

fn set(fields: &mut Fields, field: usize, to: usize) {
    let value = vec![field as u8 + 1; to];
    match field {
        0 => fields.log_id = value,
        1 => fields.key_hash = value,
        2 => fields.certificate = value,
        3 => fields.extensions = value,
        4 => fields.signature = value,
        5 => fields.root = value,
        _ => fields.entry_type = to as u16,
    }
}

/// What a field is set to, good and bad.
fn values(field: usize) -> Vec<usize> {
    match field {
        0 | 1 | 5 => HASH_LENGTHS.to_vec(),
        ENTRY_TYPE => ENTRY_TYPES.map(usize::from).to_vec(),
        _ => LONG.to_vec(),
    }
}

/// A field and what it is set to.
type Set = (usize, usize);

/// What is asked of a structure.
#[derive(Clone, Copy, Debug)]
enum Way {
    /// So many of its first bytes, under this name.
    Start(u16, u16, usize),
    /// With one byte changed.
    Changed(usize, u8),
    /// Changed, and nothing behind that byte.
    Last(usize, u8),
    /// What is read of it then, written again.
    Again(usize, u8),
    /// With so many bytes after it.
    More(usize),
    /// Written under this name, with two fields set, in a room of so many bytes.
    Write(u16, u16, [Option<Set>; 2], usize),
}

#[derive(Clone, Copy)]
enum Asked {
    Of(&'static Sample, Way),
    Line(&'static [u8]),
}

fn changed(sample: &Sample, at: usize, byte: u8) -> Vec<u8> {
    let mut input = sample.whole.clone();
    input[at] = byte;
    input
}

impl Question for Asked {
    fn request(&self, line: &mut Vec<u8>) {
        let (sample, way) = match self {
            Asked::Of(sample, way) => (sample, *way),
            Asked::Line(request) => return line.extend(*request),
        };
        let which = sample.which;
        let words = match way {
            Way::Start(edition, which, count) => read_words(edition, which, &sample.whole[..count]),
            Way::Changed(at, byte) => read_words(EDITION, which, &changed(sample, at, byte)),
            Way::Last(at, byte) => read_words(EDITION, which, &changed(sample, at, byte)[..at + 1]),
            Way::More(count) => read_words(EDITION, which, &[&sample.whole[..], &vec![0; count]].concat()),
            Way::Again(at, byte) => {
                let input = changed(sample, at, byte);
                let fields = Fields::of(&input, &first::read(EDITION, which, &input).expect("readable"));
                write_words(EDITION, which, &fields, repeated(input.len(), 0xee))
            }
            Way::Write(edition, which, sets, room) => {
                let mut fields = sample.fields.clone();
                sets.iter().flatten().for_each(|(field, to)| set(&mut fields, *field, *to));
                write_words(edition, which, &fields, repeated(room, 0xee))
            }
        };
        let is_written = matches!(way, Way::Again(..) | Way::Write(..));
        write_line(Some(if is_written { "first_write" } else { "first_read" }), &words, line);
    }

    fn answer(&self, line: &mut Vec<u8>) {
        let mut request = Vec::new();
        self.request(&mut request);
        line.extend(answer_to(&request));
    }
}

/// Every name, and two whose low bytes are those of the structure.
fn all_names(which: u16) -> impl Iterator<Item = (u16, u16)> {
    names().chain([(256 + EDITION, which), (EDITION, 256 + which)])
}

/// What is read of a structure.
fn reads(sample: &'static Sample) -> Vec<Way> {
    let (which, whole) = (sample.which, &sample.whole);
    let mut all: Vec<Way> = (0..=whole.len()).map(|count| Way::Start(EDITION, which, count)).collect();
    all.extend([1, 2, 32, 33].map(Way::More));
    for (edition, which) in all_names(which) {
        all.extend([0, 1, whole.len()].map(|count| Way::Start(edition, which, count)));
    }
    for at in 0..whole.len() {
        let (own, is_judged) = (whole[at], sample.judged.contains(&at));
        let next = own.wrapping_add(1);
        let mut others: Vec<u8> = match (sample.is_short, is_judged) {
            (true, _) => (0..=255).collect(),
            (false, true) => vec![0, 1, 2, 127, 128, 255, next, own.wrapping_sub(1)],
            (false, false) => vec![next],
        };
        others.sort();
        others.dedup();
        for byte in others.into_iter().filter(|byte| *byte != own) {
            all.push(Way::Changed(at, byte));
            if is_judged {
                all.push(Way::Last(at, byte));
            }
            if (is_judged || byte == next) && first::read(EDITION, which, &changed(sample, at, byte)).is_ok() {
                all.push(Way::Again(at, byte));
            }
        }
    }
    all
}

/// What is written of a structure.
fn writes(sample: &'static Sample) -> Vec<Way> {
    let (which, length) = (sample.which, sample.whole.len());
    let mut all: Vec<Way> = [length, length + 1, length - 1, 0].map(|room| Way::Write(EDITION, which, [None; 2], room)).to_vec();
    for (edition, which) in all_names(which) {
        all.push(Way::Write(edition, which, [None; 2], length));
    }
    let sets = |field: usize| values(field).into_iter().map(move |to| (field, to));
    for one in (0..FIELDS).flat_map(sets) {
        all.push(Way::Write(EDITION, which, [Some(one), None], length));
        all.push(Way::Write(EDITION, which, [Some(one), None], 0));
        // Of short ones every two fields, of which the first bad one of the layout decides, and a bad one under a bad name.
        if sample.is_short {
            let others = (one.0 + 1..FIELDS).flat_map(sets);
            all.extend(others.map(|other| Way::Write(EDITION, which, [Some(one), Some(other)], length)));
            all.extend([(0, which), (EDITION, 0), (2, 4)].map(|(edition, which)| Way::Write(edition, which, [Some(one), None], 0)));
        }
    }
    all
}

/// Trees over leaves of both entry types: each leaf's hash, also without its last byte, the root, and each place's path with its
/// verdict; the hash of the shorter leaf is not in the tree.
fn trees() -> Vec<Vec<u8>> {
    let mut all = Vec::new();
    let mut ask = |name: &str, words: &[Word]| {
        let mut line = Vec::new();
        write_line(Some(name), words, &mut line);
        all.push(line);
    };
    let leaves: Vec<&Sample> = SAMPLES.iter().filter(|sample| sample.which == LEAF).collect();
    for sample in &leaves {
        let whole = &sample.whole;
        for input in [&whole[..], &whole[..whole.len() - 1], &whole[1..], &whole[2..]] {
            ask("leaf", &[number(SHA256), bytes(input)]);
        }
    }
    // Some of each, one after the other.
    let step = leaves.len() / 2 + 1;
    for count in 1..=MOST_LEAVES {
        let chosen: Vec<&Sample> = (0..count).map(|i| leaves[(count + i * step) % leaves.len()]).collect();
        let hashes: Vec<[u8; 32]> = chosen.iter().map(|sample| leaf(&sample.whole)).collect();
        let joined = bytes(&hashes.concat());
        ask("root", &[number(SHA256), joined.clone(), repeated(32, 0xee)]);
        let own_root = root(digest, &hashes);
        for (place, sample) in chosen.iter().enumerate() {
            let own_path = path(digest, place, &hashes).concat();
            ask("path", &[number(SHA256), joined.clone(), number(place as u64), repeated(own_path.len(), 0xee)]);
            for hash in [hashes[place], leaf(&sample.whole[..sample.whole.len() - 1])] {
                let (place, size) = (number(place as u64), number(count as u64));
                ask("inclusion", &[number(SHA256), bytes(&hash), place, size, bytes(&own_root), bytes(&own_path)]);
            }
        }
    }
    all
}

fn questions() -> impl Iterator<Item = Asked> + Clone {
    let all = SAMPLES.iter();
    let of = all.flat_map(|sample| [reads(sample), writes(sample)].concat().into_iter().map(move |way| Asked::Of(sample, way)));
    of.chain(TREES.iter().map(|line| Asked::Line(line)))
}

/// What was answered otherwise goes to `out`, and at the end `N passed, M failed`.
pub fn structures(program: &str, out: &mut dyn Write) -> io::Result<()> {
    compare_all(program, questions(), out)
}

#[cfg(test)]
mod tests {
    use super::*;
    use std::collections::{BTreeMap, BTreeSet};

    fn answer(asked: Asked) -> Vec<String> {
        let mut line = Vec::new();
        asked.answer(&mut line);
        String::from_utf8(line).unwrap().trim_end().split(' ').map(str::to_string).collect()
    }

    /// Where the fields of a structure start, and where the last of them ends.
    fn starts(sample: &Sample) -> Vec<usize> {
        let Fields { certificate, extensions, signature, .. } = &sample.fields;
        let widths = match (sample.which, sample.fields.entry_type) {
            (LEAF, 0) => vec![1, 1, 8, 2, 3 + certificate.len(), 2 + extensions.len()],
            (LEAF, _) => vec![1, 1, 8, 2, 32, 3 + certificate.len(), 2 + extensions.len()],
            (RECEIPT, _) => vec![1, 32, 8, 2 + extensions.len(), 2, 2 + signature.len()],
            _ => vec![1, 1, 8, 8, 32],
        };
        let ends = widths.into_iter().scan(0, |at, width| {
            *at += width;
            Some(*at)
        });
        [0].into_iter().chain(ends).collect()
    }

    /// A structure that is cut is refused where the field starts in which it ends; one with more, where it ends.
    #[test]
    fn cuts_are_known() {
        let mut lengths = BTreeSet::new();
        for sample in SAMPLES.iter() {
            let starts = starts(sample);
            assert_eq!(*starts.last().unwrap(), sample.whole.len());
            lengths.insert((sample.which, sample.fields.entry_type, sample.whole.len()));
            for count in 0..sample.whole.len() {
                let start = starts.iter().filter(|start| **start <= count).max().unwrap();
                assert_eq!(answer(Asked::Of(sample, Way::Start(EDITION, sample.which, count))), ["2".to_string(), start.to_string()]);
            }
            for count in [1, 33] {
                assert_eq!(answer(Asked::Of(sample, Way::More(count))), ["3".to_string(), sample.whole.len().to_string()]);
            }
            assert_eq!(answer(Asked::Of(sample, Way::Start(EDITION, sample.which, sample.whole.len())))[0], "0");
        }
        assert!(lengths.len() > 60, "{}", lengths.len());
    }

    /// Every request is one; which numbers come, and that of a changed structure none is refused but by what is judged.
    #[test]
    fn how_many() {
        let mut counts: BTreeMap<(&str, String), u64> = BTreeMap::new();
        let mut all = 0;
        for asked in questions() {
            all += 1;
            let (name, sample) = match asked {
                Asked::Of(sample, Way::Changed(..)) => ("changed", Some(sample)),
                Asked::Of(_, Way::Again(..)) => ("again", None),
                Asked::Of(_, Way::Write(..)) => ("write", None),
                Asked::Of(..) => ("read", None),
                Asked::Line(line) => (std::str::from_utf8(line).unwrap().split(' ').next().unwrap(), None),
            };
            let said = answer(asked).swap_remove(0);
            if let (Some(sample), Asked::Of(_, Way::Changed(at, _))) = (sample, asked) {
                assert!(said == "0" || sample.judged.contains(&at));
            }
            *counts.entry((name, said)).or_default() += 1;
        }
        println!("{all} requests: {counts:?}");
        assert!((300_000..2_000_000).contains(&all), "{all}");
        let kinds: Vec<(&str, &str)> = counts.keys().map(|(name, number)| (*name, number.as_str())).collect();
        let expected = [
            ("again", "0"),
            ("changed", "0"),
            ("changed", "2"),
            ("changed", "3"),
            ("changed", "4"),
            ("changed", "5"),
            ("inclusion", "0"),
            ("inclusion", "8"),
            ("leaf", "0"),
            ("path", "0"),
            ("read", "0"),
            ("read", "2"),
            ("read", "3"),
            ("read", "4"),
            ("read", "5"),
            ("root", "0"),
            ("write", "0"),
            ("write", "4"),
            ("write", "5"),
            ("write", "9"),
        ];
        assert_eq!(kinds, expected);
    }
}
