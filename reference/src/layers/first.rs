//! The first edition (RFC 6962): its leaf, its receipt and the signed portion of
//! its tree head, read and written.

use crate::first::{self, encode, Fields, Structure, CERTIFICATE, EDITION, HEAD, LEAF, PRECERTIFICATE, RECEIPT};
use crate::item::Span;
use crate::random::Random;
use crate::requests::{lines_that_are_no_request, Entry, Layer, Requests};
use crate::words::{bytes, number, read_hex, repeated, short, Word};

pub const LAYER: Layer = Layer {
    name: "first",
    entries: &[
        Entry { name: "first_read", answer: read, random: random_read },
        Entry { name: "first_write", answer: write, random: random_write },
    ],
    lists: None,
    cases,
    full,
};

/// Each layout: the structure, and of a leaf the entry type.
pub const LAYOUTS: [(u16, u16); 4] = [(LEAF, CERTIFICATE), (LEAF, PRECERTIFICATE), (RECEIPT, 0), (HEAD, 0)];
/// Names, known and unknown: edition and structure.
pub const EDITIONS: [u16; 4] = [0, EDITION, 2, 65_535];
pub const STRUCTURES: [u16; 6] = [0, LEAF, RECEIPT, HEAD, 4, 65_535];

pub fn names() -> impl Iterator<Item = (u16, u16)> + Clone {
    EDITIONS.into_iter().flat_map(|edition| STRUCTURES.into_iter().map(move |which| (edition, which)))
}

// Answers.

/// A number of 16 bits; a larger one makes no request.
fn as_u16(word: &Word) -> Option<u16> {
    u16::try_from(word.as_number()?).ok()
}

/// The structure, then a number for a number field, and start and length for bytes.
fn read(words: &[Word]) -> Option<Vec<Word>> {
    let [edition, which, input] = words else { return None };
    let (edition, which, input) = (as_u16(edition)?, as_u16(which)?, input.as_bytes()?);
    let structure = match first::read(edition, which, input) {
        Ok(structure) => structure,
        Err(refusal) => return Some(vec![number(refusal.number), number(refusal.place as u64)]),
    };
    // What is accepted is written again.
    assert_eq!(encode(edition, which, &Fields::of(input, &structure)).as_deref(), Ok(input), "written again");
    Some([0, which as u64].into_iter().chain(told(&structure)).map(number).collect())
}

/// The fields in layout order.
fn told(structure: &Structure) -> Vec<u64> {
    let part = |span: &Span| [span.start as u64, span.len() as u64];
    match structure {
        Structure::Leaf { version, leaf_type, timestamp, entry_type, key_hash, certificate, extensions } => {
            let key_hash = key_hash.iter().flat_map(part).collect();
            [vec![*version, *leaf_type, *timestamp, *entry_type], key_hash, [part(certificate), part(extensions)].concat()].concat()
        }
        Structure::Receipt { version, log_id, timestamp, extensions, algorithms, signature } => {
            [&[*version][..], &part(log_id), &[*timestamp], &part(extensions), &[*algorithms], &part(signature)].concat()
        }
        Structure::Head { version, signature_type, timestamp, size, root } => {
            [&[*version, *signature_type, *timestamp, *size][..], &part(root)].concat()
        }
    }
}

fn write(words: &[Word]) -> Option<Vec<Word>> {
    let [edition, which, entry_type, timestamp, size, algorithms, log_id, key_hash, certificate, extensions, signature, root, lent] = words
    else {
        return None;
    };
    let (edition, which) = (as_u16(edition)?, as_u16(which)?);
    let fields = Fields {
        entry_type: as_u16(entry_type)?,
        timestamp: timestamp.as_number()?,
        size: size.as_number()?,
        algorithms: as_u16(algorithms)?,
        log_id: log_id.as_bytes()?.to_vec(),
        key_hash: key_hash.as_bytes()?.to_vec(),
        certificate: certificate.as_bytes()?.to_vec(),
        extensions: extensions.as_bytes()?.to_vec(),
        signature: signature.as_bytes()?.to_vec(),
        root: root.as_bytes()?.to_vec(),
    };
    let mut lent = lent.as_bytes()?.to_vec();
    let (refusal, place, count) = match first::write(edition, which, &fields, &mut lent) {
        Ok(count) => {
            // What is written reads back, and is written again.
            let structure = first::read(edition, which, &lent[..count]).expect("readable");
            assert_eq!(encode(edition, which, &Fields::of(&lent[..count], &structure)).unwrap(), lent[..count]);
            (0, 0, count)
        }
        Err(refusal) => (refusal.number, refusal.place, 0),
    };
    Some(vec![number(refusal), number(place as u64), number(count as u64), bytes(&lent)])
}

// Requests.

pub fn read_words(edition: u16, which: u16, input: &[u8]) -> Vec<Word> {
    vec![number(edition as u64), number(which as u64), short(input)]
}

pub fn write_words(edition: u16, which: u16, f: &Fields, lent: Word) -> Vec<Word> {
    vec![
        number(edition as u64),
        number(which as u64),
        number(f.entry_type as u64),
        number(f.timestamp),
        number(f.size),
        number(f.algorithms as u64),
        short(&f.log_id),
        short(&f.key_hash),
        short(&f.certificate),
        short(&f.extensions),
        short(&f.signature),
        short(&f.root),
        lent,
    ]
}

fn ask_read(requests: &mut Requests, which: u16, input: &[u8]) {
    requests.ask("first_read", &read_words(EDITION, which, input));
}

fn ask_write(requests: &mut Requests, which: u16, fields: &Fields, lent: usize) {
    requests.ask("first_write", &write_words(EDITION, which, fields, repeated(lent, 0xee)));
}

/// Every field as short as it may be.
pub fn smallest(entry_type: u16, byte: u8) -> Fields {
    Fields {
        entry_type,
        timestamp: 7,
        size: 9,
        algorithms: 0x0403,
        log_id: vec![byte; 32],
        key_hash: vec![byte; 32],
        certificate: vec![byte],
        root: vec![byte; 32],
        ..Fields::default()
    }
}

/// Fields of any sort, of a few dozen bytes; all in range.
pub fn random_fields(entry_type: u16, random: &mut Random) -> Fields {
    fn some(random: &mut Random, least: u64) -> Vec<u8> {
        let length = match random.below(12) {
            0 | 1 => least,
            2 => 300,
            _ => random.between(least, 40),
        };
        random.bytes(length as usize)
    }
    fn value(random: &mut Random) -> u64 {
        let bits = random.below(65);
        random.draw().checked_shr(bits as u32).unwrap_or(0)
    }
    Fields {
        entry_type,
        timestamp: value(random),
        size: value(random),
        algorithms: value(random) as u16,
        log_id: random.bytes(32),
        key_hash: random.bytes(32),
        certificate: some(random, 1),
        extensions: some(random, 0),
        signature: some(random, 0),
        root: random.bytes(32),
    }
}

/// Where the bytes of versions, types, algorithms and lengths stand in a whole structure.
pub fn judged_bytes(which: u16, input: &[u8]) -> Vec<usize> {
    let prefix = |span: &Span, width: usize| span.start - width..span.start;
    match &first::read(EDITION, which, input).expect("a whole structure") {
        Structure::Leaf { certificate, extensions, .. } => {
            [0, 1, 10, 11].into_iter().chain(prefix(certificate, 3)).chain(prefix(extensions, 2)).collect()
        }
        // The algorithms, too, stand before the signature's length.
        Structure::Receipt { extensions, signature, .. } => {
            [0].into_iter().chain(prefix(extensions, 2)).chain(prefix(signature, 4)).collect()
        }
        Structure::Head { .. } => vec![0, 1],
    }
}

fn with_byte(input: &[u8], at: usize, byte: u8) -> Vec<u8> {
    let mut changed = input.to_vec();
    changed[at] = byte;
    changed
}

/// A structure, each of its beginnings, each byte of a type or a length off by one
/// and at its ends, and bytes after it.
pub fn whole_and_damaged(which: u16, input: &[u8], random: &mut Random) -> Vec<Vec<u8>> {
    let mut all = vec![input.to_vec()];
    all.extend((0..input.len()).map(|cut| input[..cut].to_vec()));
    for at in judged_bytes(which, input) {
        let mut values = vec![input[at].wrapping_add(1), input[at].wrapping_sub(1), 0, 255];
        values.sort();
        values.dedup();
        all.extend(values.into_iter().filter(|byte| *byte != input[at]).map(|byte| with_byte(input, at, byte)));
    }
    all.extend([1, 2, 33].map(|add| [input, &random.bytes(add)].concat()));
    all
}

fn ask_whole_and_damaged(requests: &mut Requests, which: u16, input: &[u8], random: &mut Random) {
    whole_and_damaged(which, input, random).iter().for_each(|one| ask_read(requests, which, one));
}

/// A change of one field.
type Change = (fn(&mut Fields), &'static str);

/// Entry types that are none, and lengths next to and beyond the ends of each field's range.
const BAD_FIELDS: [Change; 25] = [
    (|f| f.entry_type = 2, "entry_type"),
    (|f| f.entry_type = 255, "entry_type"),
    (|f| f.entry_type = 256, "entry_type"),
    (|f| f.entry_type = 257, "entry_type"),
    (|f| f.entry_type = 65_535, "entry_type"),
    (|f| f.log_id.clear(), "log_id"),
    (|f| f.log_id.truncate(1), "log_id"),
    (|f| f.log_id.truncate(31), "log_id"),
    (|f| f.log_id.push(0), "log_id"),
    (|f| f.log_id = vec![1; 64], "log_id"),
    (|f| f.key_hash.clear(), "key_hash"),
    (|f| f.key_hash.truncate(1), "key_hash"),
    (|f| f.key_hash.truncate(31), "key_hash"),
    (|f| f.key_hash.push(0), "key_hash"),
    (|f| f.key_hash = vec![2; 288], "key_hash"),
    (|f| f.certificate.clear(), "certificate"),
    (|f| f.extensions = vec![3; 65_536], "extensions"),
    (|f| f.extensions = vec![3; 65_537], "extensions"),
    (|f| f.signature = vec![4; 65_536], "signature"),
    (|f| f.signature = vec![4; 65_537], "signature"),
    (|f| f.root.clear(), "root"),
    (|f| f.root.truncate(1), "root"),
    (|f| f.root.truncate(31), "root"),
    (|f| f.root.push(0), "root"),
    (|f| f.root = vec![5; 64], "root"),
];

/// The fields that a structure has and that can be refused, in layout order.
fn refusable(which: u16, entry_type: u16) -> &'static [&'static str] {
    match (which, entry_type) {
        (LEAF, PRECERTIFICATE) => &["entry_type", "key_hash", "certificate", "extensions"],
        (LEAF, _) => &["entry_type", "certificate", "extensions"],
        (RECEIPT, _) => &["log_id", "extensions", "signature"],
        _ => &["root"],
    }
}

/// The fields that a structure lacks, made bad: they aren't looked at.
fn without_others(which: u16, fields: &Fields) -> Fields {
    let mut f = fields.clone();
    let has = |name: &str| refusable(which, fields.entry_type).contains(&name);
    if !has("entry_type") {
        f.entry_type = 0x0201;
    }
    if !has("log_id") {
        f.log_id = vec![9];
    }
    if !has("key_hash") {
        f.key_hash = vec![8; 33];
    }
    if !has("certificate") {
        f.certificate = vec![];
    }
    if !has("extensions") {
        f.extensions = vec![7; 65_536];
    }
    if !has("signature") {
        f.signature = vec![6; 65_536];
    }
    if !has("root") {
        f.root = vec![5; 31];
    }
    f
}

fn length_of(which: u16, fields: &Fields) -> usize {
    encode(EDITION, which, fields).unwrap().len()
}

fn write_cases(requests: &mut Requests, random: &mut Random) {
    for (which, entry_type) in LAYOUTS {
        let mut middle = random_fields(entry_type, random);
        middle.certificate = random.bytes(9);
        middle.extensions = random.bytes(5);
        middle.signature = random.bytes(7);
        for fields in [smallest(entry_type, 6), middle] {
            let fields = without_others(which, &fields);
            let length = length_of(which, &fields);
            for lent in [length, length + 5, length - 1, 0] {
                ask_write(requests, which, &fields, lent);
            }
        }
        // One bad field, with room and without; a structure that lacks it is written.
        let good = smallest(entry_type, 5);
        for (change, _) in BAD_FIELDS {
            let mut bad = good.clone();
            change(&mut bad);
            let lent = if random.one_in(2) { 0 } else { length_of(which, &good) };
            ask_write(requests, which, &bad, lent);
        }
        // Two bad fields: the first of the layout is the one refused.
        let names = refusable(which, entry_type);
        for (i, one) in names.iter().enumerate() {
            for other in &names[i + 1..] {
                let mut bad = good.clone();
                for name in [one, other] {
                    let of_name: Vec<&Change> = BAD_FIELDS.iter().filter(|(_, n)| n == name).collect();
                    (random.pick(&of_name).0)(&mut bad);
                }
                ask_write(requests, which, &bad, 3);
            }
        }
    }
    // Numbers at their ends.
    for value in [0, 255, 256, 1 << 32, u64::MAX] {
        for (which, entry_type) in LAYOUTS {
            let mut f = smallest(entry_type, 1);
            f.timestamp = value;
            f.size = value ^ 3;
            f.algorithms = value as u16 ^ 5;
            ask_write(requests, which, &without_others(which, &f), length_of(which, &f));
        }
    }
    // The longest that a vector may be, and one more, with no room for it.
    for (which, entry_type) in LAYOUTS {
        for more in [0, 1] {
            let long = vec![7; 65_535 + more];
            ask_write(requests, which, &Fields { extensions: long.clone(), ..smallest(entry_type, 7) }, 1);
            ask_write(requests, which, &Fields { signature: long, ..smallest(entry_type, 7) }, 1);
        }
        ask_write(requests, which, &Fields { certificate: vec![7; 1_000_000], ..smallest(entry_type, 7) }, 1);
    }
}

/// Every name: of no bytes, of one, of many, of as many as a request can have; and to write.
fn name_cases(requests: &mut Requests) {
    for (edition, which) in names() {
        for input in [&[][..], &[1], &[0; 50]] {
            requests.ask("first_read", &read_words(edition, which, input));
        }
        for (fields, lent) in [(smallest(0, 3), 50), (Fields { entry_type: 2, ..Fields::default() }, 0)] {
            requests.ask("first_write", &write_words(edition, which, &fields, repeated(lent, 0xee)));
        }
    }
    for which in STRUCTURES {
        for byte in [0, 1, 255] {
            ask_read(requests, which, &vec![byte; 1_048_576]);
        }
    }
}

/// The digits of bytes, spaces between them left out.
pub fn hex(digits: &str) -> Vec<u8> {
    let digits: Vec<u8> = digits.bytes().filter(|digit| *digit != b' ').collect();
    read_hex(&digits).expect("hex digits")
}

/// The readings' leaf of 18 bytes.
pub const LEAF_BY_HAND: &str = "0000 0000000000000007 0000 000001 63 0000";
/// One of a precertificate: 12 bytes, the key hash, the TBS certificate and no extensions.
const PRECERTIFICATE_BY_HAND: &str =
    concat!("0000 0000000000000007 0001 ", "4b4b4b4b4b4b4b4b 4b4b4b4b4b4b4b4b 4b4b4b4b4b4b4b4b 4b4b4b4b4b4b4b4b ", "000001 63 0000",);
/// The receipt with an empty signature, 47 bytes.
const RECEIPT_BY_HAND: &str =
    concat!("00 2a2a2a2a2a2a2a2a 2a2a2a2a2a2a2a2a 2a2a2a2a2a2a2a2a 2a2a2a2a2a2a2a2a ", "0000000000000005 0000 0403 0000",);
/// The head, 50 bytes.
const HEAD_BY_HAND: &str =
    concat!("00 01 0000000000000005 0000000000000009 ", "5252525252525252 5252525252525252 5252525252525252 5252525252525252",);

/// The readings' cases for the reader, and more of their sort: edition, structure, bytes, and the answer.
pub fn read_by_hand() -> Vec<(u16, u16, Vec<u8>, &'static [u64])> {
    let mut all: Vec<(u16, u16, Vec<u8>, &'static [u64])> = Vec::new();
    let mut of = |which: u16, input: &[u8], answer: &'static [u64]| all.push((1, which, input.to_vec(), answer));
    let start = |whole: &[u8], count: usize, more: &str| [&whole[..count], &hex(more)].concat();

    let leaf = hex(LEAF_BY_HAND);
    of(1, &leaf, &[0, 1, 0, 0, 7, 0, 15, 1, 18, 0]);
    of(1, &[], &[2, 0]);
    of(1, &[0], &[2, 1]);
    of(1, &[1], &[4, 0]);
    of(1, &[1, 1], &[4, 0]);
    of(1, &[255], &[4, 0]);
    of(1, &[0, 1], &[4, 1]);
    of(1, &leaf[..2], &[2, 2]);
    of(1, &leaf[..9], &[2, 2]);
    of(1, &leaf[..10], &[2, 10]);
    of(1, &leaf[..11], &[2, 10]);
    of(1, &start(&leaf, 10, "01"), &[2, 10]);
    of(1, &start(&leaf, 10, "0002 000001 63 0000"), &[4, 10]);
    of(1, &start(&leaf, 10, "0002"), &[4, 10]);
    of(1, &start(&leaf, 10, "0100 000001 63 0000"), &[4, 10]);
    of(1, &start(&leaf, 10, "0101"), &[4, 10]);
    of(1, &leaf[..12], &[2, 12]);
    of(1, &leaf[..14], &[2, 12]);
    of(1, &start(&leaf, 12, "000000 0000"), &[5, 12]);
    of(1, &start(&leaf, 12, "000000"), &[5, 12]);
    of(1, &leaf[..15], &[2, 12]);
    of(1, &start(&leaf, 12, "000002 63"), &[2, 12]);
    of(1, &start(&leaf, 12, "ffffff 63 0000"), &[2, 12]);
    of(1, &leaf[..16], &[2, 16]);
    of(1, &leaf[..17], &[2, 16]);
    of(1, &start(&leaf, 16, "0001"), &[2, 16]);
    of(1, &start(&leaf, 16, "ffff 00"), &[2, 16]);
    of(1, &start(&leaf, 18, "00"), &[3, 18]);
    of(1, &start(&leaf, 16, "0008 0002000000010000"), &[0, 1, 0, 0, 7, 0, 15, 1, 18, 8]);
    // An entry type decides what comes behind it: here a key hash would be read as a certificate, and the other way round.
    let precertificate = hex(PRECERTIFICATE_BY_HAND);
    of(1, &precertificate, &[0, 1, 0, 0, 7, 1, 12, 32, 47, 1, 50, 0]);
    of(1, &with_byte(&precertificate, 11, 0), &[2, 12]);
    of(1, &with_byte(&leaf, 11, 1), &[2, 12]);
    of(1, &precertificate[..12], &[2, 12]);
    of(1, &precertificate[..43], &[2, 12]);
    of(1, &precertificate[..44], &[2, 44]);
    of(1, &start(&precertificate, 44, "000000 0000"), &[5, 44]);
    of(1, &start(&precertificate, 44, "000000"), &[5, 44]);
    of(1, &precertificate[..47], &[2, 44]);
    of(1, &precertificate[..48], &[2, 48]);
    of(1, &precertificate[..49], &[2, 48]);
    of(1, &start(&precertificate, 50, "00"), &[3, 50]);

    let receipt = hex(RECEIPT_BY_HAND);
    of(2, &receipt, &[0, 2, 0, 1, 32, 5, 43, 0, 1027, 47, 0]);
    of(2, &[], &[2, 0]);
    of(2, &[0], &[2, 1]);
    of(2, &[1], &[4, 0]);
    of(2, &receipt[..32], &[2, 1]);
    of(2, &receipt[..33], &[2, 33]);
    of(2, &receipt[..40], &[2, 33]);
    of(2, &receipt[..41], &[2, 41]);
    of(2, &receipt[..42], &[2, 41]);
    of(2, &receipt[..43], &[2, 43]);
    of(2, &receipt[..44], &[2, 43]);
    of(2, &receipt[..45], &[2, 45]);
    of(2, &receipt[..46], &[2, 45]);
    of(2, &start(&receipt, 43, "ffff 0001"), &[2, 45]);
    of(2, &start(&receipt, 43, "ffff 0001 73"), &[0, 2, 0, 1, 32, 5, 43, 0, 65_535, 47, 1]);
    of(2, &start(&receipt, 43, "0000 0000"), &[0, 2, 0, 1, 32, 5, 43, 0, 0, 47, 0]);
    of(2, &start(&receipt, 47, "00"), &[3, 47]);
    of(2, &start(&receipt, 41, "0001"), &[2, 41]);
    // Extensions of the second edition's form out of order, alike and cut: here they are bytes.
    of(2, &start(&receipt, 41, "0008 0002000000010000 0403 0000"), &[0, 2, 0, 1, 32, 5, 43, 8, 1027, 55, 0]);
    of(2, &start(&receipt, 41, "0008 0001000000010000 0403 0000"), &[0, 2, 0, 1, 32, 5, 43, 8, 1027, 55, 0]);
    of(2, &start(&receipt, 41, "0003 000100 0403 0000"), &[0, 2, 0, 1, 32, 5, 43, 3, 1027, 50, 0]);
    of(2, &start(&receipt, 41, "0004 0001ffff 0403 0001 73"), &[0, 2, 0, 1, 32, 5, 43, 4, 1027, 51, 1]);

    let head = hex(HEAD_BY_HAND);
    of(3, &head, &[0, 3, 0, 1, 5, 9, 18, 32]);
    of(3, &[], &[2, 0]);
    of(3, &[0], &[2, 1]);
    of(3, &[1, 1], &[4, 0]);
    of(3, &with_byte(&head, 1, 0), &[4, 1]);
    of(3, &with_byte(&head, 1, 2), &[4, 1]);
    of(3, &[0, 0], &[4, 1]);
    of(3, &[0, 2], &[4, 1]);
    of(3, &head[..2], &[2, 2]);
    of(3, &head[..9], &[2, 2]);
    of(3, &head[..10], &[2, 10]);
    of(3, &head[..17], &[2, 10]);
    of(3, &head[..18], &[2, 18]);
    of(3, &head[..49], &[2, 18]);
    of(3, &start(&head, 50, "00"), &[3, 50]);
    of(3, &start(&head, 50, "0403 0000"), &[3, 50]);

    // One under the name of another, and names that are none.
    of(2, &leaf, &[2, 1]);
    of(3, &leaf, &[4, 1]);
    of(1, &receipt, &[4, 1]);
    of(3, &receipt, &[4, 1]);
    of(1, &head, &[4, 1]);
    of(2, &head, &[2, 41]);
    for (edition, which) in [(1, 0), (1, 4), (1, 257), (0, 1), (2, 1), (257, 1)] {
        for input in [&[][..], &[1], &leaf] {
            all.push((edition, which, input.to_vec(), &[4, 0]));
        }
    }
    all
}

/// Cases for the writer: edition, structure, fields, room, and number, place and count of the answer.
pub fn write_by_hand() -> Vec<(u16, u16, Fields, usize, [u64; 3])> {
    let good = Fields {
        entry_type: 0,
        timestamp: 7,
        size: 9,
        algorithms: 0x0403,
        log_id: vec![0x2a; 32],
        key_hash: vec![0x4b; 32],
        certificate: vec![0x63],
        extensions: vec![],
        signature: vec![],
        root: vec![0x52; 32],
    };
    let precertificate = Fields { entry_type: 1, ..good.clone() };
    let other = Fields { entry_type: 2, ..good.clone() };
    let mut all: Vec<(u16, u16, Fields, usize, [u64; 3])> = Vec::new();
    for (which, fields, length) in [(1, &good, 18), (1, &precertificate, 50), (2, &good, 47), (3, &good, 50)] {
        all.push((1, which, fields.clone(), length, [0, 0, length as u64]));
        all.push((1, which, fields.clone(), length + 1, [0, 0, length as u64]));
        all.push((1, which, fields.clone(), length - 1, [9, 0, 0]));
        all.push((1, which, fields.clone(), 0, [9, 0, 0]));
    }
    let mut refused = |which: u16, fields: &Fields, number: u64, place: u64| {
        all.push((1, which, fields.clone(), 60, [number, place, 0]));
        all.push((1, which, fields.clone(), 0, [number, place, 0]));
    };
    let with = |fields: &Fields, change: fn(&mut Fields)| {
        let mut changed = fields.clone();
        change(&mut changed);
        changed
    };
    refused(1, &other, 4, 10);
    refused(1, &with(&other, |f| f.certificate.clear()), 4, 10);
    refused(1, &with(&good, |f| f.entry_type = 256), 4, 10);
    refused(1, &with(&good, |f| f.certificate.clear()), 5, 12);
    refused(1, &with(&good, |f| f.extensions = vec![0; 65_536]), 5, 16);
    refused(1, &with(&precertificate, |f| f.key_hash.truncate(31)), 5, 12);
    refused(1, &with(&precertificate, |f| f.key_hash.push(0)), 5, 12);
    refused(1, &with(&precertificate, |f| (f.key_hash, f.certificate) = (vec![], vec![])), 5, 12);
    refused(1, &with(&precertificate, |f| f.certificate.clear()), 5, 44);
    refused(1, &with(&precertificate, |f| f.extensions = vec![0; 65_536]), 5, 48);
    refused(2, &with(&good, |f| f.log_id.truncate(31)), 5, 1);
    refused(2, &with(&good, |f| (f.log_id, f.signature) = (vec![0; 33], vec![0; 65_536])), 5, 1);
    refused(2, &with(&good, |f| f.extensions = vec![0; 65_536]), 5, 41);
    refused(2, &with(&good, |f| f.signature = vec![0; 65_536]), 5, 45);
    refused(3, &with(&good, |f| f.root.truncate(31)), 5, 18);
    refused(3, &with(&good, |f| f.root.push(0)), 5, 18);
    // What a structure or its entry type lacks is not looked at.
    for (which, fields, length) in [
        (1, with(&good, |f| (f.key_hash, f.log_id, f.root) = (vec![], vec![1], vec![2; 33])), 18),
        (1, with(&good, |f| (f.key_hash, f.signature) = (vec![0; 33], vec![0; 65_536])), 18),
        (2, with(&good, |f| (f.entry_type, f.key_hash, f.certificate) = (2, vec![], vec![])), 47),
        (2, with(&good, |f| f.root = vec![0; 31]), 47),
        (3, with(&good, |f| (f.entry_type, f.log_id, f.extensions) = (65_535, vec![], vec![0; 65_536])), 50),
        (3, with(&good, |f| (f.key_hash, f.certificate, f.signature) = (vec![1], vec![], vec![0; 65_536])), 50),
    ] {
        all.push((1, which, fields, length, [0, 0, length as u64]));
    }
    for (edition, which) in [(1, 0), (1, 4), (0, 1), (2, 1), (257, 2), (65_535, 3)] {
        all.push((edition, which, good.clone(), 60, [4, 0, 0]));
        all.push((edition, which, Fields { entry_type: 2, ..Fields::default() }, 0, [4, 0, 0]));
    }
    all
}

// What a log issues, byte for byte: an entry's leaf, that of a precertificate, and a receipt.

/// A certificate of 389 bytes in DER, for a key on P-256. Its TBS certificate is the 299 bytes from the fifth on.
const ISSUED_CERTIFICATE: &str = concat!(
    "3082018130820127a00302010202141fca636cc2b7056033b9922129b02cdd77748f81300a06082a8648ce3d04030230163114301206035504030c0b",
    "6c6f672e6578616d706c65301e170d3236313131373135323930345a170d3237303231353135323930345a30163114301206035504030c0b6c6f672e",
    "6578616d706c653059301306072a8648ce3d020106082a8648ce3d0301070342000460dac590da9ee707083b1421999f820dfee2480188802727bee4",
    "bd2d03c2146962cf2b5ede9ae3f8008da3ec7868653996b7c0b7e5162a1546950d56a09b3b06a3533051301d0603551d0e041604141a429f8570a9a5",
    "e378e55747523990392e3a6c35301f0603551d230418301680141a429f8570a9a5e378e55747523990392e3a6c35300f0603551d130101ff04053003",
    "0101ff300a06082a8648ce3d0403020348003045022100a1a5653c0f2599ef752c539702e12fd21500861199c01947b7fd85b8e840460e022022401f",
    "be643d66981d4b7852c6ee9a4c490c9c2b67063c0e9cc9aadeea6e2957",
);
/// The SHA-256 of the log's key, and that of the issuer's.
const ISSUED_LOG_ID: &str = "aeec50b63eab4a515d52fafa65595ccd4fd5626747d3864a0afc461355b997b9";
const ISSUED_KEY_HASH: &str = "4e964896533cbe77cc15a956e9fb7ea24e36fb9d1314e562e52b6d59da76085a";
/// 25 December 2024, in milliseconds: 1735123456789.
const ISSUED_TIMESTAMP: &str = "00000193fd6ad315";
/// By ECDSA in DER, 71 bytes.
const ISSUED_SIGNATURE: &str = concat!(
    "304502203e1156243ebc157dd4243b85822197bbb3750283f0f9ee0b60f09b8f28b34bff022100ee16c15be16090faddda32041fee52a033da9cf2e3",
    "9671c57545ef9eb09ae395",
);

/// The structure, its bytes, and what the reader answers.
pub fn issued() -> [(u16, Vec<u8>, &'static [u64]); 3] {
    let certificate = ISSUED_CERTIFICATE;
    let tbs = &certificate[8..606];
    [
        (1, hex(&format!("00 00 {ISSUED_TIMESTAMP} 0000 000185 {certificate} 0000")), &[0, 1, 0, 0, 1_735_123_456_789, 0, 15, 389, 406, 0]),
        (
            1,
            hex(&format!("00 00 {ISSUED_TIMESTAMP} 0001 {ISSUED_KEY_HASH} 00012b {tbs} 0000")),
            &[0, 1, 0, 0, 1_735_123_456_789, 1, 12, 32, 47, 299, 348, 0],
        ),
        (
            2,
            hex(&format!("00 {ISSUED_LOG_ID} {ISSUED_TIMESTAMP} 0000 04 03 0047 {ISSUED_SIGNATURE}")),
            &[0, 2, 0, 1, 32, 1_735_123_456_789, 43, 0, 1027, 47, 71],
        ),
    ]
}

fn issued_cases(requests: &mut Requests) {
    for (which, input, _) in issued() {
        ask_read(requests, which, &input);
        let fields = Fields::of(&input, &first::read(EDITION, which, &input).unwrap());
        ask_write(requests, which, &fields, input.len());
        if which == LEAF {
            requests.ask("leaf", &[bytes(&input)]);
        }
    }
}

fn cases(requests: &mut Requests) {
    let random = &mut Random::new(612);
    for (edition, which, input, _) in read_by_hand() {
        requests.ask("first_read", &read_words(edition, which, &input));
    }
    for (edition, which, fields, lent, _) in write_by_hand() {
        requests.ask("first_write", &write_words(edition, which, &fields, repeated(lent, 0xee)));
    }
    issued_cases(requests);
    for (which, entry_type) in LAYOUTS {
        let fields = Fields { extensions: vec![1], ..smallest(entry_type, 9) };
        ask_whole_and_damaged(requests, which, &encode(EDITION, which, &fields).unwrap(), random);
    }
    name_cases(requests);
    write_cases(requests, random);

    lines_that_are_no_request(requests, "first_read 1 1");
    for line in [
        "first_read",
        "first_read 1 1",
        "first_read 1 1 1",
        "first_read 1 1 x x",
        "first_read x 1 x",
        "first_read 1 x x",
        "first_read 65536 1 x",
        "first_read 65537 1 x",
        "first_read 1 65536 x",
        "first_read 1 65537 x",
        "first_write",
        "first_write 1 1",
        "first_write 1 1 0 0 0 0 x x x x x x",
        "first_write 1 1 0 0 0 0 x x x x x x x x",
        "first_write 65537 1 0 0 0 0 x x x x x x x",
        "first_write 1 65537 0 0 0 0 x x x x x x x",
        "first_write 1 1 65536 0 0 0 x x x x x x x",
        "first_write 1 2 65536 0 0 0 x x x x x x x",
        "first_write 1 2 0 0 0 65536 x x x x x x x",
        "first_write 1 3 0 0 0 65536 x x x x x x x",
        "first_write 1 1 0 x 0 0 x x x x x x x",
        "first_write 1 1 0 0 x 0 x x x x x x x",
        "first_write 1 1 0 18446744073709551616 0 0 x x x x x x x",
        "first_write 1 1 0 0 0 0 0 x x x x x x",
        "first_write 1 1 0 0 0 0 x x x x x 0 x",
        "first_write 1 1 0 0 0 0 x x x x x x 0",
    ] {
        requests.line(line.as_bytes());
    }
}

/// Longest fields, every byte of many structures changed, every beginning of more.
fn full(requests: &mut Requests) {
    let random = &mut Random::new(613);
    for _ in 0..4 {
        write_cases(requests, random);
    }
    name_cases(requests);
    for (which, entry_type) in LAYOUTS {
        for _ in 0..8 {
            ask_whole_and_damaged(requests, which, &encode(EDITION, which, &random_fields(entry_type, random)).unwrap(), random);
        }
        for _ in 0..6 {
            let input = encode(EDITION, which, &random_fields(entry_type, random)).unwrap();
            for at in 0..input.len() {
                let other = random.byte();
                for byte in [input[at].wrapping_add(1), input[at].wrapping_sub(1), other] {
                    ask_read(requests, which, &with_byte(&input, at, byte));
                }
            }
        }
    }
    for (which, input, _) in issued() {
        ask_whole_and_damaged(requests, which, &input, random);
    }

    // The longest fields, as many as a line holds.
    for (which, entry_type) in LAYOUTS {
        for (certificate, extensions, signature) in
            [(1, 65_535, 0), (1, 0, 65_535), (300, 65_534, 65_000), (65_535, 2, 3), (65_536, 3, 2), (130_000, 1, 1)]
        {
            let mut long = random_fields(entry_type, random);
            long.certificate = random.bytes(certificate);
            long.extensions = random.bytes(extensions);
            long.signature = random.bytes(signature);
            let input = encode(EDITION, which, &long).unwrap();
            ask_read(requests, which, &input);
            ask_read(requests, which, &input[..input.len() - 1]);
            ask_read(requests, which, &[&input[..], &[0]].concat());
            for at in judged_bytes(which, &input) {
                let change = *random.pick(&[1, 255]);
                ask_read(requests, which, &with_byte(&input, at, input[at].wrapping_add(change)));
            }
        }
    }
    // Written: longest fields of repeated bytes, and one byte more.
    for (which, entry_type) in LAYOUTS {
        let mut long = smallest(entry_type, 6);
        long.certificate = vec![4; 300_000];
        long.extensions = vec![3; 65_535];
        long.signature = vec![2; 65_535];
        let (length, wanted) = (length_of(which, &long), without_others(which, &long));
        for lent in [length, length + 1, length - 1] {
            ask_write(requests, which, &wanted, lent);
        }
        for (extensions, signature) in [(65_536, 65_535), (65_535, 65_536), (65_536, 65_536), (65_537, 0), (0, 65_537), (131_072, 131_072)]
        {
            let f = Fields { extensions: vec![3; extensions], signature: vec![2; signature], ..long.clone() };
            ask_write(requests, which, &f, 10);
            ask_write(requests, which, &f, length);
        }
    }
}

// Random requests.

/// None to three small changes, many of them at the bytes of types and lengths.
fn damage(input: &mut Vec<u8>, judged: &[usize], random: &mut Random) {
    for _ in 0..*random.pick(&[0, 0, 1, 1, 1, 2, 3]) {
        if input.is_empty() {
            return;
        }
        let at = random.below(input.len() as u64) as usize;
        match random.below(10) {
            0 | 1 => input.truncate(at),
            2 => {
                let count = random.between(1, 40) as usize;
                input.extend(random.bytes(count));
            }
            3 => input[at] ^= 1 << random.below(8),
            4 => input[at] = random.byte(),
            5 => input.insert(at, random.byte()),
            6 => {
                input.remove(at);
            }
            _ => {
                if let Some(byte) = input.get_mut(*random.pick(judged)) {
                    let change = *random.pick(&[1, 255, 2, 254, 128]);
                    *byte = byte.wrapping_add(change);
                }
            }
        }
    }
}

/// Mostly the name of this structure.
fn random_name(which: u16, random: &mut Random) -> (u16, u16) {
    match random.below(20) {
        0 => (*random.pick(&EDITIONS), *random.pick(&STRUCTURES)),
        1 => (EDITION, *random.pick(&STRUCTURES)),
        2 => (random.draw() as u16, which),
        _ => (EDITION, which),
    }
}

/// A name, and a structure that is whole, mostly damaged, or any bytes.
pub fn random_structure(random: &mut Random) -> (u16, u16, Vec<u8>) {
    let (which, entry_type) = *random.pick(&LAYOUTS);
    let mut input = encode(EDITION, which, &random_fields(entry_type, random)).unwrap();
    let judged = judged_bytes(which, &input);
    // The reader's one length out of range is that of an empty certificate.
    if which == LEAF && random.one_in(8) {
        input[judged[4]..judged[4] + 3].fill(0);
    }
    damage(&mut input, &judged, random);
    if random.one_in(40) {
        let count = random.below(60) as usize;
        input = random.bytes(count);
    }
    let (edition, which) = random_name(which, random);
    (edition, which, input)
}

fn random_read(random: &mut Random) -> Vec<Word> {
    let (edition, which, input) = random_structure(random);
    read_words(edition, which, &input)
}

fn random_write(random: &mut Random) -> Vec<Word> {
    let (which, entry_type) = *random.pick(&LAYOUTS);
    let mut fields = random_fields(entry_type, random);
    if random.one_in(2) {
        fields = without_others(which, &fields);
    }
    for _ in 0..*random.pick(&[0, 0, 1, 1, 3]) {
        (random.pick(&BAD_FIELDS).0)(&mut fields);
    }
    if random.one_in(20) {
        fields.entry_type = random.draw() as u16;
    }
    let (edition, which) = random_name(which, random);
    let length = encode(edition, which, &fields).map_or(random.below(100) as usize, |all| all.len());
    let lent = match random.below(6) {
        0 => random.below(length as u64 + 1) as usize,
        1 => length.saturating_sub(1),
        2 => length + random.below(50) as usize,
        _ => length,
    };
    let byte = random.byte();
    write_words(edition, which, &fields, repeated(lent, byte))
}

#[cfg(test)]
mod tests {
    use super::*;
    use crate::requests::{answer, layer};
    use crate::words::{read_line, write_line};
    use std::collections::BTreeMap;

    fn ask(line: &str) -> String {
        String::from_utf8(answer(&[layer("first").unwrap()], line.as_bytes())).unwrap()
    }

    #[test]
    fn answers() {
        assert_eq!(ask("first_read 1 1 x000000000000000000070000000001630000"), "0 1 0 0 7 0 15 1 18 0\n");
        assert_eq!(ask("first_read 1 1 x0000000000000000000700"), "2 10\n");
        assert_eq!(ask("first_read 1 3 x0002"), "4 1\n");
        assert_eq!(ask("first_read 2 1 x"), "4 0\n");
        assert_eq!(ask("first_read 1 65536 x"), "?\n");
        assert_eq!(ask("first_write 1 1 0 7 0 0 x x x63 x x x 19*07"), "0 0 18 x00000000000000000007000000000163000007\n");
        assert_eq!(ask("first_write 1 1 2 7 0 0 x x x63 x x x 2*07"), "4 10 0 x0707\n");
        assert_eq!(ask("first_write 1 1 0 7 0 0 x x x63 x x x 2*07"), "9 0 0 x0707\n");
        assert_eq!(ask("first_write 1 0 0 7 0 0 x x x63 x x x 2*07"), "4 0 0 x0707\n");
        assert_eq!(ask("first_write 1 1 65536 7 0 0 x x x63 x x x 2*07"), "?\n");
        assert_eq!(ask("first_write 1 1 0 7 0 65536 x x x63 x x x 2*07"), "?\n");
        let (id, root) = ("2a".repeat(32), "52".repeat(32));
        assert_eq!(
            ask(&format!("first_write 1 2 9 5 0 1027 x{id} x x x x73 x 48*07")),
            format!("0 0 48 x00{id}000000000000000500000403000173\n")
        );
        assert_eq!(
            ask(&format!("first_write 1 3 9 5 6 1027 x x x x x73 x{root} 50*07")),
            format!("0 0 50 x000100000000000000050000000000000006{root}\n")
        );
    }

    #[test]
    fn bad_fields_are_refused_by_the_structures_that_have_them() {
        let random = &mut Random::new(3);
        for (which, entry_type) in LAYOUTS {
            for (change, name) in BAD_FIELDS {
                let mut fields = random_fields(entry_type, random);
                change(&mut fields);
                let refused = encode(EDITION, which, &fields).map_err(|refusal| refusal.number).err();
                let expected = if name == "entry_type" { 4 } else { 5 };
                assert_eq!(refused, refusable(which, entry_type).contains(&name).then_some(expected), "{which} {entry_type} {name}");
            }
            assert!(encode(EDITION, which, &without_others(which, &random_fields(entry_type, random))).is_ok());
        }
    }

    /// How often each number is answered.
    #[test]
    fn random_requests_meet_every_number() {
        let random = &mut Random::new(6);
        let expected: [(&str, &[u64]); 2] = [("first_read", &[0, 2, 3, 4, 5]), ("first_write", &[0, 4, 5, 9])];
        for (name, numbers) in expected {
            let entry = LAYER.entries.iter().find(|entry| entry.name == name).unwrap();
            let mut counts = BTreeMap::new();
            for _ in 0..6_000 {
                let mut line = Vec::new();
                write_line(Some(name), &(entry.random)(random), &mut line);
                let answer = answer(&[layer("first").unwrap()], &line[..line.len() - 1]);
                let words = read_line(&[b"answer ", &answer[..answer.len() - 1]].concat()).unwrap().1;
                *counts.entry(words[0].as_number().unwrap()).or_insert(0) += 1;
            }
            println!("{name}: {counts:?}");
            assert_eq!(counts.keys().copied().collect::<Vec<u64>>(), numbers, "{name}");
            assert!(counts.values().all(|count| *count >= 100), "{name}: {counts:?}");
        }
    }
}
