//! Log items: read, written, their paths joined, and the newer of two heads.

use crate::item::{self, encode, Fields, Item, Span};
use crate::random::Random;
use crate::requests::{lines_that_are_no_request, Asked, Entry, Layer, Requests};
use crate::words::{bytes, number, read_hex, repeated, Word};
use std::collections::BTreeSet;

pub const LAYER: Layer = Layer {
    name: "item",
    entries: &[
        Entry { name: "read", answer: read, random: random_read },
        Entry { name: "write", answer: write, random: random_write },
        Entry { name: "newer", answer: newer, random: random_newer },
        Entry { name: "path_into", answer: path_into, random: random_path },
    ],
    lists: None,
    cases,
    full,
};

/// One of each layout.
const LAYOUTS: [u16; 5] = [0x0101, 0x0103, 0x0104, 0x0105, 0xf001];
pub const KINDS: [u16; 8] = [0x0100, 0x0101, 0x0102, 0x0103, 0x0104, 0x0105, 0x0106, 0xf001];
/// The types that have extensions.
pub const EXTENDED: [u16; 5] = [0x0100, 0x0101, 0x0102, 0x0103, 0x0104];
/// Types of extensions: both ends, and both sides of a byte's carry and of the highest bit.
pub const EXTENSION_TYPES: [u16; 6] = [0, 0x00ff, 0x0100, 0x7fff, 0x8000, 0xffff];

// Answers.

/// The type, then a number for a number field and start and length for a vector.
fn read(words: &[Word]) -> Option<Vec<Word>> {
    let [input] = words else { return None };
    let input = input.as_bytes()?;
    let (kind, item) = match item::read(input) {
        Ok(answer) => answer,
        Err(refusal) => return Some(vec![number(refusal.number), number(refusal.place as u64)]),
    };
    // What is accepted is written again.
    assert_eq!(encode(kind, &Fields::of(input, &item)).as_deref(), Ok(input), "written again");
    let mut answer = vec![number(0), number(kind as u64)];
    let mut part = |field: Part| match field {
        Part::Number(value) => answer.push(number(value)),
        Part::Vector(span) => answer.extend([number(span.start as u64), number(span.len() as u64)]),
    };
    parts(&item).into_iter().for_each(&mut part);
    Some(answer)
}

enum Part {
    Number(u64),
    Vector(Span),
}

/// The fields in layout order.
fn parts(item: &Item) -> Vec<Part> {
    let n = |value: &u64| Part::Number(*value);
    let v = |span: &Span| Part::Vector(span.clone());
    match item {
        Item::Entry { timestamp, key_hash, certificate, extensions } => vec![n(timestamp), v(key_hash), v(certificate), v(extensions)],
        Item::Receipt { log_id, timestamp, extensions, signature } => vec![v(log_id), n(timestamp), v(extensions), v(signature)],
        Item::Head { log_id, timestamp, size, root, extensions, signature } => {
            vec![v(log_id), n(timestamp), n(size), v(root), v(extensions), v(signature)]
        }
        Item::Consistency { log_id, size_one, size_two, path } => vec![v(log_id), n(size_one), n(size_two), v(path)],
        Item::Inclusion { log_id, size, place, path } => vec![v(log_id), n(size), n(place), v(path)],
        Item::Page { timestamp, agreement, page, body } => vec![n(timestamp), n(agreement), n(page), v(body)],
    }
}

/// The type and the page number are of 16 bits.
fn write(words: &[Word]) -> Option<Vec<Word>> {
    let [kind, timestamp, log_id, key_hash, certificate, extensions, signature, size, second, place, root, path, agreement, page, body, lent] =
        words
    else {
        return None;
    };
    let kind = u16::try_from(kind.as_number()?).ok()?;
    let fields = Fields {
        timestamp: timestamp.as_number()?,
        log_id: log_id.as_bytes()?.to_vec(),
        key_hash: key_hash.as_bytes()?.to_vec(),
        certificate: certificate.as_bytes()?.to_vec(),
        extensions: extensions.as_bytes()?.to_vec(),
        signature: signature.as_bytes()?.to_vec(),
        size: size.as_number()?,
        second: second.as_number()?,
        place: place.as_number()?,
        root: root.as_bytes()?.to_vec(),
        path: path.as_bytes()?.to_vec(),
        agreement: agreement.as_number()?,
        page: u16::try_from(page.as_number()?).ok()?,
        body: body.as_bytes()?.to_vec(),
    };
    let mut lent = lent.as_bytes()?.to_vec();
    let (refusal, place, count) = match item::write(kind, &fields, &mut lent) {
        Ok(count) => {
            // What is written reads back as the same fields.
            let (read_kind, item) = item::read(&lent[..count]).expect("readable");
            assert_eq!(read_kind, kind);
            assert_eq!(encode(kind, &Fields::of(&lent[..count], &item)).unwrap(), lent[..count]);
            (0, 0, count)
        }
        Err(refusal) => (refusal.number, refusal.place, 0),
    };
    Some(vec![number(refusal), number(place as u64), number(count as u64), bytes(&lent)])
}

fn newer(words: &[Word]) -> Option<Vec<Word>> {
    let [first, second] = words else { return None };
    Some(vec![bytes(item::newer(first.as_bytes()?, second.as_bytes()?))])
}

/// Any numbers are a part.
fn path_into(words: &[Word]) -> Option<Vec<Word>> {
    let [input, start, length, lent] = words else { return None };
    let input = input.as_bytes()?;
    let (start, length) = (start.as_number()? as usize, length.as_number()? as usize);
    let mut lent = lent.as_bytes()?.to_vec();
    let (refusal, place, count) = match item::path_into(input, start, length, &mut lent) {
        Ok(count) => {
            // Each hash, with its length in front, is what stands there.
            let elements: Vec<u8> = lent[..count].chunks(32).flat_map(|hash| [&[32], hash].concat()).collect();
            assert_eq!(elements, input[start..start + length]);
            (0, 0, count)
        }
        Err(refusal) => (refusal.number, refusal.place, 0),
    };
    Some(vec![number(refusal), number(place as u64), number(count as u64), bytes(&lent)])
}

// Requests.

/// Bytes, in short where they repeat one byte.
fn short(value: &[u8]) -> Word {
    match value {
        [first, rest @ ..] if rest.len() > 8 && rest.iter().all(|byte| byte == first) => repeated(value.len(), *first),
        _ => bytes(value),
    }
}

pub fn write_words(kind: u16, f: &Fields, lent: Word) -> Vec<Word> {
    vec![
        number(kind as u64),
        number(f.timestamp),
        short(&f.log_id),
        short(&f.key_hash),
        short(&f.certificate),
        short(&f.extensions),
        short(&f.signature),
        number(f.size),
        number(f.second),
        number(f.place),
        short(&f.root),
        short(&f.path),
        number(f.agreement),
        number(f.page as u64),
        short(&f.body),
        lent,
    ]
}

fn ask_read(requests: &mut Requests, input: &[u8]) {
    requests.ask("read", &[short(input)]);
}

/// Every field as short as it may be.
pub fn smallest(byte: u8) -> Fields {
    Fields {
        log_id: vec![byte; 2],
        key_hash: vec![byte; 32],
        certificate: vec![byte],
        signature: vec![byte],
        root: vec![byte; 32],
        body: vec![byte],
        ..Fields::default()
    }
}

fn random_type(random: &mut Random) -> u16 {
    if random.one_in(3) {
        *random.pick(&EXTENSION_TYPES)
    } else {
        random.draw() as u16
    }
}

/// Extensions of these types, with data of any bytes.
fn extensions_of(types: impl IntoIterator<Item = u16>, longest: u64, random: &mut Random) -> Vec<u8> {
    let mut all = Vec::new();
    for one in types {
        let length = random.below(longest + 1);
        all.extend(one.to_be_bytes());
        all.extend((length as u16).to_be_bytes());
        all.extend(random.bytes(length as usize));
    }
    all
}

/// So many extensions in order.
fn random_extensions(count: usize, longest: u64, random: &mut Random) -> Vec<u8> {
    let mut types = BTreeSet::new();
    while types.len() < count {
        types.insert(random_type(random));
    }
    extensions_of(types, longest, random)
}

/// Where the extensions of a list start, up to one that is cut; and where the last of them ends.
fn starts(encoded: &[u8]) -> (Vec<usize>, usize) {
    let (mut all, mut at) = (Vec::new(), 0);
    while let Some(length) = encoded.get(at + 2..at + 4) {
        let next = at + 4 + u16::from_be_bytes([length[0], length[1]]) as usize;
        if next > encoded.len() {
            break;
        }
        all.push(at);
        at = next;
    }
    (all, at)
}

fn type_at(encoded: &[u8], at: usize) -> u16 {
    u16::from_be_bytes([encoded[at], encoded[at + 1]])
}

fn set_type(encoded: &mut [u8], at: usize, to: u16) {
    encoded[at..at + 2].copy_from_slice(&to.to_be_bytes());
}

/// Takes one extension out of order: its type becomes the one before it, or a smaller
/// one, or changes places with it. A list of fewer than two has more then.
fn disorder(encoded: &mut Vec<u8>, random: &mut Random) {
    let (mut all, end) = starts(encoded);
    if all.len() < 2 {
        encoded.truncate(end);
        while all.len() < 2 {
            all.push(encoded.len());
            encoded.extend(extensions_of([random_type(random)], 3, random));
        }
    }
    let at = random.between(1, all.len() as u64 - 1) as usize;
    let (before, own) = (type_at(encoded, all[at - 1]), type_at(encoded, all[at]));
    match random.below(4) {
        0 => set_type(encoded, all[at], before),
        1 => set_type(encoded, all[at], before.saturating_sub(1)),
        2 => set_type(encoded, all[at], random.between(0, before as u64) as u16),
        _ => {
            set_type(encoded, all[at - 1], before.max(own));
            set_type(encoded, all[at], before.min(own));
        }
    }
}

/// Extensions that are refused: out of order, cut, or out of order and cut behind it.
fn bad_extensions(encoded: &[u8], random: &mut Random) -> Vec<u8> {
    let mut bad = encoded.to_vec();
    let sort = random.below(4);
    if sort < 3 {
        disorder(&mut bad, random);
    }
    if sort >= 2 {
        let whole = extensions_of([random_type(random)], 3, random);
        let keep = random.between(1, whole.len() as u64 - 1) as usize;
        bad.extend(&whole[..keep]);
    }
    bad
}

/// The item with these elements of its extensions, whatever they are; its other
/// fields are in range.
pub fn with_elements(kind: u16, fields: &Fields, elements: &[u8]) -> Vec<u8> {
    let without = encode(kind, &Fields { extensions: vec![], ..fields.clone() }).unwrap();
    let at = extensions_in(&item::read(&without).unwrap().1).expect("a type with extensions").start;
    [&without[..at - 2], &(elements.len() as u16).to_be_bytes(), elements, &without[at..]].concat()
}

fn extensions_in(item: &Item) -> Option<Span> {
    match item {
        Item::Entry { extensions, .. } | Item::Receipt { extensions, .. } | Item::Head { extensions, .. } => Some(extensions.clone()),
        _ => None,
    }
}

/// Fields of any sort, of a few dozen bytes; all in range.
pub fn random_fields(random: &mut Random) -> Fields {
    fn some(random: &mut Random, least: u64, usual: u64, most: u64) -> Vec<u8> {
        let length = match random.below(12) {
            0 => least,
            1 => most,
            _ => random.between(least, usual),
        };
        random.bytes(length as usize)
    }
    fn value(random: &mut Random) -> u64 {
        let bits = random.below(65);
        random.draw().checked_shr(bits as u32).unwrap_or(0)
    }
    let extensions = *random.pick(&[0, 1, 1, 2, 2, 3, 3, 6]);
    let nodes = random.below(5);
    Fields {
        timestamp: value(random),
        log_id: some(random, 2, 8, 127),
        key_hash: random.bytes(32),
        certificate: some(random, 1, 40, 300),
        extensions: random_extensions(extensions, 9, random),
        signature: some(random, 1, 40, 300),
        size: value(random),
        second: value(random),
        place: value(random),
        root: random.bytes(32),
        path: random.bytes(32 * nodes as usize),
        agreement: value(random),
        page: value(random) as u16,
        body: some(random, 1, 40, 300),
    }
}

/// Every field in the middle, with two extensions and two nodes.
fn middle(random: &mut Random) -> Fields {
    let mut fields = random_fields(random);
    fields.log_id = random.bytes(5);
    fields.certificate = random.bytes(9);
    fields.extensions = random_extensions(2, 5, random);
    fields.signature = random.bytes(7);
    fields.path = random.bytes(64);
    fields.body = random.bytes(9);
    fields
}

/// Where the bytes of all lengths stand, of vectors and of their elements.
fn length_bytes(input: &[u8]) -> Vec<usize> {
    let (_, item) = item::read(input).expect("a whole item");
    let mut places = Vec::new();
    let mut prefix = |span: &Span, width: usize| places.extend(span.start - width..span.start);
    let mut path_of = None;
    match &item {
        Item::Entry { key_hash, certificate, .. } => {
            prefix(key_hash, 1);
            prefix(certificate, 3);
        }
        Item::Receipt { log_id, signature, .. } => {
            prefix(log_id, 1);
            prefix(signature, 2);
        }
        Item::Head { log_id, root, signature, .. } => {
            prefix(log_id, 1);
            prefix(root, 1);
            prefix(signature, 2);
        }
        Item::Consistency { log_id, path, .. } | Item::Inclusion { log_id, path, .. } => {
            prefix(log_id, 1);
            path_of = Some(path.clone());
        }
        Item::Page { body, .. } => prefix(body, 3),
    }
    if let Some(span) = extensions_in(&item) {
        prefix(&span, 2);
        let data = starts(&input[span.clone()]).0.into_iter().map(|at| span.start + at + 4);
        data.for_each(|at| prefix(&(at..at), 2));
    }
    if let Some(span) = path_of {
        prefix(&span, 2);
        span.step_by(33).for_each(|at| prefix(&(at + 1..at + 1), 1));
    }
    places
}

fn with_byte(input: &[u8], at: usize, byte: u8) -> Vec<u8> {
    let mut changed = input.to_vec();
    changed[at] = byte;
    changed
}

/// The item with every two neighbours of its extensions out of order: of one type, and exchanged.
fn out_of_order(input: &[u8]) -> Vec<Vec<u8>> {
    let Some(span) = extensions_in(&item::read(input).expect("a whole item").1) else { return vec![] };
    let all = starts(&input[span.clone()]).0;
    let with = |two: &[usize], types: [u16; 2]| {
        let mut changed = input.to_vec();
        (0..2).for_each(|i| set_type(&mut changed, span.start + two[i], types[i]));
        changed
    };
    let pair = |two: &[usize]| {
        let [one, other] = [0, 1].map(|i| type_at(input, span.start + two[i]));
        [with(two, [one, one]), with(two, [other, one])]
    };
    all.windows(2).flat_map(pair).collect()
}

/// An item, each of its beginnings, each length byte off by one and at its ends,
/// extensions out of order, and bytes after it.
pub fn whole_and_damaged(input: &[u8], random: &mut Random) -> Vec<Vec<u8>> {
    let mut all = vec![input.to_vec()];
    all.extend((0..input.len()).map(|cut| input[..cut].to_vec()));
    for at in length_bytes(input) {
        let changes = [input[at].wrapping_add(1), input[at].wrapping_sub(1), 0, 255];
        all.extend(changes.map(|byte| with_byte(input, at, byte)));
    }
    all.extend(out_of_order(input));
    all.extend([1, 2, 33].map(|add| [input, &random.bytes(add)].concat()));
    all
}

fn ask_whole_and_damaged(requests: &mut Requests, input: &[u8], random: &mut Random) {
    whole_and_damaged(input, random).iter().for_each(|one| requests.ask("read", &[bytes(one)]));
}

/// A change of one field.
type Change = (fn(&mut Fields, &mut Random), &'static str);

/// Lengths next to and beyond the ends of each field's range, and extensions cut or out of order.
const BAD_FIELDS: [Change; 29] = [
    (|f, _| f.log_id.clear(), "log_id"),
    (|f, _| f.log_id.truncate(1), "log_id"),
    (|f, _| f.log_id = vec![1; 128], "log_id"),
    (|f, _| f.log_id = vec![1; 256], "log_id"),
    (|f, _| f.key_hash.clear(), "key_hash"),
    (|f, _| f.key_hash.truncate(31), "key_hash"),
    (|f, _| f.key_hash.push(0), "key_hash"),
    (|f, _| f.key_hash = vec![2; 288], "key_hash"),
    (|f, _| f.certificate.clear(), "certificate"),
    (|f, _| f.signature.clear(), "signature"),
    (|f, _| f.signature = vec![3; 65_536], "signature"),
    (|f, _| f.signature = vec![3; 65_537], "signature"),
    (|f, _| f.extensions = vec![0; 65_536], "extensions"),
    (|f, _| f.extensions = vec![0; 65_535], "extensions"),
    (|f, _| f.extensions = vec![255; 65_535], "extensions"),
    (|f, r| f.extensions.extend(r.bytes(1)), "extensions"),
    (|f, r| f.extensions.extend([r.byte(), 0, 0]), "extensions"),
    (|f, r| f.extensions.extend([r.byte(), 0, 0, 2, 7]), "extensions"),
    (|f, r| disorder(&mut f.extensions, r), "extensions"),
    (|f, r| f.extensions = bad_extensions(&f.extensions, r), "extensions"),
    (|f, _| f.extensions = [&[255, 255, 0, 0], &f.extensions[..]].concat(), "extensions"),
    (|f, _| f.extensions.extend([0; 7]), "extensions"),
    (|f, _| f.root.truncate(31), "root"),
    (|f, _| f.root.push(0), "root"),
    (|f, r| f.path.extend(r.bytes(1)), "path"),
    (|f, r| f.path.extend(r.bytes(31)), "path"),
    (|f, _| f.path = vec![4; 63_521], "path"),
    (|f, _| f.path = vec![4; 63_552], "path"),
    (|f, _| f.body.clear(), "body"),
];

/// The fields that a type has and that can be refused.
fn vectors_of(kind: u16) -> &'static [&'static str] {
    match kind {
        0x0100 | 0x0101 => &["key_hash", "certificate", "extensions"],
        0x0102 | 0x0103 => &["log_id", "extensions", "signature"],
        0x0104 => &["log_id", "root", "extensions", "signature"],
        0x0105 | 0x0106 => &["log_id", "path"],
        _ => &["body"],
    }
}

/// The fields that a type lacks, made bad: they aren't looked at.
fn without_others(kind: u16, fields: &Fields) -> Fields {
    let mut f = fields.clone();
    let has = |name: &str| vectors_of(kind).contains(&name);
    if !has("log_id") {
        f.log_id = vec![9];
    }
    if !has("key_hash") {
        f.key_hash = vec![];
    }
    if !has("certificate") {
        f.certificate = vec![];
    }
    if !has("extensions") {
        f.extensions = vec![0; 9];
    }
    if !has("signature") {
        f.signature = vec![];
    }
    if !has("root") {
        f.root = vec![8; 3];
    }
    if !has("path") {
        f.path = vec![5; 33];
    }
    if !has("body") {
        f.body = vec![];
    }
    f
}

fn write_cases(requests: &mut Requests, kinds: &[u16], random: &mut Random) {
    for &kind in kinds {
        for fields in [smallest(kind as u8), middle(random)] {
            let fields = without_others(kind, &fields);
            let length = encode(kind, &fields).unwrap().len();
            for lent in [length, length + 5, length - 1, 0] {
                requests.ask("write", &write_words(kind, &fields, repeated(lent, 0xee)));
            }
        }
        let fields = middle(random);
        for (change, _) in BAD_FIELDS {
            let mut bad = fields.clone();
            change(&mut bad, random);
            let lent = if random.one_in(2) { 0 } else { 200 };
            requests.ask("write", &write_words(kind, &bad, repeated(lent, 0xdd)));
        }
        // Two bad fields: the first of the layout is the one refused.
        for _ in 0..3 {
            let mut bad = fields.clone();
            let mut names = vectors_of(kind).to_vec();
            while names.len() > 2 {
                names.remove(random.below(names.len() as u64) as usize);
            }
            for name in names {
                let of_name: Vec<&Change> = BAD_FIELDS.iter().filter(|(_, n)| *n == name).collect();
                (random.pick(&of_name).0)(&mut bad, random);
            }
            requests.ask("write", &write_words(kind, &bad, repeated(3, 0xcc)));
        }
    }
    // Numbers at their ends.
    for value in [0, 255, 256, 1 << 32, u64::MAX] {
        for kind in KINDS {
            let mut f = smallest(1);
            f.timestamp = value;
            f.size = value;
            f.second = value ^ 3;
            f.place = value ^ 5;
            f.agreement = value ^ 7;
            f.page = value as u16;
            let length = encode(kind, &f).unwrap().len();
            requests.ask("write", &write_words(kind, &without_others(kind, &f), repeated(length, 0)));
        }
    }
    for kind in [0, 1, 2, 0x00ff, 0x0107, 0x0108, 0x0200, 0x0001, 0x0201, 0x0401, 0x0601, 0xf000, 0xf002, 0x01f0, 0xffff] {
        requests.ask("write", &write_words(kind, &smallest(1), repeated(100, 0)));
        requests.ask("write", &write_words(kind, &Fields::default(), bytes(&[])));
    }
    // The longest path and the longest certificate of a request, with no room for them.
    let mut long = smallest(7);
    long.path = vec![7; item::LONGEST_PATH];
    for kind in [0x0105, 0x0106] {
        requests.ask("write", &write_words(kind, &long, repeated(10, 1)));
    }
    long = smallest(7);
    long.certificate = vec![7; 1_000_000];
    requests.ask("write", &write_words(0x0100, &long, repeated(10, 1)));
}

fn newer_cases(requests: &mut Requests, random: &mut Random) {
    let head = |size: u64, timestamp: u64, log_id: &[u8], random: &mut Random| {
        let fields = Fields { size, timestamp, log_id: log_id.to_vec(), ..middle(random) };
        encode(0x0104, &fields).unwrap()
    };
    for size in [0, 255, 256, 257, u64::MAX] {
        for timestamp in [0, 254, 255, 256, u64::MAX] {
            let one = head(256, 255, b"id", random);
            let two = head(size, timestamp, b"id", random);
            requests.ask("newer", &[bytes(&one), bytes(&two)]);
            requests.ask("newer", &[bytes(&two), bytes(&one)]);
        }
    }
    let good = head(9, 9, b"abc", random);
    for other_id in [&b"abd"[..], b"ab", b"abcd", b"bbc"] {
        let other = head(10, 10, other_id, random);
        requests.ask("newer", &[bytes(&good), bytes(&other)]);
        requests.ask("newer", &[bytes(&other), bytes(&good)]);
    }
    let mut others: Vec<Vec<u8>> = KINDS.map(|kind| encode(kind, &Fields { log_id: b"abc".to_vec(), ..middle(random) }).unwrap()).to_vec();
    others.push(vec![]);
    others.push(good[..good.len() - 1].to_vec());
    others.push([&good[..], &[0]].concat());
    others.push(with_byte(&good, 23, 31));
    for other in others {
        requests.ask("newer", &[bytes(&good), bytes(&other)]);
        requests.ask("newer", &[bytes(&other), bytes(&good)]);
        requests.ask("newer", &[bytes(&other), bytes(&other)]);
    }
}

fn ask_path(requests: &mut Requests, input: &[u8], start: usize, length: usize, lent: usize) {
    requests.ask("path_into", &[short(input), number(start as u64), number(length as u64), repeated(lent, 0xee)]);
}

/// Where the vectors of a whole item lie.
fn vectors(input: &[u8]) -> Vec<Span> {
    let (_, item) = item::read(input).expect("a whole item");
    let vector = |part| match part {
        Part::Vector(span) => Some(span),
        Part::Number(_) => None,
    };
    parts(&item).into_iter().filter_map(vector).collect()
}

/// Numbers that are no place of any bytes, and sums that don't fit.
const WILD: [usize; 5] = [1 << 32, 1 << 63, (1 << 63) + 1, usize::MAX - 1, usize::MAX];

fn path_cases(requests: &mut Requests, counts: &[usize], random: &mut Random) {
    for kind in [0x0105, 0x0106] {
        for &count in counts {
            let input = encode(kind, &Fields { path: random.bytes(32 * count), ..middle(random) }).unwrap();
            let path = vectors(&input).pop().unwrap();
            let (start, length, joined) = (path.start, path.len(), 32 * count);
            for lent in [joined, joined + 5, joined.saturating_sub(1), joined / 2, 0] {
                ask_path(requests, &input, start, length, lent);
            }
            // Parts beside it, and some of its elements alone.
            for (start, length) in [
                (start, length + 1),
                (start, length.saturating_sub(1)),
                (start, length / 66 * 33),
                (start + 33, length.saturating_sub(33)),
                (start + 1, length.saturating_sub(1)),
                (start - 1, length + 1),
                (start - 1, length),
                (start - 2, length + 2),
                (0, input.len()),
                (start, 0),
                (input.len(), 0),
                (input.len() + 1, 0),
                (input.len(), 1),
            ] {
                ask_path(requests, &input, start, length, joined);
                ask_path(requests, &input, start, length, 0);
            }
            // Each element's length changed.
            for at in path.clone().step_by(33) {
                for byte in [0, 31, 33, 255] {
                    ask_path(requests, &with_byte(&input, at, byte), start, length, joined);
                }
                ask_path(requests, &with_byte(&input, at, 31), start, length, 0);
            }
            for wild in WILD {
                ask_path(requests, &input, wild, length, joined);
                ask_path(requests, &input, start, wild, joined);
                ask_path(requests, &input, wild, wild, joined);
                ask_path(requests, &input, wild, wild.wrapping_neg(), joined);
                ask_path(requests, &input, start, wild.wrapping_sub(start), joined);
            }
        }
    }
    // Vectors that are no path.
    for kind in KINDS {
        let input = encode(kind, &middle(random)).unwrap();
        for part in vectors(&input) {
            ask_path(requests, &input, part.start, part.len(), 64);
        }
    }
    // Hashes of which every byte is their length.
    for count in [0, 1, 32, 33, 34, 65, 66, 67, 660] {
        ask_path(requests, &vec![32; count], 0, count, count);
        ask_path(requests, &vec![32; count], 1, count.saturating_sub(1), 10);
    }
}

/// The cases by hand of request 5, extensions in order, as its readings list them, and types at
/// their ends: the elements of the extensions of `around(0x0102)`, the first of which stands at
/// 15; then number and place, 0 where it is read.
pub const ORDER_BY_HAND: [(&str, u64, usize); 18] = [
    ("0001000000020000", 0, 0),
    ("0000000000010000", 0, 0),
    ("7fff000080000000", 0, 0),
    ("0001000000010000", 15, 19),
    ("ffff0000ffff0000", 15, 19),
    ("00020001aa00010000", 15, 20),
    ("00010000000300000002000000040000", 15, 23),
    ("00020000000100", 2, 19),
    ("0002000000010001", 2, 19),
    ("000200000001000000000001", 15, 19),
    ("0002000000030001", 2, 19),
    ("", 0, 0),
    ("00000000", 0, 0),
    ("fffe0000ffff0000", 0, 0),
    ("00ff000001000000", 0, 0),
    ("0100000000ff0000", 15, 19),
    ("800000007fff0000", 15, 19),
    ("0000000000000000", 15, 19),
];

/// The fields of these cases.
pub fn by_hand() -> Fields {
    Fields {
        timestamp: 5,
        log_id: vec![0x2a, 3],
        key_hash: vec![0x44; 32],
        certificate: vec![0x63],
        signature: vec![0x73],
        size: 7,
        root: vec![0x44; 32],
        ..Fields::default()
    }
}

/// Their item of a type that has extensions: what stands before this vector, and what behind it.
pub fn around(kind: u16) -> (Vec<u8>, &'static [u8]) {
    const LOG_ID: &[u8] = &[2, 0x2a, 3];
    const SIGNATURE: &[u8] = &[0, 1, 0x73];
    const TIMESTAMP: &[u8] = &[0, 0, 0, 0, 0, 0, 0, 5];
    const SIZE: &[u8] = &[0, 0, 0, 0, 0, 0, 0, 7];
    const CERTIFICATE: &[u8] = &[0, 0, 1, 0x63];
    let mut hash = [0x44; 33];
    hash[0] = 32;
    let kind_bytes = &kind.to_be_bytes()[..];
    match kind {
        0x0100 | 0x0101 => ([kind_bytes, TIMESTAMP, &hash, CERTIFICATE].concat(), &[]),
        0x0102 | 0x0103 => ([kind_bytes, LOG_ID, TIMESTAMP].concat(), SIGNATURE),
        _ => ([kind_bytes, LOG_ID, TIMESTAMP, SIZE, &hash].concat(), SIGNATURE),
    }
}

/// What the reader says of their item of a type, with extensions of so many bytes.
fn read_by_hand(kind: u16, length: u64) -> Vec<Word> {
    let says: &[u64] = match kind {
        0x0100 | 0x0101 => &[5, 11, 32, 46, 1, 49, length],
        0x0102 | 0x0103 => &[3, 2, 5, 15, length, 17 + length, 1],
        _ => &[3, 2, 5, 7, 22, 32, 56, length, 58 + length, 1],
    };
    [0, kind as u64].iter().chain(says).map(|value| number(*value)).collect()
}

/// These cases for the reader and the writer, in every type that has extensions: each request with the answer that must be given.
fn order_cases() -> Vec<(Vec<Word>, Asked)> {
    let mut all = Vec::new();
    for kind in EXTENDED {
        let (before, behind) = around(kind);
        let (vector, first) = (before.len(), before.len() + 2);
        let item = |said: usize, elements: &[u8], behind: &[u8]| [&before, &(said as u16).to_be_bytes()[..], elements, behind].concat();
        let read = |answer: Vec<Word>, input: &[u8]| (answer, ("read", vec![bytes(input)]));
        let refused = |refusal: u64, place: usize, input: &[u8]| read(vec![number(refusal), number(place as u64)], input);
        let unwritten = |refusal: u64, place: usize, fields: &Fields, lent: usize| {
            let answer = vec![number(refusal), number(place as u64), number(0), bytes(&vec![0xee; lent])];
            (answer, ("write", write_words(kind, fields, repeated(lent, 0xee))))
        };
        for (elements, refusal, place) in ORDER_BY_HAND {
            let elements = read_hex(elements.as_bytes()).unwrap();
            let input = item(elements.len(), &elements, behind);
            let fields = Fields { extensions: elements.clone(), ..by_hand() };
            if refusal == 0 {
                all.push(read(read_by_hand(kind, elements.len() as u64), &input));
                let answer = vec![number(0), number(0), number(input.len() as u64), bytes(&input)];
                all.push((answer, ("write", write_words(kind, &fields, repeated(input.len(), 0xee)))));
                all.push(unwritten(9, 0, &fields, input.len() - 1));
                continue;
            }
            let place = place - 15 + first;
            all.push(refused(refusal, place, &input));
            all.push(unwritten(refusal, place, &fields, input.len()));
            all.push(unwritten(refusal, place, &Fields { signature: vec![], ..fields }, 0));
        }
        let elements = read_hex(b"0002000000010000").unwrap();
        if !behind.is_empty() {
            all.push(refused(15, first + 4, &item(8, &elements, &[0, 0])));
        }
        all.push(refused(15, first + 4, &item(8, &elements, &[behind, &[0]].concat())));
        all.push(refused(2, vector, &item(12, &elements, behind)));
        all.push(unwritten(5, vector, &Fields { extensions: vec![0; 65_536], ..by_hand() }, 0));
        let earlier = Fields { log_id: vec![0x2a], key_hash: vec![0x44; 31], extensions: elements, ..by_hand() };
        all.push(unwritten(5, if kind < 0x0102 { 10 } else { 2 }, &earlier, 0));
    }
    all
}

/// Newer-head, where the extensions of one head or of both are out of order: the empty part, whichever is larger.
fn newer_order_cases() -> Vec<(Vec<Word>, Asked)> {
    let head = |size: u64| encode(0x0104, &Fields { size, extensions: vec![0, 1, 0, 0, 0, 2, 0, 0], ..by_hand() }).unwrap();
    // The second extension stands at 60.
    let equal = |size: u64| with_byte(&head(size), 61, 1);
    let below = |size: u64| with_byte(&head(size), 61, 0);
    let ask = |part: &[u8], one: &[u8], two: &[u8]| (vec![bytes(part)], ("newer", vec![bytes(one), bytes(two)]));
    let mut all = vec![ask(&head(6), &head(5), &head(6)), ask(&head(6), &head(6), &head(5)), ask(&head(5), &head(5), &head(5))];
    for bad in [equal(4), equal(5), equal(6), below(4), below(6)] {
        all.extend([ask(&[], &bad, &head(5)), ask(&[], &head(5), &bad), ask(&[], &bad, &bad)]);
    }
    all
}

/// The papers' item of 23 bytes, whole and spoilt.
fn papers_cases(requests: &mut Requests) {
    let whole = read_hex(b"0106022a030000000000000001000000000000000000").unwrap();
    let whole = [&whole[..], &[0]].concat();
    assert_eq!(whole.len(), 23);
    ask_read(requests, &whole);
    ask_read(requests, &whole[..22]);
    ask_read(requests, &[&whole[..], &[0]].concat());
    ask_read(requests, &with_byte(&whole, 2, 1));
    ask_read(requests, &with_byte(&whole, 2, 128));
    ask_read(requests, &[]);
}

fn cases(requests: &mut Requests) {
    let random = &mut Random::new(412);
    papers_cases(requests);
    for kind in KINDS {
        ask_whole_and_damaged(requests, &encode(kind, &smallest(kind as u8)).unwrap(), random);
        // The type's two bytes, changed.
        let input = encode(kind, &smallest(9)).unwrap();
        for at in 0..2 {
            for byte in [input[at].wrapping_add(1), input[at].wrapping_sub(1), 0, 255] {
                ask_read(requests, &with_byte(&input, at, byte));
            }
        }
    }
    for kind in LAYOUTS {
        ask_whole_and_damaged(requests, &encode(kind, &middle(random)).unwrap(), random);
    }
    // Longest log id, and one more.
    for kind in [0x0102, 0x0104, 0x0105, 0x0106] {
        let input = encode(kind, &Fields { log_id: random.bytes(127), ..middle(random) }).unwrap();
        ask_read(requests, &input);
        ask_read(requests, &with_byte(&input, 2, 128));
        ask_read(requests, &[&input[..2], &[128, 0], &input[3..]].concat());
    }
    for count in [1, 2, 3, 10, 100, 1_048_576] {
        for byte in [0, 1, 255] {
            ask_read(requests, &vec![byte; count]);
        }
    }
    write_cases(requests, &LAYOUTS, random);
    newer_cases(requests, random);
    order_cases().into_iter().chain(newer_order_cases()).for_each(|(_, (name, words))| requests.ask(name, &words));
    path_cases(requests, &[0, 1, 2], &mut Random::new(414));

    lines_that_are_no_request(requests, "read");
    for line in [
        "read",
        "read 1",
        "read x x",
        "newer x",
        "newer x x x",
        "newer 1 2",
        "write",
        "write 256",
        "write 256 0 x x x x x 0 0 0 x x 0 0 x",
        "write 256 0 x x x x x 0 0 0 x x 0 0 x x x",
        "write x 0 x x x x x 0 0 0 x x 0 0 x x",
        "write 256 x x x x x x 0 0 0 x x 0 0 x x",
        "write 256 0 0 x x x x 0 0 0 x x 0 0 x x",
        "write 256 0 x x x x x 0 0 0 x x 0 x x x",
        "write 256 0 x x x x x 0 0 0 x x 0 0 x 0",
        "path_into",
        "path_into x 0 0",
        "path_into x 0 0 x x",
        "path_into 0 0 0 x",
        "path_into x x 0 x",
        "path_into x 0 x x",
        "path_into x 0 0 0",
        "path_into x 18446744073709551616 0 x",
    ] {
        requests.line(line.as_bytes());
    }
}

/// As many extensions as a list holds, in order.
pub fn most_extensions() -> Vec<u8> {
    (0..65_535 / 4).flat_map(|i: u16| [(i >> 8) as u8, i as u8, 0, 0]).collect()
}

/// Long lists of which one extension is out of order, at any place.
fn long_order_cases(requests: &mut Requests, random: &mut Random) {
    for kind in EXTENDED {
        for count in [7, 33] {
            let good = random_extensions(count, 3, random);
            for at in starts(&good).0.windows(2) {
                let before = type_at(&good, at[0]);
                for own in [before, before.saturating_sub(1), 0] {
                    let mut extensions = good.clone();
                    set_type(&mut extensions, at[1], own);
                    requests.ask("read", &[bytes(&with_elements(kind, &by_hand(), &extensions))]);
                    requests.ask("write", &write_words(kind, &Fields { extensions, ..by_hand() }, repeated(7, 0xee)));
                }
            }
        }
    }
    let mut extensions = most_extensions();
    for kind in EXTENDED {
        let last = extensions.len() - 4;
        let own = type_at(&extensions, last);
        for other in [own, own - 1, 0] {
            set_type(&mut extensions, last, other);
            requests.ask("read", &[bytes(&with_elements(kind, &by_hand(), &extensions))]);
        }
        set_type(&mut extensions, last, own);
    }
}

/// Longest fields, every byte of many items changed, every beginning of more.
fn full(requests: &mut Requests) {
    let random = &mut Random::new(413);
    write_cases(requests, &KINDS, random);
    for kind in KINDS {
        for _ in 0..4 {
            ask_whole_and_damaged(requests, &encode(kind, &random_fields(random)).unwrap(), random);
        }
        for _ in 0..3 {
            let input = encode(kind, &random_fields(random)).unwrap();
            for at in 0..input.len() {
                let other = random.byte();
                for byte in [input[at].wrapping_add(1), input[at].wrapping_sub(1), other] {
                    requests.ask("read", &[bytes(&with_byte(&input, at, byte))]);
                }
            }
        }
    }

    // The longest fields, as many as a line holds.
    let mut long = middle(random);
    long.log_id = random.bytes(127);
    long.signature = random.bytes(65_535);
    let long_signature = long.clone();
    long.signature = random.bytes(1);
    long.extensions = [&[0, 9, 0xff, 0xfb][..], &random.bytes(65_531)].concat();
    let long_extension = long.clone();
    long.extensions = most_extensions();
    let many_extensions = long.clone();
    long.extensions = vec![];
    long.path = random.bytes(item::LONGEST_PATH);
    let long_path = long.clone();
    long.certificate = random.bytes(130_000);
    long.body = random.bytes(130_000);
    for kind in KINDS {
        for fields in [&long_signature, &long_extension, &many_extensions, &long_path, &long] {
            let input = encode(kind, fields).unwrap();
            ask_read(requests, &input);
            ask_read(requests, &input[..input.len() - 1]);
            ask_read(requests, &[&input[..], &[0]].concat());
            let places = length_bytes(&input);
            for _ in 0..2 {
                let at = *random.pick(&places);
                let change = *random.pick(&[1, 255]);
                ask_read(requests, &with_byte(&input, at, input[at].wrapping_add(change)));
            }
        }
    }
    // The longest path.
    let input = encode(0x0106, &Fields { path: vec![9; item::LONGEST_PATH], ..smallest(6) }).unwrap();
    let path = vectors(&input).pop().unwrap();
    for lent in [item::LONGEST_PATH, item::LONGEST_PATH - 1] {
        ask_path(requests, &input, path.start, path.len(), lent);
    }
    path_cases(requests, &[0, 1, 2, 7, 31, 33, 100], random);
    long_order_cases(requests, random);
    // Written: longest fields of repeated bytes.
    let mut long = smallest(6);
    long.log_id = vec![1; 127];
    long.extensions = most_extensions();
    long.signature = vec![2; 65_535];
    long.path = vec![3; item::LONGEST_PATH];
    long.certificate = vec![4; 300_000];
    long.body = vec![5; 300_000];
    for kind in KINDS {
        let length = encode(kind, &long).unwrap().len();
        let wanted = without_others(kind, &long);
        for lent in [length, length + 1, length - 1] {
            requests.ask("write", &write_words(kind, &wanted, repeated(lent, 0xee)));
        }
    }
}

// Random requests.

/// None to three small changes, many of them at the bytes of lengths.
fn damage(input: &mut Vec<u8>, lengths: &[usize], random: &mut Random) {
    for _ in 0..*random.pick(&[0, 1, 1, 2, 3]) {
        if input.is_empty() {
            return;
        }
        let at = random.below(input.len() as u64) as usize;
        match random.below(10) {
            0 => input.truncate(at),
            1 => {
                let count = random.between(1, 40) as usize;
                input.extend(random.bytes(count));
            }
            2 => input[at] ^= 1 << random.below(8),
            3 => input[at] = random.byte(),
            4 => input.insert(at, random.byte()),
            5 => {
                input.remove(at);
            }
            6 => input[at.min(1)] ^= 1 << random.below(3),
            _ => {
                if let Some(byte) = input.get_mut(*random.pick(lengths)) {
                    let change = *random.pick(&[1, 255, 2, 254, 128]);
                    *byte = byte.wrapping_add(change);
                }
            }
        }
    }
}

/// An item of any type, mostly damaged, or any bytes.
pub fn random_item(random: &mut Random) -> Vec<u8> {
    if random.one_in(40) {
        let count = random.below(60) as usize;
        return random.bytes(count);
    }
    let kind = *random.pick(&KINDS);
    let fields = random_fields(random);
    let mut input = encode(kind, &fields).unwrap();
    let lengths = length_bytes(&input);
    if EXTENDED.contains(&kind) && random.one_in(2) {
        input = with_elements(kind, &fields, &bad_extensions(&fields.extensions, random));
        // What comes later may be wrong too: a byte more, one fewer, an empty signature, anything.
        match random.below(5) {
            0 => input.push(random.byte()),
            1 => input.truncate(input.len() - 1),
            2 if kind >= 0x0102 => {
                let signature = input.len() - fields.signature.len() - 2;
                input[signature..signature + 2].fill(0);
            }
            3 => damage(&mut input, &lengths, random),
            _ => (),
        }
    } else {
        damage(&mut input, &lengths, random);
    }
    input
}

fn random_read(random: &mut Random) -> Vec<Word> {
    vec![bytes(&random_item(random))]
}

fn random_write(random: &mut Random) -> Vec<Word> {
    let kind = if random.one_in(20) { random.draw() as u16 } else { *random.pick(&KINDS) };
    let mut fields = random_fields(random);
    if random.one_in(4) {
        fields.extensions = bad_extensions(&fields.extensions, random);
        if random.one_in(4) {
            fields.signature.clear();
        }
    }
    for _ in 0..*random.pick(&[0, 0, 1, 1, 3]) {
        let (change, _) = random.pick(&BAD_FIELDS);
        change(&mut fields, random);
    }
    let length = encode(kind, &fields).map_or(random.below(300) as usize, |all| all.len());
    let lent = match random.below(6) {
        0 => random.below(length as u64 + 1) as usize,
        1 => length.saturating_sub(1),
        2 => length + random.below(50) as usize,
        _ => length,
    };
    let byte = random.byte();
    write_words(kind, &fields, repeated(lent, byte))
}

/// A vector of an item, most often its path; then, mostly, one small change of the
/// bytes, or of the part.
fn random_path(random: &mut Random) -> Vec<Word> {
    let kind = if random.one_in(5) { *random.pick(&KINDS) } else { *random.pick(&[0x0105, 0x0106]) };
    let mut input = encode(kind, &random_fields(random)).unwrap();
    let all = vectors(&input);
    let part = if random.one_in(10) { random.pick(&all).clone() } else { all[all.len() - 1].clone() };
    let (mut start, mut length) = (part.start, part.len());
    match random.below(8) {
        0 => {
            let lengths = length_bytes(&input);
            damage(&mut input, &lengths, random);
        }
        1 => length = length.wrapping_add(*random.pick(&[1, 2, 33, 66, usize::MAX, usize::MAX - 32])),
        2 => start = start.wrapping_add(*random.pick(&[1, 2, 33, usize::MAX, usize::MAX - 32])),
        3 => {
            let elements = length / 33;
            let first = random.below(elements as u64 + 1) as usize;
            start += 33 * first;
            length = 33 * random.below((elements - first) as u64 + 1) as usize;
        }
        4 if length > 0 => {
            let at = part.start + 33 * random.below(length.div_ceil(33) as u64) as usize;
            input[at] = *random.pick(&[0, 31, 33, 64, 255]);
        }
        5 => {
            let wild = random.draw() >> random.below(64);
            match random.below(3) {
                0 => start = wild as usize,
                1 => length = wild as usize,
                _ => (start, length) = (wild as usize, (wild as usize).wrapping_neg()),
            }
        }
        _ => (),
    }
    let joined = part.len() / 33 * 32;
    let lent = match random.below(4) {
        0 => random.below(joined as u64 + 40) as usize,
        1 => joined.saturating_sub(1),
        _ => joined,
    };
    let byte = random.byte();
    vec![bytes(&input), number(start as u64), number(length as u64), repeated(lent, byte)]
}

fn random_newer(random: &mut Random) -> Vec<Word> {
    let log_id = random.bytes(3);
    let mut heads = Vec::new();
    for _ in 0..2 {
        let mut fields = random_fields(random);
        fields.log_id = log_id.clone();
        if random.one_in(10) {
            fields.log_id[2] ^= 1;
        }
        fields.size = random.below(3) << (8 * random.below(2));
        fields.timestamp = random.below(3) << (8 * random.below(2));
        let kind = if random.one_in(20) { *random.pick(&KINDS) } else { 0x0104 };
        let mut head = encode(kind, &fields).unwrap();
        match random.below(12) {
            0 | 1 => {
                let lengths = length_bytes(&head);
                damage(&mut head, &lengths, random);
            }
            2 | 3 if EXTENDED.contains(&kind) => head = with_elements(kind, &fields, &bad_extensions(&fields.extensions, random)),
            _ => (),
        }
        heads.push(bytes(&head));
    }
    heads
}

#[cfg(test)]
mod tests {
    use super::*;
    use crate::requests::{answer, layer};
    use crate::words::{read_line, write_line};
    use std::collections::BTreeMap;

    fn ask(line: &str) -> String {
        String::from_utf8(answer(&[layer("item").unwrap()], line.as_bytes())).unwrap()
    }

    #[test]
    fn answers() {
        assert_eq!(ask("read x0106022a030000000000000001000000000000000000"), "2 21\n");
        assert_eq!(ask("read x0106022a03000000000000000100000000000000000000"), "0 262 3 2 1 0 23 0\n");
        assert_eq!(
            ask("write 262 0 x2a03 x x x x 1 9 0 x x 0 0 x 24*07"),
            format!("0 0 23 x0106022a03{}01{}07\n", "00".repeat(7), "00".repeat(10))
        );
        assert_eq!(ask("write 262 0 x2a x x x x 1 9 0 x x 0 0 x 1*07"), "5 2 0 x07\n");
        assert_eq!(ask("write 263 0 x2a x x x x 1 9 0 x x 0 0 x 1*07"), "4 0 0 x07\n");
        assert_eq!(ask("write 65536 0 x2a x x x x 1 9 0 x x 0 0 x 1*07"), "?\n");
        assert_eq!(ask("newer x x"), "x\n");
        let element = format!("20{}", "ab".repeat(32));
        assert_eq!(ask(&format!("path_into x00{element}{element} 1 66 65*07")), format!("0 0 64 x{}07\n", "ab".repeat(64)));
        assert_eq!(ask(&format!("path_into x00{element}{element} 0 66 2*07")), "5 0 0 x0707\n");
        assert_eq!(ask(&format!("path_into x00{element}{element} 1 65 2*07")), "2 34 0 x0707\n");
        assert_eq!(ask(&format!("path_into x00{element}{element} 1 66 2*07")), "9 0 0 x0707\n");
        assert_eq!(ask("path_into x 18446744073709551615 18446744073709551615 x"), "2 18446744073709551615 0 x\n");
    }

    #[test]
    fn bad_fields_are_refused_by_the_types_that_have_them() {
        let random = &mut Random::new(3);
        for kind in KINDS {
            for (change, name) in BAD_FIELDS {
                let mut fields = middle(random);
                change(&mut fields, random);
                assert_eq!(encode(kind, &fields).is_err(), vectors_of(kind).contains(&name), "{kind:#x} {name}");
            }
            assert!(encode(kind, &without_others(kind, &middle(random))).is_ok());
        }
    }

    /// The words of a request's answer, after it was a line.
    fn answered((name, words): &Asked) -> Vec<Word> {
        let mut line = Vec::new();
        write_line(Some(name), words, &mut line);
        let answer = answer(&[layer("item").unwrap()], &line[..line.len() - 1]);
        read_line(&[b"answer ", &answer[..answer.len() - 1]].concat()).unwrap().1
    }

    /// The cases by hand give the readings' numbers and places.
    #[test]
    fn extensions_by_hand() {
        assert_eq!(around(0x0102).0, read_hex(b"0102022a030000000000000005").unwrap());
        let all = [order_cases(), newer_order_cases()].concat();
        for (at, (expected, asked)) in all.iter().enumerate() {
            assert_eq!(&answered(asked), expected, "{at}: {asked:?}");
        }
        // Read, written, and written with no room or a later fault; five more, but for the entries' signature; newer.
        assert_eq!(all.len(), 5 * (3 * ORDER_BY_HAND.len() + 5) - 2 + 3 + 5 * 3);
        for elements in ["0001000000020000", "7fff000080000000"] {
            let elements = read_hex(elements.as_bytes()).unwrap();
            assert_eq!(
                encode(0x0104, &Fields { extensions: elements.clone(), ..by_hand() }),
                Ok(with_elements(0x0104, &by_hand(), &elements))
            );
        }
    }

    #[test]
    fn extensions_are_taken_out_of_order() {
        let random = &mut Random::new(9);
        for _ in 0..3_000 {
            let count = random.below(6) as usize;
            let good = random_extensions(count, 3, random);
            assert_eq!((starts(&good).0.len(), starts(&good).1), (count, good.len()));
            let list = |extensions: Vec<u8>| encode(0x0103, &Fields { extensions, ..by_hand() }).map_err(|refusal| refusal.number);
            assert!(list(good.clone()).is_ok());
            let mut other = good.clone();
            disorder(&mut other, random);
            assert_eq!(list(other), Err(15));
            assert!(matches!(list(bad_extensions(&good, random)), Err(2 | 15)));
            let input = encode(0x0100, &Fields { extensions: good, ..by_hand() }).unwrap();
            let others = out_of_order(&input);
            assert_eq!(others.len(), 2 * count.saturating_sub(1));
            assert!(others.iter().all(|other| item::read(other).is_err_and(|refusal| refusal.number == 15)));
        }
        assert!(encode(0x0104, &Fields { extensions: most_extensions(), ..by_hand() }).is_ok());
    }

    /// How often each number is answered; 15 often, and before every fault that can come later.
    #[test]
    fn random_requests_meet_every_number() {
        let random = &mut Random::new(6);
        let expected: [(&str, &[u64]); 3] =
            [("read", &[0, 2, 3, 4, 5, 15]), ("write", &[0, 2, 4, 5, 9, 10, 15]), ("path_into", &[0, 2, 5, 9])];
        for (name, numbers) in expected {
            let entry = LAYER.entries.iter().find(|entry| entry.name == name).unwrap();
            let (mut counts, mut without) = (BTreeMap::new(), BTreeMap::new());
            for _ in 0..6_000 {
                let mut asked = (entry.name, (entry.random)(random));
                let refusal = answered(&asked)[0].as_number().unwrap();
                *counts.entry(refusal).or_insert(0) += 1;
                if (name, refusal) == ("write", 15) {
                    asked.1[5] = bytes(&[]);
                    *without.entry(answered(&asked)[0].as_number().unwrap()).or_insert(0) += 1;
                }
            }
            println!("{name}: {counts:?}; 15 without its extensions: {without:?}");
            assert_eq!(counts.keys().copied().collect::<Vec<u64>>(), numbers, "{name}");
            assert!(counts.values().all(|count| *count >= 40), "{name}: {counts:?}");
            assert!(counts.get(&15).is_none_or(|count| *count >= 600), "{name}: {counts:?}");
            assert!(name != "write" || [0, 5, 9].iter().all(|number| without.contains_key(number)), "{without:?}");
        }
        // Two heads of which one is newer, and those of which none is.
        let empty = (0..1_000).filter(|_| answered(&("newer", random_newer(random))) == [bytes(&[])]).count();
        assert!((300..700).contains(&empty), "{empty}");
    }
}
