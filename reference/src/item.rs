//! Log items (RFC 9162, 4.4 to 4.12, and our page): a reader that says where
//! each field lies, and a writer. Numbers are big-endian.

use std::ops::Range;

pub const LONGEST_ITEM: usize = 33_554_432;
/// Nodes of 33 bytes that a vector of at most 65,535 bytes can hold, as joined hashes.
pub const LONGEST_PATH: usize = 63_520;

/// A refusal's number and place.
#[derive(Clone, Copy, Debug, PartialEq, Eq)]
pub struct Refusal {
    pub number: u64,
    pub place: usize,
}

pub(crate) fn refuse<T>(number: u64, place: usize) -> Result<T, Refusal> {
    Err(Refusal { number, place })
}

/// Where the body of a vector lies.
pub type Span = Range<usize>;

#[derive(Clone, Debug, PartialEq, Eq)]
pub enum Item {
    /// 0x0100 x509_entry_v2 and 0x0101 precert_entry_v2.
    Entry { timestamp: u64, key_hash: Span, certificate: Span, extensions: Span },
    /// 0x0102 x509_sct_v2 and 0x0103 precert_sct_v2.
    Receipt { log_id: Span, timestamp: u64, extensions: Span, signature: Span },
    /// 0x0104 signed_tree_head_v2.
    Head { log_id: Span, timestamp: u64, size: u64, root: Span, extensions: Span, signature: Span },
    /// 0x0105 consistency_proof_v2.
    Consistency { log_id: Span, size_one: u64, size_two: u64, path: Span },
    /// 0x0106 inclusion_proof_v2.
    Inclusion { log_id: Span, size: u64, place: u64, path: Span },
    /// 0xF001, ours.
    Page { timestamp: u64, agreement: u64, page: u64, body: Span },
}

/// Reads from the left.
pub(crate) struct Reader<'a> {
    pub bytes: &'a [u8],
    pub at: usize,
}

impl Reader<'_> {
    pub fn left(&self) -> usize {
        self.bytes.len() - self.at
    }

    /// A number of `width` bytes.
    pub fn number(&mut self, width: usize) -> Result<u64, Refusal> {
        if self.left() < width {
            return refuse(2, self.at);
        }
        let bytes = &self.bytes[self.at..self.at + width];
        self.at += width;
        Ok(bytes.iter().fold(0, |value, byte| value << 8 | *byte as u64))
    }

    /// A vector with a prefix of `width` bytes: the prefix, its range, the body.
    pub fn vector(&mut self, width: usize, least: usize, most: usize) -> Result<Span, Refusal> {
        let start = self.at;
        let length = self.number(width)? as usize;
        if length < least || length > most {
            return refuse(5, start);
        }
        if self.left() < length {
            return refuse(2, start);
        }
        let body = self.at..self.at + length;
        self.at = body.end;
        Ok(body)
    }

    fn log_id(&mut self) -> Result<Span, Refusal> {
        self.vector(1, 2, 127)
    }

    /// NodeHash, and the issuer key hash: only 32 bytes are ours.
    fn hash(&mut self) -> Result<Span, Refusal> {
        self.vector(1, 32, 32)
    }

    fn long(&mut self) -> Result<Span, Refusal> {
        self.vector(3, 1, 0xff_ffff)
    }

    fn signature(&mut self) -> Result<Span, Refusal> {
        self.vector(2, 1, 0xffff)
    }

    /// Each extension: a type of two bytes, then data with a prefix of two.
    fn extensions(&mut self) -> Result<Span, Refusal> {
        let body = self.vector(2, 0, 0xffff)?;
        check_extensions(&self.bytes[body.clone()], body.start)?;
        Ok(body)
    }

    fn path(&mut self) -> Result<Span, Refusal> {
        let body = self.vector(2, 0, 0xffff)?;
        let mut inner = Reader { bytes: &self.bytes[..body.end], at: body.start };
        while inner.left() > 0 {
            inner.hash()?;
        }
        Ok(body)
    }
}

/// Every extension is whole, and its type is above that of the one before. The
/// first that is not is refused where it starts, 2 before 15, whatever comes
/// after it. The first of the list stands at `start` of the item.
fn check_extensions(encoded: &[u8], start: usize) -> Result<(), Refusal> {
    let mut at = 0;
    let mut before: Option<u16> = None;
    while at < encoded.len() {
        let rest = &encoded[at..];
        if rest.len() < 4 {
            return refuse(2, start + at);
        }
        let data = u16::from_be_bytes([rest[2], rest[3]]) as usize;
        if rest.len() < 4 + data {
            return refuse(2, start + at);
        }
        let kind = u16::from_be_bytes([rest[0], rest[1]]);
        if before.is_some_and(|before| kind <= before) {
            return refuse(15, start + at);
        }
        before = Some(kind);
        at += 4 + data;
    }
    Ok(())
}

/// The type and the fields of an item, which is all of `bytes`.
pub fn read(bytes: &[u8]) -> Result<(u16, Item), Refusal> {
    if bytes.len() > LONGEST_ITEM {
        return refuse(1, 0);
    }
    let mut r = Reader { bytes, at: 0 };
    let kind = r.number(2)? as u16;
    // A struct's fields are read in the order in which they are written here.
    let item = match kind {
        0x0100 | 0x0101 => {
            Item::Entry { timestamp: r.number(8)?, key_hash: r.hash()?, certificate: r.long()?, extensions: r.extensions()? }
        }
        0x0102 | 0x0103 => {
            Item::Receipt { log_id: r.log_id()?, timestamp: r.number(8)?, extensions: r.extensions()?, signature: r.signature()? }
        }
        0x0104 => Item::Head {
            log_id: r.log_id()?,
            timestamp: r.number(8)?,
            size: r.number(8)?,
            root: r.hash()?,
            extensions: r.extensions()?,
            signature: r.signature()?,
        },
        0x0105 => Item::Consistency { log_id: r.log_id()?, size_one: r.number(8)?, size_two: r.number(8)?, path: r.path()? },
        0x0106 => Item::Inclusion { log_id: r.log_id()?, size: r.number(8)?, place: r.number(8)?, path: r.path()? },
        0xf001 => Item::Page { timestamp: r.number(8)?, agreement: r.number(8)?, page: r.number(2)?, body: r.long()? },
        _ => return refuse(4, 0),
    };
    if r.left() > 0 {
        return refuse(3, r.at);
    }
    Ok((kind, item))
}

/// Every field that any type has. Extensions are their encoded elements, a path
/// is joined hashes.
#[derive(Clone, Debug, Default, PartialEq, Eq)]
pub struct Fields {
    pub timestamp: u64,
    pub log_id: Vec<u8>,
    pub key_hash: Vec<u8>,
    pub certificate: Vec<u8>,
    pub extensions: Vec<u8>,
    pub signature: Vec<u8>,
    /// The size, or size one.
    pub size: u64,
    /// Size two.
    pub second: u64,
    pub place: u64,
    pub root: Vec<u8>,
    pub path: Vec<u8>,
    pub agreement: u64,
    pub page: u16,
    pub body: Vec<u8>,
}

impl Fields {
    /// The fields of an item that was read from `bytes`; the others are empty.
    pub fn of(bytes: &[u8], item: &Item) -> Fields {
        let part = |span: &Span| bytes[span.clone()].to_vec();
        let joined = |span: &Span| bytes[span.clone()].chunks(33).flat_map(|node| &node[1..]).copied().collect();
        match item {
            Item::Entry { timestamp, key_hash, certificate, extensions } => Fields {
                timestamp: *timestamp,
                key_hash: part(key_hash),
                certificate: part(certificate),
                extensions: part(extensions),
                ..Fields::default()
            },
            Item::Receipt { log_id, timestamp, extensions, signature } => Fields {
                log_id: part(log_id),
                timestamp: *timestamp,
                extensions: part(extensions),
                signature: part(signature),
                ..Fields::default()
            },
            Item::Head { log_id, timestamp, size, root, extensions, signature } => Fields {
                log_id: part(log_id),
                timestamp: *timestamp,
                size: *size,
                root: part(root),
                extensions: part(extensions),
                signature: part(signature),
                ..Fields::default()
            },
            Item::Consistency { log_id, size_one, size_two, path } => {
                Fields { log_id: part(log_id), size: *size_one, second: *size_two, path: joined(path), ..Fields::default() }
            }
            Item::Inclusion { log_id, size, place, path } => {
                Fields { log_id: part(log_id), size: *size, place: *place, path: joined(path), ..Fields::default() }
            }
            Item::Page { timestamp, agreement, page, body } => {
                Fields { timestamp: *timestamp, agreement: *agreement, page: *page as u16, body: part(body), ..Fields::default() }
            }
        }
    }
}

/// Writes to the right.
#[derive(Default)]
pub(crate) struct Writer {
    pub bytes: Vec<u8>,
}

impl Writer {
    pub fn number(&mut self, value: u64, width: usize) {
        self.bytes.extend(&value.to_be_bytes()[8 - width..]);
    }

    /// A length out of range is refused where the field would start.
    pub fn vector(&mut self, body: &[u8], width: usize, least: usize, most: usize) -> Result<(), Refusal> {
        if body.len() < least || body.len() > most {
            return refuse(5, self.bytes.len());
        }
        self.number(body.len() as u64, width);
        self.bytes.extend(body);
        Ok(())
    }

    fn log_id(&mut self, body: &[u8]) -> Result<(), Refusal> {
        self.vector(body, 1, 2, 127)
    }

    fn hash(&mut self, body: &[u8]) -> Result<(), Refusal> {
        self.vector(body, 1, 32, 32)
    }

    fn long(&mut self, body: &[u8]) -> Result<(), Refusal> {
        self.vector(body, 3, 1, 0xff_ffff)
    }

    fn signature(&mut self, body: &[u8]) -> Result<(), Refusal> {
        self.vector(body, 2, 1, 0xffff)
    }

    fn extensions(&mut self, encoded: &[u8]) -> Result<(), Refusal> {
        let start = self.bytes.len();
        self.vector(encoded, 2, 0, 0xffff)?;
        check_extensions(encoded, start + 2)
    }

    fn path(&mut self, joined: &[u8]) -> Result<(), Refusal> {
        if joined.len() > LONGEST_PATH {
            return refuse(5, self.bytes.len());
        }
        if joined.len() % 32 != 0 {
            return refuse(10, self.bytes.len());
        }
        self.number(joined.len() as u64 / 32 * 33, 2);
        for node in joined.chunks(32) {
            self.hash(node)?;
        }
        Ok(())
    }
}

/// The item of a type with these fields.
pub fn encode(kind: u16, f: &Fields) -> Result<Vec<u8>, Refusal> {
    let mut w = Writer::default();
    w.number(kind as u64, 2);
    match kind {
        0x0100 | 0x0101 => {
            w.number(f.timestamp, 8);
            w.hash(&f.key_hash)?;
            w.long(&f.certificate)?;
            w.extensions(&f.extensions)?;
        }
        0x0102 | 0x0103 => {
            w.log_id(&f.log_id)?;
            w.number(f.timestamp, 8);
            w.extensions(&f.extensions)?;
            w.signature(&f.signature)?;
        }
        0x0104 => {
            w.log_id(&f.log_id)?;
            w.number(f.timestamp, 8);
            w.number(f.size, 8);
            w.hash(&f.root)?;
            w.extensions(&f.extensions)?;
            w.signature(&f.signature)?;
        }
        0x0105 => {
            w.log_id(&f.log_id)?;
            w.number(f.size, 8);
            w.number(f.second, 8);
            w.path(&f.path)?;
        }
        0x0106 => {
            w.log_id(&f.log_id)?;
            w.number(f.size, 8);
            w.number(f.place, 8);
            w.path(&f.path)?;
        }
        0xf001 => {
            w.number(f.timestamp, 8);
            w.number(f.agreement, 8);
            w.number(f.page as u64, 2);
            w.long(&f.body)?;
        }
        _ => return refuse(4, 0),
    }
    Ok(w.bytes)
}

/// The item into a lent buffer; how many bytes were written.
pub fn write(kind: u16, fields: &Fields, lent: &mut [u8]) -> Result<usize, Refusal> {
    let bytes = encode(kind, fields)?;
    match lent.get_mut(..bytes.len()) {
        None => refuse(9, 0),
        Some(room) => {
            room.copy_from_slice(&bytes);
            Ok(bytes.len())
        }
    }
}

/// The hashes of a path that lies at `start`, `length` bytes long, as joined hashes
/// into a lent buffer; how many bytes were written. Any numbers may be given: a
/// part that isn't in the bytes is cut short, and its elements are read as the
/// reader reads them; the buffer is asked for last.
pub fn path_into(bytes: &[u8], start: usize, length: usize, lent: &mut [u8]) -> Result<usize, Refusal> {
    let Some(part) = start.checked_add(length).and_then(|end| bytes.get(..end)) else { return refuse(2, start) };
    let mut elements = Reader { bytes: part, at: start };
    let mut joined = Vec::new();
    while elements.left() > 0 {
        joined.extend_from_slice(&bytes[elements.hash()?]);
    }
    match lent.get_mut(..joined.len()) {
        None => refuse(9, 0),
        Some(room) => {
            room.copy_from_slice(&joined);
            Ok(joined.len())
        }
    }
}

/// The newer of two signed heads: larger size, then later timestamp, then the
/// first. The empty part at the start of the first where either isn't a
/// readable head, or the log ids differ.
pub fn newer<'a>(first: &'a [u8], second: &'a [u8]) -> &'a [u8] {
    fn head(bytes: &[u8]) -> Option<(&[u8], u64, u64)> {
        match read(bytes) {
            Ok((_, Item::Head { log_id, timestamp, size, .. })) => Some((&bytes[log_id], size, timestamp)),
            _ => None,
        }
    }
    match (head(first), head(second)) {
        (Some((log_one, size_one, time_one)), Some((log_two, size_two, time_two))) if log_one == log_two => {
            if (size_two, time_two) > (size_one, time_one) {
                second
            } else {
                first
            }
        }
        _ => &first[..0],
    }
}

#[cfg(test)]
mod tests {
    use super::*;
    use crate::layers::item::ORDER_BY_HAND;
    use crate::random::Random;
    use crate::words::read_hex;

    fn refusal(number: u64, place: usize) -> Result<(u16, Item), Refusal> {
        refuse(number, place)
    }

    #[test]
    fn papers_cases() {
        let whole = read_hex(b"0106022a0300000000000000010000000000000000".as_slice()).unwrap();
        let whole = [&whole[..], &[0, 0]].concat();
        assert_eq!(whole.len(), 23);
        assert_eq!(read(&whole), Ok((0x0106, Item::Inclusion { log_id: 3..5, size: 1, place: 0, path: 23..23 })));
        assert_eq!(read(&whole[..22]), refusal(2, 21));
        assert_eq!(read(&[&whole[..], &[0]].concat()), refusal(3, 23));
        for length in [1, 128] {
            let mut other = whole.clone();
            other[2] = length;
            assert_eq!(read(&other), refusal(5, 2));
        }
        assert_eq!(read(&[]), refusal(2, 0));
        assert_eq!(read(&[1]), refusal(2, 0));
        assert_eq!(read(&[0, 1]), refusal(4, 0));
        assert_eq!(read(&vec![1; LONGEST_ITEM]), refusal(5, 10));
        assert_eq!(read(&vec![1; LONGEST_ITEM + 1]), refusal(1, 0));
    }

    fn sample() -> Fields {
        Fields {
            timestamp: 0x0102030405060708,
            log_id: vec![0x2a, 3, 4],
            key_hash: vec![0x11; 32],
            certificate: vec![0x22; 5],
            extensions: vec![0, 1, 0, 2, 9, 9, 0, 2, 0, 0],
            signature: vec![0x33; 4],
            size: 7,
            second: 8,
            place: 6,
            root: vec![0x44; 32],
            path: vec![0x55; 64],
            agreement: 12,
            page: 0x0304,
            body: vec![0x66; 3],
        }
    }

    const KINDS: [u16; 8] = [0x0100, 0x0101, 0x0102, 0x0103, 0x0104, 0x0105, 0x0106, 0xf001];

    #[test]
    fn known_bytes() {
        let f = sample();
        let hex = |kind| crate::words::hex(&encode(kind, &f).unwrap());
        let (h11, h44, h55) = ("11".repeat(32), "44".repeat(32), "55".repeat(32));
        let ext = "000a00010002090900020000";
        assert_eq!(hex(0x0100), format!("0100010203040506070820{h11}0000052222222222{ext}"));
        assert_eq!(hex(0x0103), format!("0103032a03040102030405060708{ext}000433333333"));
        assert_eq!(hex(0x0104), format!("0104032a03040102030405060708000000000000000720{h44}{ext}000433333333"));
        assert_eq!(hex(0x0105), format!("0105032a030400000000000000070000000000000008004220{h55}20{h55}"));
        assert_eq!(hex(0x0106), format!("0106032a030400000000000000070000000000000006004220{h55}20{h55}"));
        assert_eq!(hex(0xf001), "f0010102030405060708000000000000000c0304000003666666");
    }

    #[test]
    fn round_trips() {
        for kind in KINDS {
            let bytes = encode(kind, &sample()).unwrap();
            let (read_kind, item) = read(&bytes).unwrap();
            assert_eq!(read_kind, kind);
            let fields = Fields::of(&bytes, &item);
            assert_eq!(encode(kind, &fields).unwrap(), bytes);
            for cut in 0..bytes.len() {
                let Err(Refusal { number, place }) = read(&bytes[..cut]) else { panic!("{cut}") };
                assert_eq!(number, 2);
                assert!(place <= cut);
            }
        }
    }

    #[test]
    fn inner_elements() {
        // Head: extensions from 2 + 4 + 8 + 8 + 33, their elements two later.
        let bytes = encode(0x0104, &sample()).unwrap();
        assert_eq!(bytes[55..57], [0, 10]);
        let with = |at: usize, byte: u8| {
            let mut changed = bytes.clone();
            changed[at] = byte;
            read(&changed)
        };
        assert_eq!(with(60, 6), Ok(read(&bytes).unwrap()));
        assert_eq!(with(60, 7), refusal(2, 57));
        assert_eq!(with(60, 3), refusal(2, 64));
        assert_eq!(with(66, 1), refusal(2, 63));
        assert_eq!(with(64, 1), refusal(15, 63));
        assert_eq!(with(58, 2), refusal(15, 63));
        assert_eq!(with(57, 1), refusal(15, 63));
        assert_eq!(with(22, 31), refusal(5, 22));
        assert_eq!(with(22, 33), refusal(5, 22));
        // Consistency: the path from 2 + 4 + 16, its nodes two later.
        let bytes = encode(0x0105, &sample()).unwrap();
        let with = |at: usize, byte: u8| {
            let mut changed = bytes.clone();
            changed[at] = byte;
            read(&changed)
        };
        assert_eq!(with(24, 33), refusal(5, 24));
        assert_eq!(with(57, 31), refusal(5, 57));
        assert_eq!(with(23, 65), refusal(2, 57));
        assert_eq!(with(23, 67), refusal(2, 22));
        assert_eq!(with(23, 33), refusal(3, 57));
        assert_eq!(with(22, 255), refusal(2, 22));
    }

    fn refused(kind: u16, change: impl FnOnce(&mut Fields)) -> (u64, usize) {
        let mut fields = sample();
        change(&mut fields);
        let Refusal { number, place } = encode(kind, &fields).unwrap_err();
        (number, place)
    }

    #[test]
    fn writer_refuses() {
        assert_eq!(refused(0x0107, |_| ()), (4, 0));
        assert_eq!(refused(0x0100, |f| f.key_hash.push(0)), (5, 10));
        assert_eq!(refused(0x0100, |f| f.certificate.clear()), (5, 43));
        assert_eq!(refused(0x0100, |f| f.extensions.push(0)), (2, 43 + 8 + 2 + 10));
        assert_eq!(refused(0x0100, |f| f.extensions = vec![0; 65_536]), (5, 43 + 8));
        assert_eq!(refused(0x0100, |f| f.extensions = vec![0; 65_535]), (15, 43 + 8 + 2 + 4));
        assert_eq!(refused(0x0100, |f| f.extensions[1] = 2), (15, 43 + 8 + 2 + 6));
        assert_eq!(refused(0x0102, |f| f.log_id = vec![0; 128]), (5, 2));
        assert_eq!(refused(0x0102, |f| f.log_id = vec![0; 1]), (5, 2));
        assert_eq!(refused(0x0102, |f| f.signature.clear()), (5, 26));
        assert_eq!(refused(0x0105, |f| f.path.push(0)), (10, 22));
        assert_eq!(refused(0x0105, |f| f.path = vec![0; 63_521]), (5, 22));
        assert_eq!(refused(0xf001, |f| f.body.clear()), (5, 20));
        assert_eq!(write(0xf001, &sample(), &mut [0; 25]), refuse(9, 0));
        let mut lent = [7; 30];
        assert_eq!(write(0xf001, &sample(), &mut lent), Ok(26));
        assert_eq!(lent[26..], [7; 4]);
        let mut longest = sample();
        longest.path = vec![1; LONGEST_PATH];
        assert_eq!(encode(0x0105, &longest).unwrap().len(), 24 + 1_985 * 33);
        // A field that the type lacks isn't looked at.
        longest.signature.clear();
        assert!(encode(0x0105, &longest).is_ok());
    }

    /// The cases by hand of extensions in order, in the readings' receipt.
    #[test]
    fn extensions_by_hand() {
        let receipt = |said: usize, elements: &[u8], behind: &[u8]| {
            [&read_hex(b"0102022a030000000000000005").unwrap(), &(said as u16).to_be_bytes()[..], elements, behind].concat()
        };
        let with = |extensions: &[u8]| Fields {
            timestamp: 5,
            log_id: vec![0x2a, 3],
            signature: vec![0x73],
            extensions: extensions.to_vec(),
            ..Fields::default()
        };
        for (elements, number, place) in ORDER_BY_HAND {
            let elements = read_hex(elements.as_bytes()).unwrap();
            let (item, fields) = (receipt(elements.len(), &elements, &[0, 1, 0x73]), with(&elements));
            let mut lent = [7; 60];
            let (read, written) = (read(&item), write(0x0102, &fields, &mut lent));
            if number > 0 {
                assert_eq!((read, written), (refusal(number, place), refuse(number, place)), "{elements:x?}");
                assert_eq!(write(0x0102, &Fields { signature: vec![], ..fields }, &mut []), refuse(number, place));
                assert_eq!(lent, [7; 60]);
                continue;
            }
            let end = 15 + elements.len();
            let fields = Item::Receipt { log_id: 3..5, timestamp: 5, extensions: 15..end, signature: end + 2..end + 3 };
            assert_eq!((read, written), (Ok((0x0102, fields)), Ok(item.len())));
            assert_eq!(lent[..item.len()], item);
        }
        let elements = [0, 2, 0, 0, 0, 1, 0, 0];
        assert_eq!(read(&receipt(8, &elements, &[0, 0])), refusal(15, 19));
        assert_eq!(read(&receipt(8, &elements, &[0, 1, 0x73, 0])), refusal(15, 19));
        assert_eq!(read(&receipt(12, &elements, &[0, 1, 0x73])), refusal(2, 13));
        assert_eq!(write(0x0102, &with(&[0; 65_536]), &mut []), refuse(5, 13));
        assert_eq!(write(0x0102, &Fields { log_id: vec![0x2a], ..with(&elements) }, &mut []), refuse(5, 2));
    }

    /// The number and place for a list of extensions by another way: all that are whole are compared
    /// with their neighbours, and only the last of a list can be cut.
    fn judged(encoded: &[u8]) -> Option<(u64, usize)> {
        let (mut whole, mut at) = (Vec::new(), 0);
        while let Some(end) = encoded.get(at..at + 4).map(|four| at + 4 + four[2] as usize * 256 + four[3] as usize) {
            if end > encoded.len() {
                break;
            }
            whole.push((encoded[at] as usize * 256 + encoded[at + 1] as usize, at));
            at = end;
        }
        let unordered = whole.windows(2).find(|two| two[0].0 >= two[1].0).map(|two| (15, two[1].1));
        unordered.or((at < encoded.len()).then_some((2, at)))
    }

    #[test]
    fn extensions_two_ways() {
        let random = &mut Random::new(5);
        let mut counts = [0; 16];
        for _ in 0..60_000 {
            let mut encoded = Vec::new();
            let mut kind = 0;
            for _ in 0..random.below(7) {
                // Mostly a little higher than the one before it.
                kind = if random.one_in(6) { *random.pick(&[0, 255, 256, 0x7fff, 0x8000, 0xffff]) } else { kind + random.below(300) };
                let data = random.below(4);
                encoded.extend((kind as u16).to_be_bytes());
                encoded.extend((data as u16).to_be_bytes());
                encoded.extend(random.bytes(data as usize));
            }
            if random.one_in(3) {
                encoded.truncate(random.below(encoded.len() as u64 + 1) as usize);
            }
            let expected = judged(&encoded);
            let found = check_extensions(&encoded, 1_000).err().map(|refusal| (refusal.number, refusal.place - 1_000));
            assert_eq!(found, expected, "{encoded:x?}");
            counts[expected.map_or(0, |(number, _)| number as usize)] += 1;
        }
        assert!([0, 2, 15].iter().all(|number| counts[*number] > 5_000), "{counts:?}");
    }

    #[test]
    fn path_joined() {
        let bytes = encode(0x0106, &sample()).unwrap();
        let Ok((_, Item::Inclusion { path, .. })) = read(&bytes) else { panic!() };
        let (start, length) = (path.start, path.len());
        let copy = |bytes: &[u8], start, length, room| {
            let mut lent = vec![7; room];
            (path_into(bytes, start, length, &mut lent), lent)
        };
        assert_eq!(copy(&bytes, start, length, 66), (Ok(64), [&[0x55; 64][..], &[7; 2]].concat()));
        assert_eq!(copy(&bytes, start + 33, 33, 32), (Ok(32), vec![0x55; 32]));
        assert_eq!(copy(&bytes, start, 0, 0), (Ok(0), vec![]));
        assert_eq!(copy(&bytes, bytes.len(), 0, 1), (Ok(0), vec![7]));
        for (start, length, room, number, place) in [
            (start, length, 63, 9, 0),
            (start, length + 1, 64, 2, start),
            (start + 1, length, 64, 2, start + 1),
            (bytes.len() + 1, 0, 64, 2, bytes.len() + 1),
            (usize::MAX, 2, 64, 2, usize::MAX),
            (start, usize::MAX, 64, 2, start),
            (start, length - 1, 0, 2, start + 33),
            (start + 1, length - 1, 0, 5, start + 1),
        ] {
            assert_eq!(copy(&bytes, start, length, room), (refuse(number, place), vec![7; room]));
        }
        let mut other = bytes.clone();
        other[start + 33] = 31;
        assert_eq!(copy(&other, start, length, 0), (refuse(5, start + 33), vec![]));
        // What was copied is what the writer is given for the same bytes.
        assert_eq!(copy(&bytes, start, length, 64).1, Fields::of(&bytes, &read(&bytes).unwrap().1).path);
    }

    #[test]
    fn newer_head() {
        let head = |size, timestamp, id: u8| encode(0x0104, &Fields { size, timestamp, log_id: vec![id; 2], ..sample() }).unwrap();
        let (a, b) = (head(5, 9, 1), head(6, 3, 1));
        assert!(std::ptr::eq(newer(&a, &b), &b[..]));
        assert!(std::ptr::eq(newer(&b, &a), &b[..]));
        let (a, b) = (head(5, 9, 1), head(5, 10, 1));
        assert!(std::ptr::eq(newer(&a, &b), &b[..]));
        assert!(std::ptr::eq(newer(&b, &a), &b[..]));
        let c = a.clone();
        assert!(std::ptr::eq(newer(&a, &c), &a[..]));
        assert!(newer(&a, &head(6, 9, 2)).is_empty());
        assert!(newer(&a, &a[1..]).is_empty());
        assert!(newer(&a, &encode(0x0103, &sample()).unwrap()).is_empty());
        // Extensions out of order: no readable head. The second's type lies at 62, that of the first is 1.
        let (mut less, mut more) = (head(4, 9, 1), head(6, 9, 1));
        assert!(std::ptr::eq(newer(&a, &less), &a[..]) && std::ptr::eq(newer(&a, &more), &more[..]));
        for kind in [0, 1] {
            (less[63], more[63]) = (kind, kind);
            for other in [&less, &more] {
                let both = [newer(&a, other), newer(other, &a), newer(other, other)];
                assert!(both.iter().all(|part| part.is_empty()));
                assert!(std::ptr::eq(both[0], &a[..0]) && std::ptr::eq(both[1], &other[..0]) && std::ptr::eq(both[2], &other[..0]));
            }
        }
    }
}
