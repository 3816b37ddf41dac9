//! The first edition (RFC 6962): its leaf (3.4), its receipt (3.2) and the signed
//! portion of its tree head (3.5), read and written. Vectors, numbers, places and
//! the order are those of items. A leaf's hash is that of all its bytes, from the
//! version on, as an item's is.

use crate::item::{refuse, Reader, Refusal, Span, Writer, LONGEST_ITEM};

/// RFC 6962, the one edition that is named here.
pub const EDITION: u16 = 1;
/// MerkleTreeLeaf.
pub const LEAF: u16 = 1;
/// SignedCertificateTimestamp.
pub const RECEIPT: u16 = 2;
/// What the signature of a tree head is over: TreeHeadSignature without the signature.
pub const HEAD: u16 = 3;

/// LogEntryType, 3.1: x509_entry and precert_entry.
pub const CERTIFICATE: u16 = 0;
pub const PRECERTIFICATE: u16 = 1;

/// Version, 3.2: v1.
const V1: u64 = 0;
/// MerkleLeafType, 3.4: timestamped_entry.
const TIMESTAMPED_ENTRY: u64 = 0;
/// SignatureType, 3.2: tree_hash. The other that the RFC has, certificate_timestamp, is 0.
const TREE_HASH: u64 = 1;

/// A structure that was read: its numbers, and where its bytes lie.
#[derive(Clone, Debug, PartialEq, Eq)]
pub enum Structure {
    /// The key hash is that of a precertificate's issuer, whose certificate is the TBS certificate.
    Leaf {
        version: u64,
        leaf_type: u64,
        timestamp: u64,
        entry_type: u64,
        key_hash: Option<Span>,
        certificate: Span,
        extensions: Span,
    },
    Receipt {
        version: u64,
        log_id: Span,
        timestamp: u64,
        extensions: Span,
        algorithms: u64,
        signature: Span,
    },
    Head {
        version: u64,
        signature_type: u64,
        timestamp: u64,
        size: u64,
        root: Span,
    },
}

/// A number that must be one of these. It is looked at where it is whole.
fn one_of(r: &mut Reader, width: usize, allowed: &[u64]) -> Result<u64, Refusal> {
    let start = r.at;
    let value = r.number(width)?;
    if allowed.contains(&value) {
        Ok(value)
    } else {
        refuse(4, start)
    }
}

/// A hash, as `opaque[32]`: no length stands before it.
fn bare_hash(r: &mut Reader) -> Result<Span, Refusal> {
    if r.left() < 32 {
        return refuse(2, r.at);
    }
    let span = r.at..r.at + 32;
    r.at = span.end;
    Ok(span)
}

/// ASN.1Cert and TBSCertificate, 3.1 and 3.2.
fn certificate(r: &mut Reader) -> Result<Span, Refusal> {
    r.vector(3, 1, 0xff_ffff)
}

/// CtExtensions, 3.2, of which nothing is judged; and the signature, which may be empty.
fn opaque(r: &mut Reader) -> Result<Span, Refusal> {
    r.vector(2, 0, 0xffff)
}

fn is_known(edition: u16, which: u16) -> bool {
    edition == EDITION && [LEAF, RECEIPT, HEAD].contains(&which)
}

/// The structure of this name, which is all of `bytes`.
pub fn read(edition: u16, which: u16, bytes: &[u8]) -> Result<Structure, Refusal> {
    if bytes.len() > LONGEST_ITEM {
        return refuse(1, 0);
    }
    if !is_known(edition, which) {
        return refuse(4, 0);
    }
    let mut reader = Reader { bytes, at: 0 };
    let r = &mut reader;
    // The version is the first field of all three. A struct's fields are read in the order in which they are written here.
    let version = one_of(r, 1, &[V1])?;
    let structure = match which {
        LEAF => {
            let (leaf_type, timestamp) = (one_of(r, 1, &[TIMESTAMPED_ENTRY])?, r.number(8)?);
            let entry_type = one_of(r, 2, &[CERTIFICATE as u64, PRECERTIFICATE as u64])?;
            let key_hash = if entry_type == PRECERTIFICATE as u64 { Some(bare_hash(r)?) } else { None };
            Structure::Leaf { version, leaf_type, timestamp, entry_type, key_hash, certificate: certificate(r)?, extensions: opaque(r)? }
        }
        RECEIPT => Structure::Receipt {
            version,
            log_id: bare_hash(r)?,
            timestamp: r.number(8)?,
            extensions: opaque(r)?,
            algorithms: r.number(2)?,
            signature: opaque(r)?,
        },
        _ => Structure::Head {
            version,
            signature_type: one_of(r, 1, &[TREE_HASH])?,
            timestamp: r.number(8)?,
            size: r.number(8)?,
            root: bare_hash(r)?,
        },
    };
    if reader.left() > 0 {
        return refuse(3, reader.at);
    }
    Ok(structure)
}

/// Every field that any structure has, but for those of one value: version, leaf type and signature type.
#[derive(Clone, Debug, Default, PartialEq, Eq)]
pub struct Fields {
    pub entry_type: u16,
    pub timestamp: u64,
    pub size: u64,
    /// Hash and signature, a byte each, as the receipt has them before its signature.
    pub algorithms: u16,
    pub log_id: Vec<u8>,
    pub key_hash: Vec<u8>,
    /// The certificate, or the TBS certificate.
    pub certificate: Vec<u8>,
    pub extensions: Vec<u8>,
    pub signature: Vec<u8>,
    pub root: Vec<u8>,
}

impl Fields {
    /// The fields of a structure that was read from `bytes`; the others are empty.
    pub fn of(bytes: &[u8], structure: &Structure) -> Fields {
        let part = |span: &Span| bytes[span.clone()].to_vec();
        match structure {
            Structure::Leaf { timestamp, entry_type, key_hash, certificate, extensions, .. } => Fields {
                entry_type: *entry_type as u16,
                timestamp: *timestamp,
                key_hash: key_hash.as_ref().map(part).unwrap_or_default(),
                certificate: part(certificate),
                extensions: part(extensions),
                ..Fields::default()
            },
            Structure::Receipt { log_id, timestamp, extensions, algorithms, signature, .. } => Fields {
                log_id: part(log_id),
                timestamp: *timestamp,
                extensions: part(extensions),
                algorithms: *algorithms as u16,
                signature: part(signature),
                ..Fields::default()
            },
            Structure::Head { timestamp, size, root, .. } => {
                Fields { timestamp: *timestamp, size: *size, root: part(root), ..Fields::default() }
            }
        }
    }
}

/// 32 bytes as they stand; another length is refused where they would start.
fn write_hash(w: &mut Writer, hash: &[u8]) -> Result<(), Refusal> {
    if hash.len() != 32 {
        return refuse(5, w.bytes.len());
    }
    w.bytes.extend(hash);
    Ok(())
}

/// The structure of this name with these fields.
pub fn encode(edition: u16, which: u16, f: &Fields) -> Result<Vec<u8>, Refusal> {
    if !is_known(edition, which) {
        return refuse(4, 0);
    }
    let mut w = Writer::default();
    w.number(V1, 1);
    match which {
        LEAF => {
            w.number(TIMESTAMPED_ENTRY, 1);
            w.number(f.timestamp, 8);
            if f.entry_type != CERTIFICATE && f.entry_type != PRECERTIFICATE {
                return refuse(4, w.bytes.len());
            }
            w.number(f.entry_type as u64, 2);
            if f.entry_type == PRECERTIFICATE {
                write_hash(&mut w, &f.key_hash)?;
            }
            w.vector(&f.certificate, 3, 1, 0xff_ffff)?;
            w.vector(&f.extensions, 2, 0, 0xffff)?;
        }
        RECEIPT => {
            write_hash(&mut w, &f.log_id)?;
            w.number(f.timestamp, 8);
            w.vector(&f.extensions, 2, 0, 0xffff)?;
            w.number(f.algorithms as u64, 2);
            w.vector(&f.signature, 2, 0, 0xffff)?;
        }
        _ => {
            w.number(TREE_HASH, 1);
            w.number(f.timestamp, 8);
            w.number(f.size, 8);
            write_hash(&mut w, &f.root)?;
        }
    }
    Ok(w.bytes)
}

/// The structure into a lent buffer; how many bytes were written.
pub fn write(edition: u16, which: u16, fields: &Fields, lent: &mut [u8]) -> Result<usize, Refusal> {
    let bytes = encode(edition, which, fields)?;
    match lent.get_mut(..bytes.len()) {
        None => refuse(9, 0),
        Some(room) => {
            room.copy_from_slice(&bytes);
            Ok(bytes.len())
        }
    }
}

#[cfg(test)]
mod tests {
    use super::*;
    use crate::layers::first::{hex, issued, random_fields, random_structure, read_by_hand, write_by_hand, LAYOUTS, LEAF_BY_HAND};
    use crate::random::Random;
    use crate::requests::{answer, layer};
    use crate::{sha256, words};

    fn refusal(number: u64, place: usize) -> Result<Structure, Refusal> {
        refuse(number, place)
    }

    #[test]
    fn leaf_by_hand() {
        let leaf = hex(LEAF_BY_HAND);
        assert_eq!(leaf.len(), 18);
        let whole = Structure::Leaf {
            version: 0,
            leaf_type: 0,
            timestamp: 7,
            entry_type: 0,
            key_hash: None,
            certificate: 15..16,
            extensions: 18..18,
        };
        assert_eq!(read(1, 1, &leaf), Ok(whole));
        assert_eq!(read(1, 1, &leaf[..11]), refusal(2, 10));
        assert_eq!(read(1, 1, &[&leaf[..], &[0]].concat()), refusal(3, 18));
        // The whole leaf is hashed, its version and its type too.
        assert_eq!(sha256::leaf(&leaf), sha256::digest(&hex("00 0000 0000000000000007 0000 000001 63 0000")));
    }

    /// The readings' cases, through the requests too.
    #[test]
    fn cases_by_hand() {
        let ask = |line: String| String::from_utf8(answer(&[layer("first").unwrap()], line.as_bytes())).unwrap();
        let said = |numbers: &[u64]| numbers.iter().map(u64::to_string).collect::<Vec<String>>().join(" ");
        for (edition, which, input, expected) in read_by_hand() {
            let read = read(edition, which, &input);
            match read {
                Ok(_) => assert_eq!(expected[..2], [0, which as u64], "{which} {input:x?}"),
                Err(Refusal { number, place }) => assert_eq!(*expected, [number, place as u64], "{which} {input:x?}"),
            }
            assert_eq!(ask(format!("first_read {edition} {which} x{}", words::hex(&input))), said(expected) + "\n", "{which} {input:x?}");
        }
        for (edition, which, fields, room, [number, place, count]) in write_by_hand() {
            let mut lent = vec![7; room];
            match write(edition, which, &fields, &mut lent) {
                Ok(written) => assert_eq!([number, place, count], [0, 0, written as u64]),
                Err(refused) => {
                    assert_eq!([number, place, count], [refused.number, refused.place as u64, 0], "{which} {fields:x?}");
                    assert!(lent.iter().all(|byte| *byte == 7), "a refusal changes no byte");
                }
            }
            assert!(lent[count as usize..].iter().all(|byte| *byte == 7), "bytes past the end stay");
        }
    }

    /// As a log issues them, at places that are literal numbers.
    #[test]
    fn issued_by_a_log() {
        let all = issued();
        let entry = |entry_type, key_hash, certificate, extensions| Structure::Leaf {
            version: 0,
            leaf_type: 0,
            timestamp: 1_735_123_456_789,
            entry_type,
            key_hash,
            certificate,
            extensions,
        };
        let receipt = Structure::Receipt {
            version: 0,
            log_id: 1..33,
            timestamp: 1_735_123_456_789,
            extensions: 43..43,
            algorithms: 0x0403,
            signature: 47..118,
        };
        let expected = [entry(0, None, 15..404, 406..406), entry(1, Some(12..44), 47..346, 348..348), receipt];
        for (((which, input, _), structure), length) in all.iter().zip(&expected).zip([406, 348, 118]) {
            assert_eq!(input.len(), length);
            assert_eq!(read(1, *which, input).as_ref(), Ok(structure));
            assert_eq!(encode(1, *which, &Fields::of(input, structure)).as_ref(), Ok(input));
            for cut in 0..input.len() {
                assert_eq!(read(1, *which, &input[..cut]).unwrap_err().number, 2);
            }
            assert_eq!(read(1, *which, &[&input[..], &[0]].concat()), refusal(3, length));
        }
        // A certificate, its TBS certificate and a signature of two integers, each a DER sequence that ends where its bytes do.
        assert_eq!(all[0].1[15..19], [0x30, 0x82, 1, 0x81]);
        assert_eq!(4 + 0x0181, 389);
        assert_eq!(all[1].1[47..51], [0x30, 0x82, 1, 0x27]);
        assert_eq!(4 + 0x0127, 299);
        assert_eq!(all[0].1[19..318], all[1].1[47..346]);
        assert_eq!(all[2].1[47..50], [0x30, 69, 2]);
        assert_eq!(hex("00000193fd6ad315"), 1_735_123_456_789_u64.to_be_bytes());
    }

    /// The length before the name, the name before the bytes.
    #[test]
    fn names() {
        let longest = vec![0; LONGEST_ITEM];
        let longer = vec![0; LONGEST_ITEM + 1];
        assert_eq!(longer.len(), 33_554_433);
        for which in 1..=3 {
            assert_eq!(read(1, which, &[]), refusal(2, 0));
            assert_eq!(read(1, which, &longer), refusal(1, 0));
        }
        assert_eq!(read(1, 1, &longest), refusal(5, 12));
        assert_eq!(read(1, 2, &longest), refusal(3, 47));
        assert_eq!(read(1, 3, &longest), refusal(4, 1));
        for (edition, which) in [(0, 1), (2, 1), (257, 1), (65_535, 1), (1, 0), (1, 4), (1, 257), (1, 65_535), (0, 0), (2, 4)] {
            assert_eq!(read(edition, which, &[]), refusal(4, 0));
            assert_eq!(read(edition, which, &longest), refusal(4, 0));
            assert_eq!(read(edition, which, &longer), refusal(1, 0));
            for fields in [random_fields(0, &mut Random::new(1)), Fields { entry_type: 2, ..Fields::default() }] {
                assert_eq!(write(edition, which, &fields, &mut [7; 900]), refuse(4, 0));
                assert_eq!(write(edition, which, &fields, &mut []), refuse(4, 0));
            }
        }
    }

    /// Vectors at the ends of their ranges, read and written.
    #[test]
    fn longest_vectors() {
        let fields = |certificate: usize, extensions: usize, signature: usize| Fields {
            certificate: vec![1; certificate],
            extensions: vec![2; extensions],
            signature: vec![3; signature],
            ..random_fields(0, &mut Random::new(2))
        };
        let longest = fields(0xff_ffff, 65_535, 65_535);
        let precertificate = Fields { entry_type: 1, ..longest.clone() };
        for (which, fields, length) in [(1, &longest, 16_842_767), (1, &precertificate, 16_842_799), (2, &longest, 131_117)] {
            let bytes = encode(1, which, fields).unwrap();
            assert_eq!(bytes.len(), length);
            let structure = read(1, which, &bytes).unwrap();
            assert_eq!(encode(1, which, &Fields::of(&bytes, &structure)), Ok(bytes));
        }
        assert_eq!(encode(1, 1, &fields(0x100_0000, 0, 0)), refuse(5, 12));
        assert_eq!(encode(1, 1, &Fields { entry_type: 1, ..fields(0x100_0000, 0, 0) }), refuse(5, 44));
        assert_eq!(encode(1, 1, &fields(0xff_ffff, 65_536, 0)), refuse(5, 15 + 0xff_ffff));
        assert_eq!(encode(1, 1, &fields(1, 65_536, 0)), refuse(5, 16));
        assert_eq!(encode(1, 2, &fields(1, 65_536, 65_536)), refuse(5, 41));
        assert_eq!(encode(1, 2, &fields(1, 65_535, 65_536)), refuse(5, 43 + 65_535 + 2));
    }

    /// The layouts as tables: each field's width, or the range of a vector's length; then whether
    /// a number is allowed there. A structure judged by them, field by field.
    enum Part {
        Number(usize, fn(u64) -> bool),
        Bytes(usize),
        Vector(usize, usize),
    }

    fn judged(edition: u16, which: u16, input: &[u8]) -> (u64, usize) {
        use Part::*;
        let mut parts = match (edition, which) {
            (1, 1) => vec![Number(1, |n| n == 0), Number(1, |n| n == 0), Number(8, |_| true), Number(2, |n| n < 2)],
            (1, 2) => vec![Number(1, |n| n == 0), Bytes(32), Bytes(8), Vector(2, 0), Bytes(2), Vector(2, 0)],
            (1, 3) => vec![Number(1, |n| n == 0), Number(1, |n| n == 1), Bytes(16), Bytes(32)],
            _ => return (4, 0),
        };
        // What stands behind the entry type, by its second byte.
        match (which, input.get(11)) {
            (1, Some(1)) => parts.extend([Bytes(32), Vector(3, 1), Vector(2, 0)]),
            (1, _) => parts.extend([Vector(3, 1), Vector(2, 0)]),
            // The head's two numbers are cut each at its own start.
            (3, _) => parts.splice(2..3, [Bytes(8), Bytes(8)]).for_each(drop),
            _ => (),
        }
        let value = |part: &[u8]| part.iter().fold(0, |value, byte| value * 256 + *byte as usize);
        let mut at = 0;
        for part in parts {
            let width = match part {
                Number(width, _) | Bytes(width) | Vector(width, _) => width,
            };
            let Some(own) = input.get(at..at + width) else { return (2, at) };
            let end = match part {
                Number(_, is_allowed) if !is_allowed(value(own) as u64) => return (4, at),
                Vector(_, least) if value(own) < least => return (5, at),
                Vector(..) => at + width + value(own),
                _ => at + width,
            };
            if end > input.len() {
                return (2, at);
            }
            at = end;
        }
        if at < input.len() {
            (3, at)
        } else {
            (0, 0)
        }
    }

    #[test]
    fn two_ways() {
        let random = &mut Random::new(5);
        let mut counts = [0; 6];
        for _ in 0..60_000 {
            let (edition, which, input) = random_structure(random);
            let (number, place) = judged(edition, which, &input);
            match read(edition, which, &input) {
                Ok(structure) => {
                    assert_eq!(number, 0);
                    assert_eq!(encode(edition, which, &Fields::of(&input, &structure)), Ok(input));
                }
                refused => assert_eq!(refused, refusal(number, place), "{which} {input:x?}"),
            }
            counts[number as usize] += 1;
        }
        println!("{counts:?}");
        assert!(counts.iter().enumerate().all(|(number, count)| number == 1 || *count > 100), "{counts:?}");
    }

    #[test]
    fn round_trips() {
        let random = &mut Random::new(8);
        for _ in 0..2_000 {
            for (which, entry_type) in LAYOUTS {
                let fields = random_fields(entry_type, random);
                let bytes = encode(EDITION, which, &fields).unwrap();
                let structure = read(EDITION, which, &bytes).unwrap();
                let own = Fields::of(&bytes, &structure);
                assert_eq!(encode(EDITION, which, &own).as_ref(), Ok(&bytes));
                // Each field comes back as it was given, and those that the structure lacks come back empty.
                let mut expected = Fields { timestamp: fields.timestamp, ..Fields::default() };
                match which {
                    LEAF => {
                        expected.entry_type = entry_type;
                        expected.certificate = fields.certificate;
                        expected.extensions = fields.extensions;
                        if entry_type == 1 {
                            expected.key_hash = fields.key_hash;
                        }
                    }
                    RECEIPT => {
                        expected.log_id = fields.log_id;
                        expected.extensions = fields.extensions;
                        expected.algorithms = fields.algorithms;
                        expected.signature = fields.signature;
                    }
                    _ => (expected.size, expected.root) = (fields.size, fields.root),
                }
                assert_eq!(own, expected);
            }
        }
    }
}
