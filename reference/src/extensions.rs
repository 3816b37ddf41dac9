//! Every order of extensions: all lists of up to six extensions over six types,
//! so with every order of their types and all equal neighbours, whole and cut at
//! every byte, in each item type that has them, read and written. The answers
//! are compared with the second program's own as they come.
//!
//! A list is only cut inside its last extension, the vector's length being the
//! cut list's. Cut inside an earlier one it is a shorter list, cut inside its
//! last, byte for byte: an extension's data depends on nothing that comes behind
//! it. So no cut is left out.

use crate::layers::item::{around, by_hand, write_words, EXTENDED, EXTENSION_TYPES};
use crate::pipe::{compare_all, Question};
use crate::requests::answer_to;
use crate::words::{bytes, repeated, write_line};
use std::io::{self, Write};

/// The extensions of the longest lists.
const MOST: u32 = 6;
/// Lists of up to so many come with a fault behind them too.
const MOST_WITH_FAULTS: u32 = 4;
/// With lists of up to so many the whole item is cut at every byte too: it then ends
/// before its extensions are looked at, or behind them, and a longer list adds nothing.
const MOST_IN_CUT_ITEMS: u32 = 3;
const BASE: u32 = EXTENSION_TYPES.len() as u32;

/// So many extensions; the digits of the number, the lowest first, choose their types.
#[derive(Clone, Copy)]
struct List {
    count: u32,
    number: u32,
}

fn lists() -> impl Iterator<Item = List> + Clone {
    (0..=MOST).flat_map(|count| (0..BASE.pow(count)).map(move |number| List { count, number }))
}

impl List {
    fn type_of(self, at: u32) -> u16 {
        EXTENSION_TYPES[(self.number / BASE.pow(at) % BASE) as usize]
    }

    /// The length of an extension's data, 0 to 3, by the types up to its own.
    fn data_of(self, at: u32) -> usize {
        let types = self.number % BASE.pow(at + 1);
        (types.wrapping_mul(0x9e37_79b1).wrapping_add(at << 30) >> 30) as usize
    }

    /// All extensions, but for so many bytes at the end.
    fn elements(self, cut: usize) -> Vec<u8> {
        let mut all = Vec::with_capacity(7 * MOST as usize);
        for at in 0..self.count {
            let data = self.data_of(at);
            all.extend(self.type_of(at).to_be_bytes());
            all.extend([0, data as u8]);
            all.extend(&[0, 1, 0xff][..data]);
        }
        all.truncate(all.len() - cut);
        all
    }

    /// Each count of bytes that leaves some of the last extension.
    fn cuts(self) -> std::ops::Range<usize> {
        0..self.count.checked_sub(1).map_or(1, |last| 4 + self.data_of(last))
    }
}

/// What is asked of a list in an item of some type.
#[derive(Clone, Copy, Debug, PartialEq)]
enum Way {
    Read,
    Write,
    ReadAndMore,
    WriteWithoutRoom,
    ReadUnsigned,
    WriteUnsigned,
    /// So many of the item's first bytes.
    ReadStart(usize),
}

const WAYS: [Way; 6] = [Way::Read, Way::Write, Way::ReadAndMore, Way::WriteWithoutRoom, Way::ReadUnsigned, Way::WriteUnsigned];

/// How many of the ways a list is asked in: an entry has no signature.
fn ways(list: List, kind: u16) -> usize {
    match (list.count <= MOST_WITH_FAULTS, kind) {
        (false, _) => 2,
        (true, 0x0100 | 0x0101) => 4,
        (true, _) => 6,
    }
}

#[derive(Clone, Copy)]
struct Asked {
    list: List,
    /// So many bytes of the list are left out.
    cut: usize,
    kind: u16,
    way: Way,
}

impl Asked {
    fn item(self) -> Vec<u8> {
        let (mut item, mut behind) = around(self.kind);
        if self.way == Way::ReadUnsigned {
            behind = &[0, 0];
        }
        let elements = self.list.elements(self.cut);
        item.extend((elements.len() as u16).to_be_bytes());
        item.extend(elements);
        item.extend(behind);
        match self.way {
            Way::ReadAndMore => item.push(0),
            Way::ReadStart(count) => item.truncate(count),
            _ => (),
        }
        item
    }
}

impl Question for Asked {
    fn request(&self, line: &mut Vec<u8>) {
        let item = self.item();
        let mut fields = by_hand();
        let room = match self.way {
            Way::Write => item.len(),
            Way::WriteWithoutRoom => item.len() - 1,
            Way::WriteUnsigned => {
                fields.signature.clear();
                0
            }
            _ => return write_line(Some("read"), &[bytes(&item)], line),
        };
        fields.extensions = self.list.elements(self.cut);
        write_line(Some("write"), &write_words(self.kind, &fields, repeated(room, 0xee)), line);
    }

    fn answer(&self, line: &mut Vec<u8>) {
        let mut request = Vec::new();
        self.request(&mut request);
        line.extend(answer_to(&request));
    }
}

fn questions() -> impl Iterator<Item = Asked> + Clone {
    let lists_and_cuts = lists().flat_map(|list| list.cuts().map(move |cut| (list, cut)));
    let in_all = lists_and_cuts.flat_map(|(list, cut)| EXTENDED.into_iter().map(move |kind| (list, cut, kind)));
    let whole = in_all.flat_map(|(list, cut, kind)| WAYS.into_iter().take(ways(list, kind)).map(move |way| Asked { list, cut, kind, way }));
    let small = lists().take_while(|list| list.count <= MOST_IN_CUT_ITEMS);
    let small_in_all = small.flat_map(|list| EXTENDED.into_iter().map(move |kind| Asked { list, cut: 0, kind, way: Way::Read }));
    let items_cut = small_in_all.flat_map(|asked| (0..asked.item().len()).map(move |count| Asked { way: Way::ReadStart(count), ..asked }));
    whole.chain(items_cut)
}

/// What was answered otherwise goes to `out`, and at the end `N passed, M failed`.
pub fn extensions(program: &str, out: &mut dyn Write) -> io::Result<()> {
    compare_all(program, questions(), out)
}

#[cfg(test)]
mod tests {
    use super::*;
    use std::collections::{BTreeMap, BTreeSet, HashSet};

    /// Every weak order of up to six types comes up, and each of its ranks as each type that it can be.
    #[test]
    fn every_order_of_types() {
        let mut orders: BTreeMap<u32, BTreeMap<Vec<usize>, usize>> = BTreeMap::new();
        for list in lists() {
            let types: Vec<u16> = (0..list.count).map(|at| list.type_of(at)).collect();
            let ranks: BTreeSet<u16> = types.iter().copied().collect();
            let order = types.iter().map(|one| ranks.range(..one).count()).collect();
            *orders.entry(list.count).or_default().entry(order).or_default() += 1;
        }
        let count: Vec<usize> = orders.values().map(BTreeMap::len).collect();
        assert_eq!(count, [1, 1, 3, 13, 75, 541, 4_683]);
        for (order, count) in orders.values().flatten() {
            // So many sets of types as ranks choose from six.
            let ranks = order.iter().max().map_or(0, |most| most + 1);
            assert_eq!(*count, [1, 6, 15, 20, 15, 6, 1][ranks]);
        }
    }

    /// Every list cut at every byte is among those that are asked. None is asked twice but those that end
    /// in the first byte of the types 0 and 0x00ff.
    #[test]
    fn every_cut() {
        let asked: Vec<Vec<u8>> = lists().flat_map(|list| list.cuts().map(move |cut| list.elements(cut))).collect();
        let all: HashSet<&[u8]> = asked.iter().map(Vec::as_slice).collect();
        assert_eq!(asked.len() - all.len(), lists().filter(|list| list.count < MOST).count());
        let mut lengths = BTreeSet::new();
        for list in lists() {
            let elements = list.elements(0);
            assert!((0..=elements.len()).all(|count| all.contains(&elements[..count])));
            lengths.extend((0..list.count).map(|at| (at, list.data_of(at))));
        }
        assert_eq!(lengths.len(), 4 * MOST as usize, "each length of data at each place");
    }

    /// Number and place by the types alone: of all extensions that are whole, the first that isn't above the one before;
    /// else the last, where it is cut.
    fn known(list: List, cut: usize) -> (u64, usize) {
        let start = |at: u32| (0..at).map(|before| 4 + list.data_of(before)).sum();
        let whole = list.count - (cut > 0) as u32;
        match (1..whole).find(|at| list.type_of(*at) <= list.type_of(*at - 1)) {
            Some(at) => (15, start(at)),
            None if cut > 0 => (2, start(whole)),
            None => (0, 0),
        }
    }

    fn answer(asked: Asked) -> (u64, usize) {
        let mut line = Vec::new();
        asked.answer(&mut line);
        let words: Vec<&str> = std::str::from_utf8(&line).unwrap().trim_end().split(' ').collect();
        (words[0].parse().unwrap(), words[1].parse().unwrap())
    }

    /// Of all lists one for each set of types is accepted, the others have 2 or 15 where they must.
    #[test]
    fn answers_are_known() {
        let mut accepted = [0; 2];
        let mut numbers: BTreeMap<u64, u64> = BTreeMap::new();
        let whole_and_cut = lists().flat_map(|list| list.cuts().map(move |cut| (list, cut)));
        for (i, (list, cut)) in whole_and_cut.enumerate() {
            // The types of items in turn, but all where a list is accepted.
            let (refusal, place) = known(list, cut);
            let kinds = if refusal == 0 { &EXTENDED[..] } else { &EXTENDED[i % 5..][..1] };
            for &kind in kinds {
                let first = around(kind).0.len() + 2;
                for (way, accepted) in [Way::Read, Way::Write].into_iter().zip(&mut accepted) {
                    let (number, at) = answer(Asked { list, cut, kind, way });
                    assert_eq!(number, refusal);
                    assert!(refusal == 0 || at == first + place);
                    *accepted += (refusal == 0) as u32;
                    *numbers.entry(number).or_default() += 1;
                }
            }
        }
        assert_eq!(accepted, [5 * 64; 2]);
        println!("{numbers:?}");
        assert_eq!(numbers.keys().copied().collect::<Vec<u64>>(), [0, 2, 15]);
    }

    /// A list's own refusal comes before what is wrong behind it; without one that is told.
    #[test]
    fn faults_behind_lists() {
        let mut counts: BTreeMap<(String, u64), u64> = BTreeMap::new();
        for asked in questions().filter(|asked| asked.list.count <= 2 && !matches!(asked.way, Way::ReadStart(_))) {
            let (own, _) = known(asked.list, asked.cut);
            let behind = match asked.way {
                Way::Read | Way::Write | Way::ReadStart(_) => 0,
                Way::ReadAndMore => 3,
                Way::WriteWithoutRoom => 9,
                Way::ReadUnsigned | Way::WriteUnsigned => 5,
            };
            let (number, _) = answer(asked);
            assert_eq!(number, if own > 0 { own } else { behind });
            *counts.entry((format!("{:?}", asked.way), number)).or_default() += 1;
        }
        assert_eq!(counts.len(), 6 * 3, "{counts:?}");
    }

    #[test]
    fn how_many() {
        let (mut all, mut starts) = (0, 0);
        for asked in questions() {
            all += 1;
            starts += matches!(asked.way, Way::ReadStart(_)) as u64;
        }
        println!("{all} requests, {starts} of them items cut");
        assert!(all > 3_000_000 && starts > 50_000);
    }
}
