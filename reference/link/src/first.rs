//! mta_first.

use crate::compare::{show, Lent, Tally};
use mta::mta_first;
use reference::first::{self, encode, Fields, EDITION};
use reference::item::LONGEST_ITEM;
use reference::layers::first::{issued, names, random_fields, random_structure, read_by_hand, smallest, whole_and_damaged, LAYOUTS};
use reference::random::Random;

/// The place is set by every call, to 0 where the structure is read.
fn read(edition: u16, which: u16, input: &[u8], tally: &mut Tally, random: &mut Random) {
    let (expected, expected_place) = match first::read(edition, which, input) {
        Ok(_) => (0, 0),
        Err(refusal) => (refusal.number, refusal.place as u64),
    };
    let mut lent = Lent::new(input, random);
    let mut place = Lent::new(&[random.draw()], random);
    let found = unsafe { mta_first(edition, which, lent.pointer(), lent.length(), place.pointer()) };
    let is_memory_right = lent.holds(input) && place.holds(&[expected_place]);
    tally.count("mta_first", expected, found, is_memory_right, || format!("{edition} {which} at {expected_place}: {}", show(input)));
}

/// The longest fields: no readable structure is longer than a precertificate's leaf of
/// these, of about half the limit.
fn longest_fields(entry_type: u16, random: &mut Random) -> Fields {
    Fields {
        certificate: random.bytes(0xff_ffff),
        extensions: random.bytes(65_535),
        signature: random.bytes(65_535),
        ..smallest(entry_type, 9)
    }
}

pub fn edges(tally: &mut Tally, random: &mut Random) {
    for (edition, which, input, _) in read_by_hand() {
        read(edition, which, &input, tally, random);
    }
    for (which, input, _) in issued() {
        for one in whole_and_damaged(which, &input, random) {
            read(EDITION, which, &one, tally, random);
        }
    }
    for (which, entry_type) in LAYOUTS {
        for fields in [smallest(entry_type, 5), random_fields(entry_type, random), random_fields(entry_type, random)] {
            let whole = encode(EDITION, which, &fields).unwrap();
            for input in whole_and_damaged(which, &whole, random) {
                read(EDITION, which, &input, tally, random);
            }
            for (edition, which) in names() {
                read(edition, which, &whole, tally, random);
            }
        }
    }
    // Every number as a name, of a structure and of an edition.
    for name in 0..=u16::MAX {
        for (edition, which) in [(EDITION, name), (name, 1), (name, name)] {
            read(edition, which, &[], tally, random);
        }
    }
    // Certificates of 2^24 - 1 bytes; then at the limit and one byte more, after a whole structure and after its first bytes.
    for (which, entry_type) in LAYOUTS {
        let longest = encode(EDITION, which, &longest_fields(entry_type, random)).unwrap();
        read(EDITION, which, &longest, tally, random);
        read(EDITION, which, &longest[..longest.len() - 1], tally, random);
        read(EDITION, which, &[&longest[..], &[0]].concat(), tally, random);
        for keep in [longest.len(), longest.len().min(60), 2] {
            let mut input = longest[..keep].to_vec();
            input.resize(LONGEST_ITEM, 0);
            read(EDITION, which, &input, tally, random);
            input.push(0);
            read(EDITION, which, &input, tally, random);
        }
    }
    // Names that are none come after 1 and before all bytes.
    for byte in [0, 1, 255] {
        for count in [LONGEST_ITEM, LONGEST_ITEM + 1] {
            let input = vec![byte; count];
            for (edition, which) in [(1, 1), (1, 2), (1, 3), (1, 0), (1, 4), (0, 1), (2, 3), (257, 2), (65_535, 65_535)] {
                read(edition, which, &input, tally, random);
            }
        }
    }
}

pub fn some(tally: &mut Tally, random: &mut Random) {
    let (edition, which, input) = random_structure(random);
    read(edition, which, &input, tally, random);
}
