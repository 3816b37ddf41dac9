//! mta_item and mta_consistency_item.

use crate::compare::{show, Lent, Tally};
use mta::{mta_consistency_item, mta_item};
use reference::item::{self, encode, Fields, LONGEST_ITEM, LONGEST_PATH};
use reference::layers::item::{most_extensions, random_fields, random_item, smallest, whole_and_damaged, with_elements, EXTENDED, KINDS};
use reference::random::Random;

/// The place is set by every call, to 0 where the item is read.
fn read(input: &[u8], tally: &mut Tally, random: &mut Random) {
    let (expected, expected_place) = match item::read(input) {
        Ok(_) => (0, 0),
        Err(refusal) => (refusal.number, refusal.place as u64),
    };
    let mut lent = Lent::new(input, random);
    let mut place = Lent::new(&[random.draw()], random);
    let found = unsafe { mta_item(lent.pointer(), lent.length(), place.pointer()) };
    let is_memory_right = lent.holds(input) && place.holds(&[expected_place]);
    tally.count("mta_item", expected, found, is_memory_right, || format!("at {expected_place}: {}", show(input)));
}

/// The fields of a consistency item; the others aren't looked at. A refused call leaves the length as it was.
fn write(fields: &Fields, out: &[u8], tally: &mut Tally, random: &mut Random) {
    let Fields { log_id, size, second, path, .. } = fields;
    let mut after = out.to_vec();
    let length_before = random.draw();
    let (expected, expected_length) = match item::write(0x0105, fields, &mut after) {
        Ok(length) => (0, length as u64),
        Err(refusal) => (refusal.number, length_before),
    };
    let [mut a, mut b, mut c] = [log_id, path, out].map(|bytes| Lent::new(bytes, random));
    let mut written = Lent::new(&[length_before], random);
    let found = unsafe {
        mta_consistency_item(a.pointer(), a.length(), *size, *second, b.pointer(), b.length(), c.pointer(), c.length(), written.pointer())
    };
    let is_memory_right = a.holds(log_id) && b.holds(path) && c.holds(&after) && written.holds(&[expected_length]);
    tally.count("mta_consistency_item", expected, found, is_memory_right, || {
        format!("{}, {size}, {second}, {}, out of {}", show(log_id), show(path), out.len())
    });
}

/// Rooms next to the item's length, and none.
fn write_in_rooms(fields: &Fields, tally: &mut Tally, random: &mut Random) {
    let length = 3 + fields.log_id.len() + 18 + fields.path.len() / 32 * 33;
    for out in [0, length - 1, length, length + 1, length + 40] {
        write(fields, &random.bytes(out), tally, random);
    }
}

/// The longest fields of each type: no readable item is longer than one entry
/// of these, of about half the limit.
fn longest_fields(random: &mut Random) -> Fields {
    Fields {
        log_id: random.bytes(127),
        certificate: random.bytes(0xff_ffff),
        extensions: [&[0, 9, 0xff, 0xfb][..], &random.bytes(65_531)].concat(),
        signature: random.bytes(65_535),
        path: random.bytes(LONGEST_PATH),
        body: random.bytes(0xff_ffff),
        ..smallest(9)
    }
}

pub fn edges(tally: &mut Tally, random: &mut Random) {
    for kind in KINDS {
        for fields in [smallest(kind as u8), random_fields(random), random_fields(random)] {
            for input in whole_and_damaged(&encode(kind, &fields).unwrap(), random) {
                read(&input, tally, random);
            }
        }
    }
    for kind in 0..=u16::MAX {
        read(&kind.to_be_bytes(), tally, random);
    }
    let longest = longest_fields(random);
    for kind in KINDS {
        let mut input = encode(kind, &longest).unwrap();
        read(&input, tally, random);
        input.push(0);
        read(&input, tally, random);
        input.truncate(input.len() - 2);
        read(&input, tally, random);
        // At the limit and one byte more, after a whole item and after its first bytes.
        for keep in [input.len() + 1, 60, 2] {
            let mut input = encode(kind, &longest).unwrap();
            input.truncate(keep);
            input.resize(LONGEST_ITEM, kind as u8);
            read(&input, tally, random);
            input.push(0);
            read(&input, tally, random);
        }
    }
    // As many extensions as a list holds; the second, one in the middle and the last of the type before it.
    for kind in EXTENDED {
        let good = most_extensions();
        read(&with_elements(kind, &smallest(9), &good), tally, random);
        for at in [1, 8_000, good.len() / 4 - 1] {
            let mut bad = good.clone();
            bad.copy_within(4 * at - 4..4 * at - 2, 4 * at);
            read(&with_elements(kind, &smallest(9), &bad), tally, random);
        }
    }
    for byte in [0, 1, 0xf0, 255] {
        for count in [LONGEST_ITEM, LONGEST_ITEM + 1] {
            read(&vec![byte; count], tally, random);
        }
    }

    for log_id in [0, 1, 2, 3, 126, 127, 128, 129, 255, 256, 300] {
        for path in [0, 1, 31, 32, 33, 64, 96, 32 * 65] {
            let fields = Fields { log_id: random.bytes(log_id), path: random.bytes(path), size: random.draw(), ..Fields::default() };
            write_in_rooms(&fields, tally, random);
        }
    }
    for path in [32 * 1_984, LONGEST_PATH - 1, LONGEST_PATH, LONGEST_PATH + 1, LONGEST_PATH + 32, 32 * 2_048, 33 * 65_536] {
        for log_id in [1, 2, 127, 128] {
            write_in_rooms(&Fields { log_id: random.bytes(log_id), path: random.bytes(path), ..Fields::default() }, tally, random);
        }
    }
    for size in [0, 1, 255, 256, 1 << 32, 1 << 63, u64::MAX] {
        for second in [0, 1, 255, 256, 1 << 32, 1 << 63, u64::MAX] {
            write_in_rooms(&Fields { log_id: random.bytes(2), size, second, path: random.bytes(64), ..Fields::default() }, tally, random);
        }
    }
}

pub fn some(tally: &mut Tally, random: &mut Random) {
    read(&random_item(random), tally, random);

    let mut fields = random_fields(random);
    match random.below(8) {
        0 => fields.log_id = random.bytes(1),
        1 => fields.log_id.resize(128 + random.below(3) as usize, 1),
        2 => fields.path.extend(random.hash()[..1].iter()),
        _ => (),
    }
    let length = encode(0x0105, &fields).map_or(100, |all| all.len() as u64);
    let out = match random.below(4) {
        0 => random.below(length),
        1 => length + random.below(50),
        _ => length,
    };
    write(&fields, &random.bytes(out as usize), tally, random);
}
