//! Memory lent to the library, and the count of what was compared.

use reference::random::Random;
use std::collections::BTreeMap;

const AROUND: usize = 16;

/// A slice for one call, read or written, with others before and after it that
/// must stay. An empty one is handed over as NULL in half of the cases.
pub struct Lent<T> {
    all: Vec<T>,
    is_null: bool,
}

impl<T: Copy + PartialEq + From<u8>> Lent<T> {
    pub fn new(content: &[T], random: &mut Random) -> Lent<T> {
        let around = [T::from(0xa5); AROUND];
        Lent { all: [&around, content, &around].concat(), is_null: content.is_empty() && random.one_in(2) }
    }

    pub fn length(&self) -> usize {
        self.all.len() - 2 * AROUND
    }

    pub fn pointer(&mut self) -> *mut T {
        if self.is_null {
            std::ptr::null_mut()
        } else {
            self.all[AROUND..].as_mut_ptr()
        }
    }

    /// After the call: these values, and around them nothing changed.
    pub fn holds(&self, expected: &[T]) -> bool {
        let (before, rest) = self.all.split_at(AROUND);
        let (content, after) = rest.split_at(self.length());
        content == expected && before.iter().chain(after).all(|value| *value == T::from(0xa5))
    }
}

/// Calls compared, by entry and by the expected number.
#[derive(Default)]
pub struct Tally {
    numbers: BTreeMap<(&'static str, u64), u64>,
    passed: u64,
    failed: u64,
}

impl Tally {
    /// One call: the number that it must have, the one it has, and whether the
    /// rest of the answer and all lent memory are as they must be.
    pub fn count(&mut self, entry: &'static str, expected: u64, found: u32, is_memory_right: bool, call: impl FnOnce() -> String) {
        *self.numbers.entry((entry, expected)).or_default() += 1;
        if expected == found as u64 && is_memory_right {
            self.passed += 1;
            return;
        }
        self.failed += 1;
        if self.failed <= 20 {
            let memory = if is_memory_right { "" } else { ", other memory" };
            eprintln!("{entry}: {found} instead of {expected}{memory}: {}", call());
        }
    }

    /// Prints the table and the last line; whether nothing failed.
    pub fn end(self) -> bool {
        for ((entry, number), count) in &self.numbers {
            println!("{entry:<22}{number:>3}{count:>9} times");
        }
        println!("{} passed, {} failed", self.passed, self.failed);
        self.failed == 0
    }
}

/// A short form of long input for a message.
pub fn show(bytes: &[u8]) -> String {
    let start: String = bytes.iter().take(80).map(|byte| format!("{byte:02x}")).collect();
    format!("{} bytes x{start}{}", bytes.len(), if bytes.len() > 80 { ".." } else { "" })
}
