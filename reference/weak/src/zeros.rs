//! Zeros that take no memory: for what is refused by its length, and so not read.

use reference::tree::MOST_LEAVES;
use std::ffi::{c_int, c_void};
use std::sync::OnceLock;

/// The bytes of 2^32 leaf hashes.
pub const MOST: usize = 32 * MOST_LEAVES as usize;

extern "C" {
    fn mmap(at: *mut c_void, length: usize, protection: c_int, flags: c_int, file: c_int, offset: i64) -> *mut c_void;
}

/// Two hashes more than may be joined.
pub fn zeros() -> &'static [u8] {
    static ZEROS: OnceLock<&[u8]> = OnceLock::new();
    ZEROS.get_or_init(|| {
        const READ: c_int = 1;
        const PRIVATE_ANONYMOUS_NO_RESERVE: c_int = 0x02 | 0x20 | 0x4000;
        let space = unsafe { mmap(std::ptr::null_mut(), MOST + 64, READ, PRIVATE_ANONYMOUS_NO_RESERVE, -1, 0) };
        assert!(space as isize != -1, "no addresses for 2^32 leaves");
        // Readable for as long as the program runs, and nobody can write there.
        unsafe { std::slice::from_raw_parts(space as *const u8, MOST + 64) }
    })
}
