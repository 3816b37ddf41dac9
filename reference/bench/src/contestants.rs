//! Who is timed: the proved library, an earlier one where the build was given it
//! (MTA_BEFORE), and the plain algorithms in C and in Rust.

use mta::{mta_digest, mta_leaf, mta_node, mta_sm3_step, mta_step};
use reference::algorithm::{SHA256, SM3};
use reference::{sha256, sm3, tree};

/// The jobs of one contestant, for a hash whose block step works in so many words.
/// Each writes its answer over its last arguments.
#[derive(Clone, Copy)]
pub struct Contestant<const WORDS: usize> {
    pub name: &'static str,
    pub digest: fn(&[u8], &mut [u8; 32]),
    pub leaf: fn(&[u8], &mut [u8; 32]),
    pub node: fn(&[u8; 32], &[u8; 32], &mut [u8; 32]),
    pub step: fn(&mut [u32; 8], &[u8; 64], &mut [u32; WORDS]),
    /// Whether the step is over the state that is given. OpenSSL's of SM3 is over its own.
    pub is_step_over_the_given: bool,
}

pub type Sha256 = Contestant<64>;
pub type Sm3 = Contestant<{ sm3::WORDS }>;

/// The library's functions by the number of a hash.
macro_rules! ours {
    ($number:expr, $step:ident) => {
        Contestant {
            name: "ours",
            digest: |input, out| {
                assert_eq!(unsafe { mta_digest($number, input.as_ptr(), input.len(), out.as_mut_ptr(), 32) }, 0);
            },
            leaf: |item, out| {
                assert_eq!(unsafe { mta_leaf($number, item.as_ptr(), item.len(), out.as_mut_ptr(), 32) }, 0);
            },
            node: |left, right, out| {
                assert_eq!(unsafe { mta_node($number, left.as_ptr(), 32, right.as_ptr(), 32, out.as_mut_ptr(), 32) }, 0);
            },
            step: |state, block, words| {
                let (state, block) = ((state.as_mut_ptr(), state.len()), (block.as_ptr(), block.len()));
                assert_eq!(unsafe { $step(state.0, state.1, block.0, block.1, words.as_mut_ptr(), words.len()) }, 0);
            },
            is_step_over_the_given: true,
        }
    };
}

/// Functions of plain.c, of one build of it.
macro_rules! plain_c {
    ($name:expr, $digest:ident, $leaf:ident, $node:ident, $step:ident) => {{
        extern "C" {
            fn $digest(input: *const u8, length: usize, out: *mut u8);
            fn $leaf(item: *const u8, length: usize, out: *mut u8);
            fn $node(left: *const u8, right: *const u8, out: *mut u8);
            fn $step(state: *mut u32, block: *const u8, words: *mut u32);
        }
        Contestant {
            name: $name,
            digest: |input, out| unsafe { $digest(input.as_ptr(), input.len(), out.as_mut_ptr()) },
            leaf: |item, out| unsafe { $leaf(item.as_ptr(), item.len(), out.as_mut_ptr()) },
            node: |left, right, out| unsafe { $node(left.as_ptr(), right.as_ptr(), out.as_mut_ptr()) },
            step: |state, block, words| unsafe { $step(state.as_mut_ptr(), block.as_ptr(), words.as_mut_ptr()) },
            is_step_over_the_given: true,
        }
    }};
}

pub const OURS: Sha256 = ours!(SHA256, mta_step);
pub const OUR_SM3: Sm3 = ours!(SM3, mta_sm3_step);

pub const PLAIN_C: Sha256 = plain_c!("plain C", plain_digest, plain_leaf, plain_node, plain_step);
pub const PLAIN_C_SM3: Sm3 = plain_c!("C", plain_sm3_digest, plain_sm3_leaf, plain_sm3_node, plain_sm3_step);
pub const SCALAR_C_SM3: Sm3 = plain_c!("C, no vector", scalar_sm3_digest, scalar_sm3_leaf, scalar_sm3_node, scalar_sm3_step);
pub const TABLE_C_SM3: Sm3 = plain_c!("C, table", table_sm3_digest, table_sm3_leaf, table_sm3_node, table_sm3_step);
pub const SCALAR_TABLE_C_SM3: Sm3 =
    plain_c!("C, table, no vector", scalar_table_sm3_digest, scalar_table_sm3_leaf, scalar_table_sm3_node, scalar_table_sm3_step);

pub const PLAIN_RUST: Sha256 = Contestant {
    name: "plain Rust",
    digest: |input, out| *out = sha256::digest(input),
    leaf: |item, out| *out = sha256::leaf(item),
    node: |left, right, out| *out = sha256::node(left, right),
    step: sha256::step,
    is_step_over_the_given: true,
};

pub const PLAIN_RUST_SM3: Sm3 = Contestant {
    name: "plain Rust",
    digest: |input, out| *out = sm3::digest(input),
    leaf: |item, out| *out = tree::leaf_hash(sm3::digest, item),
    node: |left, right, out| *out = tree::node_hash(sm3::digest, left, right),
    step: sm3::step,
    is_step_over_the_given: true,
};

/// SHA-256 of the earlier library, whose functions take no number.
#[cfg(before)]
pub fn before() -> Option<Sha256> {
    extern "C" {
        fn before_digest(_: *const u8, _: usize, _: *mut u8, _: usize) -> u32;
        fn before_leaf(_: *const u8, _: usize, _: *mut u8, _: usize) -> u32;
        fn before_node(_: *const u8, _: usize, _: *const u8, _: usize, _: *mut u8, _: usize) -> u32;
        fn before_step(_: *mut u32, _: usize, _: *const u8, _: usize, _: *mut u32, _: usize) -> u32;
    }
    Some(Contestant {
        name: "before",
        digest: |input, out| {
            assert_eq!(unsafe { before_digest(input.as_ptr(), input.len(), out.as_mut_ptr(), 32) }, 0);
        },
        leaf: |item, out| {
            assert_eq!(unsafe { before_leaf(item.as_ptr(), item.len(), out.as_mut_ptr(), 32) }, 0);
        },
        node: |left, right, out| {
            assert_eq!(unsafe { before_node(left.as_ptr(), 32, right.as_ptr(), 32, out.as_mut_ptr(), 32) }, 0);
        },
        step: |state, block, words| {
            assert_eq!(unsafe { before_step(state.as_mut_ptr(), 8, block.as_ptr(), 64, words.as_mut_ptr(), 64) }, 0);
        },
        is_step_over_the_given: true,
    })
}

#[cfg(not(before))]
pub fn before() -> Option<Sha256> {
    None
}
