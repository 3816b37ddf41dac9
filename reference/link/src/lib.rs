//! include/mta.h in Rust: the entries of the proved static library.

extern "C" {
    pub fn mta_inclusion(
        algorithm: u64,
        leaf: *const u8,
        leaf_len: usize,
        place: u64,
        size: u64,
        root: *const u8,
        root_len: usize,
        path: *const u8,
        path_len: usize,
    ) -> u32;
    pub fn mta_consistency(
        algorithm: u64,
        first: u64,
        second: u64,
        root1: *const u8,
        root1_len: usize,
        root2: *const u8,
        root2_len: usize,
        path: *const u8,
        path_len: usize,
    ) -> u32;
    pub fn mta_carry(
        algorithm: u64,
        leaf: *const u8,
        leaf_len: usize,
        place: u64,
        first: u64,
        second: u64,
        root1: *const u8,
        root1_len: usize,
        root2: *const u8,
        root2_len: usize,
        path: *const u8,
        path_len: usize,
        proof: *const u8,
        proof_len: usize,
        out: *mut u8,
        out_len: usize,
        pair: *mut u8,
        pair_len: usize,
        written: *mut u64,
        collided: *mut bool,
    ) -> u32;
    pub fn mta_compare(
        algorithm: u64,
        place: u64,
        size: u64,
        root: *const u8,
        root_len: usize,
        leaf1: *const u8,
        leaf1_len: usize,
        path1: *const u8,
        path1_len: usize,
        leaf2: *const u8,
        leaf2_len: usize,
        path2: *const u8,
        path2_len: usize,
        pair: *mut u8,
        pair_len: usize,
        collided: *mut bool,
    ) -> u32;
    pub fn mta_root(algorithm: u64, leaves: *const u8, leaves_len: usize, out: *mut u8, out_len: usize) -> u32;
    pub fn mta_item(item: *const u8, item_len: usize, place: *mut u64) -> u32;
    pub fn mta_first(edition: u16, which: u16, bytes: *const u8, bytes_len: usize, place: *mut u64) -> u32;
    pub fn mta_consistency_item(
        log: *const u8,
        log_len: usize,
        first: u64,
        second: u64,
        path: *const u8,
        path_len: usize,
        out: *mut u8,
        out_len: usize,
        written: *mut u64,
    ) -> u32;
    pub fn mta_digest(algorithm: u64, input: *const u8, input_len: usize, out: *mut u8, out_len: usize) -> u32;
    pub fn mta_leaf(algorithm: u64, item: *const u8, item_len: usize, out: *mut u8, out_len: usize) -> u32;
    pub fn mta_node(
        algorithm: u64,
        left: *const u8,
        left_len: usize,
        right: *const u8,
        right_len: usize,
        out: *mut u8,
        out_len: usize,
    ) -> u32;
    pub fn mta_step(state: *mut u32, state_len: usize, block: *const u8, block_len: usize, schedule: *mut u32, schedule_len: usize) -> u32;
    pub fn mta_sm3_step(
        state: *mut u32,
        state_len: usize,
        block: *const u8,
        block_len: usize,
        schedule: *mut u32,
        schedule_len: usize,
    ) -> u32;
}
