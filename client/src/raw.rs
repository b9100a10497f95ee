//! The functions of the proved library over words, as `include/keeper.h` declares them. It says there what a caller must uphold; `Keeper`
//! upholds it.

/// What a span answers: all 0 where nothing is booked.
#[repr(C)]
#[derive(Default)]
pub struct Extent {
    pub base: i64,
    pub length: u64,
    pub codes: u64,
    pub kind: u64,
}

#[rustfmt::skip]
extern "C" {
    pub fn keeper_make(words: *mut u64, count: usize) -> u32;
    pub fn keeper_total(words: *mut u64, count: usize) -> u64;
    pub fn keeper_tidy(words: *mut u64, count: usize);
    pub fn keeper_save(words: *mut u64, count: usize, list: *mut u64, list_count: usize) -> u32;
    pub fn keeper_load(words: *mut u64, count: usize, list: *const u64, list_count: usize) -> u32;

    pub fn keeper_take(
        words: *mut u64, count: usize, name: u64, subscripts: *const i32, depth: usize,
        n: u64, base: i64, codes: bool, kind: u64, step: *mut u32,
    ) -> u32;
    pub fn keeper_free(
        words: *mut u64, count: usize, name: u64, subscripts: *const i32, depth: usize, step: *mut u32,
    ) -> u32;
    pub fn keeper_insert(
        words: *mut u64, count: usize, name: u64, subscripts: *const i32, depth: usize,
        subscript: i32, n: u64, step: *mut u32,
    ) -> u32;
    pub fn keeper_delete(
        words: *mut u64, count: usize, name: u64, subscripts: *const i32, depth: usize,
        subscript: i32, n: u64, step: *mut u32,
    ) -> u32;
    pub fn keeper_rebase(
        words: *mut u64, count: usize, name: u64, subscripts: *const i32, depth: usize,
        base: i64, step: *mut u32,
    ) -> u32;
    pub fn keeper_exchange(
        words: *mut u64, count: usize, name: u64, subscripts: *const i32, depth: usize,
        one: i32, other: i32, step: *mut u32,
    ) -> u32;
    pub fn keeper_span(
        words: *mut u64, count: usize, name: u64, subscripts: *const i32, depth: usize,
        extent: *mut Extent, step: *mut u32,
    ) -> u32;
    pub fn keeper_read(
        words: *mut u64, count: usize, name: u64, subscripts: *const i32, depth: usize,
        kind: u64, subscript: i32, word: *mut u64, step: *mut u32,
    ) -> u32;
    pub fn keeper_write(
        words: *mut u64, count: usize, name: u64, subscripts: *const i32, depth: usize,
        kind: u64, subscript: i32, word: u64, step: *mut u32,
    ) -> u32;
    pub fn keeper_read_row(
        words: *mut u64, count: usize, name: u64, subscripts: *const i32, depth: usize,
        kind: u64, subscript: i32, row: *mut u64, row_count: usize, step: *mut u32,
    ) -> u32;
    pub fn keeper_write_row(
        words: *mut u64, count: usize, name: u64, subscripts: *const i32, depth: usize,
        kind: u64, subscript: i32, row: *const u64, row_count: usize, step: *mut u32,
    ) -> u32;
}
