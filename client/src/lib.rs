//! The keeper, for Rust: 64 named arrays of arrays in one list of words that the caller lends.
//!
//! Each call goes to the proved library by its C interface, which `include/keeper.h` describes. This crate is plain Rust, and is not proved:
//! it hands lists on as a pointer and a length, and turns numbers into refusals and words into items.

mod keeper;
mod kind;
pub mod raw;
mod refusal;

pub use keeper::{Keeper, Shape, Trace};
pub use kind::{Amounts, Kind, Voucher, Vouchers, Words};
pub use refusal::Refusal;

/// The fewest words that a keeper can be made over.
pub const LEAST: usize = 67;

/// The most words that are counted of a list.
pub const MOST: usize = 262_144;
