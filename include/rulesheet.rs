//! The functions of rulesheet.h for Rust: their declarations, and a safe wrapper of each, by operations.rs. rulesheet.h says which
//! atoms are written and which are fresh.
#![allow(dead_code)]

include!("operations.rs");

operations!("rulesheet");

/// Room that is enough for every legal input, in bytes or words.
pub const COMPONENTS_ROOM: usize = 64;
pub const DEFAULT_ROOM: usize = 643;
pub const MISSING_ROOM: usize = 10;
pub const UNFOLDED_ROOM: usize = 9_585_475;
pub const CLAUSES_ROOM: usize = 38_190_594;
pub const LPARSE_ROOM: usize = 49_088;
