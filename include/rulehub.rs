//! The functions of rulehub.h for Rust, as rulesheet.rs has those of rulesheet.h.
#![allow(dead_code)]

include!("operations.rs");

operations!("rulehub");

/// Room that is enough for every legal input, in bytes or words.
pub const COMPONENTS_ROOM: usize = 24;
pub const DEFAULT_ROOM: usize = 99;
pub const MISSING_ROOM: usize = 4;
pub const UNFOLDED_ROOM: usize = 460_971;
pub const CLAUSES_ROOM: usize = 1_824_866;
pub const LPARSE_ROOM: usize = 17_960;
