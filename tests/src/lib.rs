//! Tests of the rule sheet service from outside: an independent reference implementation, vector files, generated
//! inputs, and the calls to the libraries.

pub mod inputs;
#[cfg(feature = "library")]
pub mod library;
pub mod limits;
pub mod models;
pub mod random;
pub mod reference;
pub mod report;
#[cfg(feature = "library")]
#[path = "../../include/rulehub.rs"]
pub mod rulehub;
#[cfg(feature = "library")]
#[path = "../../include/rulesheet.rs"]
pub mod rulesheet;
pub mod sequences;
pub mod service;
pub mod sheet;
pub mod vectors;

#[cfg(feature = "library")]
mod lent;
