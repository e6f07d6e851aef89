//! What a run of tests came to.

use crate::service::{Answer, Call, Host, Operation};
use std::collections::BTreeMap;
use std::fmt;

/// How many cases passed, failed and were skipped.
#[derive(Default)]
pub struct Tally {
    pub passed: usize,
    pub failed: usize,
    pub skipped: usize,
}

impl Tally {
    pub fn add(&mut self, result: &Result<(), String>) {
        match result {
            Ok(()) => self.passed += 1,
            Err(_) => self.failed += 1,
        }
    }

    /// Prints the closing line; the exit status is 0 only if nothing failed.
    pub fn finish(&self) -> ! {
        println!("{} passed, {} failed, {} skipped", self.passed, self.failed, self.skipped);
        std::process::exit(i32::from(self.failed > 0))
    }
}

/// How often each kind of answer came up, by service and operation.
#[derive(Default)]
pub struct Statistics(BTreeMap<(Host, Operation), BTreeMap<String, usize>>);

impl Statistics {
    pub fn add(&mut self, call: &Call, answer: &Answer) {
        *self.0.entry((call.host, call.operation)).or_default().entry(answer.kind()).or_default() += 1;
    }
}

impl fmt::Display for Statistics {
    fn fmt(&self, f: &mut fmt::Formatter) -> fmt::Result {
        for ((host, operation), kinds) in &self.0 {
            let kinds: Vec<String> = kinds.iter().map(|(kind, number)| format!("{kind}: {number}")).collect();
            writeln!(f, "    {}: {}", host.name_of(*operation), kinds.join(", "))?;
        }
        Ok(())
    }
}
