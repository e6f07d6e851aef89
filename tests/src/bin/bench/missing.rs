//! The shortest missing chain, beside the test of the same sequence and a list of chains.

use crate::check;
use crate::timing::{columns, time_in_turns, time_once};
use rulesheet_tests::inputs::{complete_components, sheet_a};
use rulesheet_tests::limits::OFFICE;
use rulesheet_tests::reference::{answer, Graph};
use rulesheet_tests::report::Tally;
use rulesheet_tests::rulesheet;
use rulesheet_tests::service::{Answer, Call, Operation};
use rulesheet_tests::sheet::{sequence_bytes, Sheet};
use std::hint::black_box;

/// The test and a call.
const CALLS: usize = 2;

pub fn measure(tally: &mut Tally) {
    println!("\nmissing: milliseconds, medians; `atoms` are those of the chain, none where the sequence passes, `test` tests the sequence, `reference` lists chains up to the one that is missing, or walks over all where none is, run once\n");
    println!("| complete components | entries | atoms | test | call | call / test | reference | reference / call |");
    println!("|---|{}", "--:|".repeat(7));
    let rows = rows();
    let times = time_in_turns(rows.len() * CALLS, |which| rows[which / CALLS].call(which % CALLS));
    for (row, times) in rows.iter().zip(times.chunks(CALLS)) {
        row.print(times, tally);
    }
}

/// Sequences that lack nothing but a falling chain of ten, as a component of ten has one round less than by default; the most
/// entries; no entries; and sequences that pass.
fn rows() -> Vec<Row> {
    let (one, six) = (complete_components(1, 10), complete_components(6, 10));
    let default = Graph::new(&six).default_sequence();
    let (nine, ten) = (&default[..90], &default[..100]);
    let spread: Vec<u8> = (0..OFFICE.entries).map(|place| nine[place * nine.len() / OFFICE.entries]).collect();
    vec![
        Row::new("Sheet A", &sheet_a(), &[0, 1, 2]),
        Row::new("Sheet A", &sheet_a(), &[0, 1, 0, 2]),
        Row::new("1 of 10, no entry", &one, &[]),
        Row::new("1 of 10, nine rounds", &one, nine),
        Row::new("1 of 10, nine rounds, entries repeated", &one, &spread),
        Row::new("1 of 10, nine rounds, then one atom", &one, &[nine, &[9; OFFICE.entries - 90]].concat()),
        Row::new("1 of 10, ten rounds, then one atom", &one, &[ten, &[9; OFFICE.entries - 100]].concat()),
        Row::new("6 of 10, no entry", &six, &[]),
        Row::new("6 of 10, nine rounds of the first", &six, &[nine, &default[100..]].concat()),
        Row::new("6 of 10, nine rounds of the last", &six, &default[..590]),
        Row::new("6 of 10, ten rounds", &six, &default),
    ]
}

struct Row {
    name: &'static str,
    entries: usize,
    sheet: Vec<u8>,
    sequence: Vec<u8>,
}

impl Row {
    fn new(name: &'static str, sheet: &Sheet, entries: &[u8]) -> Row {
        Row { name, entries: entries.len(), sheet: sheet.bytes(), sequence: sequence_bytes(entries) }
    }

    fn call(&self, which: usize) {
        match which {
            0 => drop(black_box(rulesheet::test(&self.sheet, &self.sequence))),
            _ => drop(black_box(self.answer(&mut [0; rulesheet::MISSING_ROOM]))),
        }
    }

    /// The library's answer in that room.
    fn answer(&self, out: &mut [u8]) -> Result<[u64; 1], u32> {
        rulesheet::missing(&self.sheet, &self.sequence, out)
    }

    /// Runs the reference and compares the answers.
    fn print(&self, times: &[f64], tally: &mut Tally) {
        let [test, call] = times[..] else { unreachable!() };
        let Row { name, entries, sheet, sequence } = self;
        let (expected, listed) = time_once(|| answer(&Call::new(Operation::Missing, sheet).sequence(sequence)));
        let atoms = if expected.length() > 0 { expected.length().to_string() } else { "none".into() };
        let numbers = columns([test, call, call / test, listed, listed / call]);
        println!("| {name} | {entries} | {atoms} | {numbers} |");
        self.check(&expected, tally);
    }

    /// The chain must be the reference's; without room there is a refusal by 10, or by 14 all the same.
    fn check(&self, expected: &Answer, tally: &mut Tally) {
        let name = format!("missing, {}", self.name);
        let mut out = [0; rulesheet::MISSING_ROOM];
        let found = self.answer(&mut out).map(|[length]| Answer::Missing(out[..length as usize].to_vec()));
        check(tally, &name, found.unwrap_or_else(Answer::Refused) == *expected);
        let refusal = if expected.length() > 0 { 10 } else { 14 };
        check(tally, &name, self.answer(&mut []) == Err(refusal));
    }
}
