//! The operations that read a sheet, beside one plain pass over its bytes.

use crate::check;
use crate::sheets::{free_heads, full};
use crate::timing::{columns, time_in_turns};
use rulesheet_tests::inputs::{complete_components, sheet_a};
use rulesheet_tests::reference::answer;
use rulesheet_tests::report::Tally;
use rulesheet_tests::rulesheet;
use rulesheet_tests::service::{Answer, Call, Operation};
use rulesheet_tests::sheet::{rule, Sheet};
use std::hint::black_box;

/// The longest output.
const ROOM: usize = rulesheet::DEFAULT_ROOM;
const OPERATIONS: [Operation; 4] = [Operation::Read, Operation::Body, Operation::Components, Operation::Default];
/// The sum and each operation.
const CALLS: usize = 5;

pub fn measure(tally: &mut Tally) {
    println!("\nread, body (of the last record), components, default: microseconds, medians; `sum` adds up the sheet's bytes\n");
    println!("| sheet | bytes | sum | read | body | components | default | read / sum | body / sum | components / sum | default / sum |");
    println!("|---|--:|--:|--:|--:|--:|--:|--:|--:|--:|--:|");
    let mut rows = rows();
    rows.iter().for_each(|row| row.check(tally));
    let times = time_in_turns(rows.len() * CALLS, |which| rows[which / CALLS].call(which % CALLS));
    for (row, times) in rows.iter_mut().zip(times.chunks(CALLS)) {
        row.times = times.iter().map(|time| time * 1e3).collect();
        row.print();
    }
    let [.., first, _, _, last] = &rows[..] else { unreachable!() };
    last.print_growth("128 / 16 full records", first);
}

fn rows() -> Vec<Row> {
    let full =
        [16, 32, 64, 128].map(|records| Row::new(&format!("64 atoms, {records} full records"), full(64, 10, records)));
    let mut rows = vec![
        Row::new("Sheet A", sheet_a()),
        Row::new("64 atoms, one fact", Sheet::new(64, vec![rule(0, &[], &[])])),
        Row::new("6 complete components of 10", complete_components(6, 10)),
        Row::new("32 free heads", free_heads(32)),
    ];
    rows.extend(full);
    rows
}

struct Row {
    name: String,
    sheet: Vec<u8>,
    /// The number of the last record.
    last: u64,
    out: [u8; ROOM],
    times: Vec<f64>,
}

impl Row {
    fn new(name: &str, sheet: Sheet) -> Row {
        let last = sheet.records.len() as u64 - 1;
        Row { name: name.to_string(), sheet: sheet.bytes(), last, out: [0; ROOM], times: Vec::new() }
    }

    /// Every operation must succeed and answer what the reference does.
    fn check(&self, tally: &mut Tally) {
        for operation in OPERATIONS {
            let expected = answer(&Call::new(operation, &self.sheet).number(self.last));
            let right = library_answer(operation, &self.sheet, self.last) == expected;
            let name = format!("{}, {}", operation.name(), self.name);
            check(tally, &name, right && !matches!(expected, Answer::Refused(_)));
        }
    }

    fn call(&mut self, which: usize) {
        match which {
            0 => drop(black_box(sum(black_box(&self.sheet)))),
            1 => drop(black_box(rulesheet::read(&self.sheet))),
            2 => drop(black_box(rulesheet::body(&self.sheet, self.last))),
            3 => drop(black_box(rulesheet::components(&self.sheet, &mut self.out))),
            _ => drop(black_box(rulesheet::default_sequence(&self.sheet, &mut self.out))),
        }
    }

    fn print(&self) {
        let times = self.times.iter().copied();
        let ratios = times.clone().skip(1).map(|time| time / self.times[0]);
        println!("| {} | {} | {} | {} |", self.name, self.sheet.len(), columns(times), columns(ratios));
    }

    /// How many times as much as for a smaller sheet.
    fn print_growth(&self, name: &str, smaller: &Row) {
        let bytes = self.sheet.len() as f64 / smaller.sheet.len() as f64;
        let times = self.times.iter().zip(&smaller.times).map(|(time, less)| time / less);
        println!("| {name} | {} | {} | | | | |", columns([bytes]), columns(times));
    }
}

fn library_answer(operation: Operation, sheet: &[u8], number: u64) -> Answer {
    let mut out = [0; ROOM];
    let slice = |offset: u64, length: u64| sheet[offset as usize..][..length as usize].to_vec();
    let answer = match operation {
        Operation::Read => rulesheet::read(sheet).map(|[atoms, records]| Answer::Read { atoms, records }),
        Operation::Body => rulesheet::body(sheet, number).map(|[positives, offset, length]| Answer::Body {
            positives,
            slice: slice(offset, length),
            offset,
        }),
        Operation::Components => {
            rulesheet::components(sheet, &mut out).map(|[length]| Answer::Bytes(out[..length as usize].to_vec()))
        }
        Operation::Default => {
            rulesheet::default_sequence(sheet, &mut out).map(|[length]| Answer::Bytes(out[..length as usize].to_vec()))
        }
        other => unreachable!("{}", other.name()),
    };
    answer.unwrap_or_else(Answer::Refused)
}

fn sum(bytes: &[u8]) -> u64 {
    bytes.iter().map(|&byte| u64::from(byte)).sum()
}
