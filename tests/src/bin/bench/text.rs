//! The lparse text, beside a fill of the same buffer.

use crate::check;
use crate::sheets::{free_heads, full_for, short_rules};
use crate::timing::{columns, time_in_turns};
use rulesheet_tests::inputs::sheet_a;
use rulesheet_tests::reference::lparse_text;
use rulesheet_tests::report::Tally;
use rulesheet_tests::rulesheet;
use rulesheet_tests::sheet::Sheet;
use std::hint::black_box;

/// The fill, reading, a call without room and a call.
const CALLS: usize = 4;

pub fn measure(tally: &mut Tally) {
    println!("\nlparse: microseconds, medians; `fill` sets the same bytes to 1, `read` reads the sheet, `empty` is a call without room\n");
    println!(
        "| sheet | records | bytes | fill | read | empty | call | million bytes / s | call / fill | empty / call |"
    );
    println!("|---|{}", "--:|".repeat(9));
    let mut rows = rows();
    rows.iter_mut().for_each(|row| row.check(tally));
    let times = time_in_turns(rows.len() * CALLS, |which| rows[which / CALLS].call(which % CALLS));
    for (row, times) in rows.iter_mut().zip(times.chunks(CALLS)) {
        row.times = times.iter().map(|time| time * 1e3).collect();
        row.print();
    }
    let [.., first, _, _, last] = &rows[..] else { unreachable!() };
    last.print_growth("128 / 16 full records", first);
}

fn rows() -> Vec<Row> {
    vec![
        Row::new("Sheet A", sheet_a()),
        Row::new("64 atoms, no record", Sheet::new(64, vec![])),
        Row::new("32 free heads", free_heads(32)),
        Row::new("64 atoms, 128 short rules", short_rules()),
        Row::new("64 atoms, 16 full records", full_for(63, 16)),
        Row::new("64 atoms, 32 full records", full_for(63, 32)),
        Row::new("64 atoms, 64 full records", full_for(63, 64)),
        // No legal sheet has more bytes of text.
        Row::new("the longest text", full_for(63, 128)),
    ]
}

struct Row {
    name: &'static str,
    records: usize,
    sheet: Vec<u8>,
    text: String,
    /// As long as the text.
    out: Vec<u8>,
    times: Vec<f64>,
}

impl Row {
    fn new(name: &'static str, sheet: Sheet) -> Row {
        let text = lparse_text(&sheet);
        let out = vec![0; text.len()];
        Row { name, records: sheet.records.len(), sheet: sheet.bytes(), text, out, times: Vec::new() }
    }

    /// The text must be the reference's.
    fn check(&mut self, tally: &mut Tally) {
        let name = format!("lparse, {}", self.name);
        let written = rulesheet::lparse(&self.sheet, &mut self.out);
        check(tally, &name, written == Ok([self.text.len() as u64]) && self.out == self.text.as_bytes());
        check(tally, &name, rulesheet::lparse(&self.sheet, &mut []) == Err(10));
    }

    fn call(&mut self, which: usize) {
        match which {
            0 => black_box(&mut self.out).fill(black_box(1)),
            1 => drop(black_box(rulesheet::read(&self.sheet))),
            2 => drop(black_box(rulesheet::lparse(&self.sheet, &mut []))),
            _ => drop(black_box(rulesheet::lparse(&self.sheet, &mut self.out))),
        }
    }

    fn print(&self) {
        let [fill, _, empty, call] = self.times[..] else { unreachable!() };
        let Row { name, records, out, times, .. } = self;
        let ratios = [out.len() as f64 / call, call / fill, empty / call];
        println!("| {name} | {records} | {} | {} | {} |", out.len(), columns(times.clone()), columns(ratios));
    }

    /// How many times as much as for a smaller sheet.
    fn print_growth(&self, name: &str, smaller: &Row) {
        let sizes = [(self.records, smaller.records), (self.out.len(), smaller.out.len())];
        let sizes = sizes.map(|(size, less)| size as f64 / less as f64);
        let times = self.times.iter().zip(&smaller.times).map(|(time, less)| time / less);
        println!("| {name} | {} | {} | | | |", columns(sizes), columns(times));
    }
}
