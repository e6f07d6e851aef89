//! The test of a sequence beside walks over all chains.

use crate::check;
use crate::timing::{time_in_turns, time_once};
use rulesheet_tests::inputs::complete_components;
use rulesheet_tests::limits::OFFICE;
use rulesheet_tests::reference::{all_found, Graph};
use rulesheet_tests::report::Tally;
use rulesheet_tests::rulesheet;
use rulesheet_tests::sequences::padded;
use rulesheet_tests::sheet::{sequence_bytes, Sheet};
use std::hint::black_box;

pub fn measure(tally: &mut Tally) {
    println!("\ntest: milliseconds; `remembered` is the reference's depth-first walk, `plain` one over all chains, each run once\n");
    println!("| complete components | entries | answer | call | remembered | plain | plain / call |");
    println!("|---|--:|--:|--:|--:|--:|--:|");
    let rows: Vec<Row> = [(1, 8), (1, 10), (6, 10)].into_iter().flat_map(rows).collect();
    let calls = time_in_turns(rows.len(), |which| {
        black_box(rows[which].call());
    });
    for (row, call) in rows.iter().zip(calls) {
        row.print(call, tally);
    }
}

/// Sequences for complete components: the default, the default with its first entry repeated up to the limit, and half
/// of the default, which lacks chains.
fn rows((components, size): (u8, u8)) -> [Row; 3] {
    let sheet = complete_components(components, size);
    let default = Graph::new(&sheet).default_sequence();
    let half = default[..default.len() / 2].to_vec();
    let long = padded(&default, OFFICE.entries);
    [default, long, half].map(|entries| Row::new(format!("{components} of {size}"), &sheet, entries))
}

struct Row {
    name: String,
    graph: Graph,
    entries: Vec<u8>,
    sheet: Vec<u8>,
    sequence: Vec<u8>,
}

impl Row {
    fn new(name: String, sheet: &Sheet, entries: Vec<u8>) -> Row {
        Row { name, graph: Graph::new(sheet), sheet: sheet.bytes(), sequence: sequence_bytes(&entries), entries }
    }

    fn call(&self) -> bool {
        rulesheet::test(&self.sheet, &self.sequence).is_ok()
    }

    /// Runs the walks and compares the answers.
    fn print(&self, call: f64, tally: &mut Tally) {
        let Row { name, graph, entries, .. } = self;
        let (answer, remembered) = time_once(|| all_found(graph, entries));
        let (plain_answer, plain) = time_once(|| graph.atoms().all(|atom| walk(graph, entries, atom, 0, 0)));
        println!(
            "| {name} | {} | {answer} | {call:.4} | {remembered:.2} | {plain:.2} | {:.1} |",
            entries.len(),
            plain / call
        );
        check(tally, &format!("test, {name}"), self.call() == answer && plain_answer == answer);
    }
}

/// Whether `next` and every chain that goes on from it over atoms outside `used` is found from `start` on.
fn walk(graph: &Graph, entries: &[u8], next: u8, used: u64, start: usize) -> bool {
    let Some(place) = entries[start..].iter().position(|&entry| entry == next) else { return false };
    let used = used | 1 << next;
    let mut rest = graph.successors(next).iter().filter(|&&atom| used >> atom & 1 == 0);
    rest.all(|&atom| walk(graph, entries, atom, used, start + place + 1))
}
