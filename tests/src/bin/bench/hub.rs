//! The hub beside the office: the same calls on the same inputs.

use crate::check;
use crate::sheets::longest;
use crate::timing::{columns, time_in_turns};
use crate::writing::Writing;
use rulesheet_tests::inputs::{complete_components, sheet_a};
use rulesheet_tests::library::Libraries;
use rulesheet_tests::limits::HUB;
use rulesheet_tests::reference::{answer, Graph};
use rulesheet_tests::report::Tally;
use rulesheet_tests::service::{Answer, Call, Host, Operation, Service};
use rulesheet_tests::sheet::{sequence_bytes, Sheet};
use rulesheet_tests::{rulehub, rulesheet};
use std::hint::black_box;

const OPERATIONS: [Operation; 6] =
    [Operation::Read, Operation::Test, Operation::Missing, Operation::Unfolded, Operation::Clauses, Operation::Count];
/// One to each service.
const CALLS: usize = 2;

pub fn measure(tally: &mut Tally) {
    println!("\noffice and hub: microseconds, medians\n");
    println!("| sheet | entries | operation | answer | length | office | hub | hub / office |");
    println!("|---|--:|---|---|{}", "--:|".repeat(4));
    let mut rows = rows();
    rows.iter().for_each(|row| row.check(tally));
    let times = time_in_turns(rows.len() * CALLS, |which| rows[which / CALLS].call(&BINDINGS[which % CALLS]));
    for (row, times) in rows.iter().zip(times.chunks(CALLS)) {
        row.print(times);
    }
}

/// The wrappers of a library.
struct Binding {
    read: fn(&[u8]) -> Result<[u64; 2], u32>,
    test: fn(&[u8], &[u8]) -> Result<(), u32>,
    missing: Writing<u8, 1>,
    unfolded: Writing<u32, 1>,
    clauses: Writing<i32, 3>,
    count: fn(&[u8]) -> Result<[u64; 2], u32>,
}

macro_rules! binding {
    ($library:ident) => {{
        use $library::*;
        Binding { read, test, missing, unfolded, clauses, count }
    }};
}

const BINDINGS: [Binding; CALLS] = [binding!(rulesheet), binding!(rulehub)];

/// Sheet A and six complete components of four, with their default sequences, and the input with the most words.
fn rows() -> Vec<Row> {
    let default = |name, sheet: Sheet| (name, Graph::new(&sheet).default_sequence(), sheet);
    let atoms = HUB.atoms as u8;
    let one_atom = [vec![0; HUB.entries - HUB.atoms], (0..atoms).collect()].concat();
    let inputs = [
        default("Sheet A", sheet_a()),
        default("6 complete components of 4", complete_components(6, 4)),
        ("the most words in the hub", one_atom, longest(atoms)),
    ];
    let rows = |(name, entries, sheet): &(&'static str, Vec<u8>, Sheet)| {
        OPERATIONS.map(|operation| Row::new(name, operation, sheet, entries))
    };
    inputs.iter().flat_map(rows).collect()
}

struct Row {
    name: &'static str,
    entries: usize,
    call: Call,
    answer: Answer,
    /// As long as the output.
    bytes: Vec<u8>,
    words: Vec<u32>,
    literals: Vec<i32>,
}

impl Row {
    fn new(name: &'static str, operation: Operation, sheet: &Sheet, entries: &[u8]) -> Row {
        let call = Call::new(operation, &sheet.bytes()).sequence(&sequence_bytes(entries));
        let answer = answer(&call);
        let room = answer.length();
        let (bytes, words, literals) = (vec![0; room], vec![0; room], vec![0; room]);
        Row { name, entries: entries.len(), call: call.room(room), answer, bytes, words, literals }
    }

    /// Both services must answer what the reference does.
    fn check(&self, tally: &mut Tally) {
        for host in Host::ALL {
            let name = format!("{}, {}", host.name_of(self.call.operation), self.name);
            check(tally, &name, Libraries::new().answer(&self.call.clone().at(host)).as_ref() == Ok(&self.answer));
        }
    }

    fn call(&mut self, binding: &Binding) {
        let Call { sheet, sequence, .. } = &self.call;
        match self.call.operation {
            Operation::Read => drop(black_box((binding.read)(sheet))),
            Operation::Test => drop(black_box((binding.test)(sheet, sequence))),
            Operation::Missing => drop(black_box((binding.missing)(sheet, sequence, &mut self.bytes))),
            Operation::Unfolded => drop(black_box((binding.unfolded)(sheet, sequence, &mut self.words))),
            Operation::Clauses => drop(black_box((binding.clauses)(sheet, sequence, &mut self.literals))),
            Operation::Count => drop(black_box((binding.count)(sheet))),
            other => unreachable!("{}", other.name()),
        }
    }

    fn print(&self, times: &[f64]) {
        let [office, hub] = [times[0] * 1e3, times[1] * 1e3];
        let Row { name, entries, call, answer, .. } = self;
        let (operation, kind, length) = (call.operation.name(), answer.kind(), answer.length());
        println!("| {name} | {entries} | {operation} | {kind} | {length} | {} |", columns([office, hub, hub / office]));
    }
}
