//! The operations that write words, beside a fill of the same buffer.

use crate::check;
use crate::sheets::{entered, full, late, late_cycles, longest, many_choices, six_components};
use crate::timing::{columns, time_in_turns};
use rulesheet_tests::inputs::{complete_components, sheet_a};
use rulesheet_tests::reference::{expanded, unfold, Derivation, Graph, Unfolded};
use rulesheet_tests::report::Tally;
use rulesheet_tests::rulesheet;
use rulesheet_tests::service::{Call, Operation};
use rulesheet_tests::sheet::{sequence_bytes, Sheet};
use std::hint::black_box;

pub fn measure(tally: &mut Tally) {
    let shown = &[("words", 0)];
    Writer { name: "unfolded", call: rulesheet::unfolded, expected: unfolded_numbers, shown }.table(tally);
    let shown = &[("words", 0), ("clauses", 2)];
    Writer { name: "clauses", call: rulesheet::clauses, expected: clauses_numbers, shown }.table(tally);
}

/// The fill, the test, a call without room and a call.
const CALLS: usize = 4;

/// A sheet and a sequence that are accepted together.
struct Input {
    name: &'static str,
    sheet: Sheet,
    entries: Vec<u8>,
}

fn inputs() -> Vec<Input> {
    let default = |name, sheet: Sheet| Input { name, entries: Graph::new(&sheet).default_sequence(), sheet };
    let eight = |rules, entries: u16| {
        let entries = (0..entries).map(|place| place as u8 % 8).collect();
        Input { name: "1 component of 8", sheet: entered(full(8, 8, rules), 8), entries }
    };
    let zeros = |number| vec![0; number];
    let others: Vec<u8> = (1..64).collect();
    let one_atom = [zeros(577), others.clone()].concat();
    vec![
        Input { name: "Sheet A", sheet: sheet_a(), entries: vec![0, 1, 0, 2] },
        eight(16, 640),
        eight(32, 640),
        eight(64, 640),
        eight(128, 80),
        eight(128, 160),
        eight(128, 320),
        eight(128, 640),
        default("6 components of 10, no way in", complete_components(6, 10)),
        default("6 cycles of 10, late way in", late_cycles()),
        default("6 components of 10, long rules", six_components()),
        Input {
            name: "1 component of 8, 56 choice rules",
            sheet: many_choices(),
            entries: [(0..8).cycle().take(584).collect(), (8..64).collect::<Vec<u8>>()].concat(),
        },
        Input { name: "nearly all dropped", sheet: late(), entries: [vec![63], zeros(575), others, zeros(1)].concat() },
        // The most words before W2.
        Input { name: "all dropped", sheet: full(64, 1, 128), entries: one_atom.clone() },
        // No legal input gives more words, with choice rules or without.
        Input { name: "the most words", sheet: longest(64), entries: one_atom },
    ]
}

/// Which inputs are compared, by their places, to show how times grow.
const GROWTHS: [(&str, usize, usize); 2] = [("128 / 16 rules", 1, 7), ("640 / 80 entries", 4, 7)];

/// A call with a sheet, a sequence and a buffer: the numbers answered, the length first, or the refusal.
pub type Writing<T, const N: usize> = fn(&[u8], &[u8], &mut [T]) -> Result<[u64; N], u32>;

/// An operation that writes words, and the numbers that it must answer, by the reference's unfolded program.
struct Writer<T, const N: usize> {
    name: &'static str,
    call: Writing<T, N>,
    expected: fn(&Unfolded) -> [u64; N],
    /// The numbers in the table, by their names and places.
    shown: &'static [(&'static str, usize)],
}

/// Words can be made from 0 and 1.
impl<T: Copy + From<bool>, const N: usize> Writer<T, N> {
    fn table(&self, tally: &mut Tally) {
        let name = self.name;
        println!("\n{name}: milliseconds, medians; `fewer` is how many fewer there are than before W2, `fill` sets the same words to 1, `test` tests the sequence, `empty` is a call without room\n");
        let shown: String = self.shown.iter().map(|(shown, _)| format!(" {shown} | fewer |")).collect();
        println!("| sheet | rules | entries |{shown} fill | test | empty | call | million words / s | call / fill | empty / call |");
        println!("|---|{}", "--:|".repeat(9 + 2 * self.shown.len()));
        let mut rows: Vec<Row<T>> = inputs().into_iter().map(|input| self.row(input, tally)).collect();
        let times = time_in_turns(rows.len() * CALLS, |which| self.call(&mut rows[which / CALLS], which % CALLS));
        for (row, times) in rows.iter_mut().zip(times.chunks(CALLS)) {
            row.times = times.to_vec();
            row.print();
        }
        for (name, smaller, larger) in GROWTHS {
            rows[larger].print_growth(name, &rows[smaller]);
        }
    }

    /// A row with no times yet; its answers are checked.
    fn row(&self, input: Input, tally: &mut Tally) -> Row<T> {
        let (sheet, sequence) = (input.sheet.bytes(), sequence_bytes(&input.entries));
        let unfolding = Call::new(Operation::Unfolded, &sheet).sequence(&sequence);
        let numbers = |by: Derivation| (self.expected)(&unfold(by, &unfolding).expect("they are accepted"));
        let (expected, before) = (numbers(Unfolded::new), numbers(Unfolded::unshortened));
        let numbers = self.shown.iter().map(|&(_, place)| [expected[place], before[place] - expected[place]]).collect();
        let mut out = vec![T::from(false); expected[0] as usize];
        let name = format!("{}, {}", self.name, input.name);
        check(tally, &name, (self.call)(&sheet, &sequence, &mut out) == Ok(expected));
        check(tally, &name, (self.call)(&sheet, &sequence, &mut []) == Err(10));
        check(tally, &name, rulesheet::test(&sheet, &sequence).is_ok());
        Row { input, sheet, sequence, out, numbers, times: Vec::new() }
    }

    fn call(&self, Row { sheet, sequence, out, .. }: &mut Row<T>, which: usize) {
        match which {
            0 => black_box(out).fill(black_box(T::from(true))),
            1 => drop(black_box(rulesheet::test(sheet, sequence))),
            2 => drop(black_box((self.call)(sheet, sequence, &mut []))),
            _ => drop(black_box((self.call)(sheet, sequence, out))),
        }
    }
}

struct Row<T> {
    input: Input,
    sheet: Vec<u8>,
    sequence: Vec<u8>,
    /// As long as the output.
    out: Vec<T>,
    /// The numbers in the table, the words first, each with how many there are fewer than before W2.
    numbers: Vec<[u64; 2]>,
    times: Vec<f64>,
}

impl<T> Row<T> {
    /// Rules, two for each choice rule, entries, words.
    fn sizes(&self) -> [usize; 3] {
        [expanded(&self.input.sheet).rules().count(), self.input.entries.len(), self.out.len()]
    }

    fn print(&self) {
        let [fill, _, empty, call] = self.times[..] else { unreachable!() };
        let [rules, entries, words] = self.sizes();
        let numbers = self.numbers.iter().flatten().map(u64::to_string).collect::<Vec<_>>().join(" | ");
        let (times, ratios) = (self.times.clone(), [words as f64 / call / 1e3, call / fill, empty / call]);
        println!(
            "| {} | {rules} | {entries} | {numbers} | {} | {} |",
            self.input.name,
            columns(times),
            columns(ratios)
        );
    }

    /// How many times as much as for a smaller input.
    fn print_growth(&self, name: &str, smaller: &Row<T>) {
        let sizes = self.sizes().into_iter().zip(smaller.sizes()).map(|(size, less)| size as f64 / less as f64);
        let times = self.times.iter().zip(&smaller.times).map(|(time, less)| time / less);
        let blank = " |".repeat(2 * self.numbers.len() - 1);
        println!("| {name} | {} |{blank} {} | | | |", columns(sizes), columns(times));
    }
}

fn unfolded_numbers(unfolded: &Unfolded) -> [u64; 1] {
    [unfolded.words().len() as u64]
}

/// By the lengths of the bodies: a list of all clauses would take long to make.
fn clauses_numbers(unfolded: &Unfolded) -> [u64; 3] {
    let (mut words, mut clauses) = (0, 0);
    for copy in &unfolded.copies {
        words += copy.bodies.len() + 2;
        clauses += 1;
        for body in &copy.bodies {
            let literals = body.positives.len() + body.negatives.len();
            words += 3 + 3 * literals + (literals + 2);
            clauses += literals + 2;
        }
    }
    for body in &unfolded.constraints {
        words += body.positives.len() + body.negatives.len() + 1;
        clauses += 1;
    }
    [words as u64, unfolded.variables().into(), clauses as u64]
}
