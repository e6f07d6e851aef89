//! Cases of the clause program.

use crate::cases::Cases;
use crate::choices;
use rulesheet_tests::inputs::{any_sheet, barely_entered, cycle, damaged, sheet_a, Shape, Style};
use rulesheet_tests::random::Random;
use rulesheet_tests::reference::Graph;
use rulesheet_tests::sequences::{any_sequence, mixed, reordered};
use rulesheet_tests::service::{Call, Operation};
use rulesheet_tests::sheet::{constraint, rule, sequence_bytes, Record, Sheet};

pub fn cases() -> Cases {
    let mut cases = Cases::default();
    let mut random = Random::new(5);
    divisions(&mut cases);
    room(&mut cases);
    for _ in 0..40 {
        let sheet = Style { atoms: 6, records: 8, component: 4, negated: 6, body: 2 }.sheet(&mut random);
        let entries = mixed(&mut random, &Graph::new(&sheet));
        run(&mut cases, &[sheet.bytes(), sequence_bytes(&entries)]);
        let sequence = any_sequence(&mut random, &sheet);
        run(&mut cases, &[sheet.bytes(), sequence.clone()]);
        run(&mut cases, &[damaged(&mut random, &sheet), sequence]);
    }
    for sheet in choices::small().into_iter().step_by(3).chain(choices::most_atoms().into_iter().step_by(5)) {
        run(&mut cases, &[sheet.bytes(), sequence_bytes(&Graph::new(&sheet).default_sequence())]);
    }
    for _ in 0..20 {
        let sheet = choices::any(&mut random, 6);
        let sequence = any_sequence(&mut random, &sheet);
        run(&mut cases, &[sheet.bytes(), sequence.clone()]);
        run(&mut cases, &[damaged(&mut random, &sheet), sequence]);
    }
    for _ in 0..20 {
        let sheet = any_sheet(&mut random);
        run(&mut cases, &[sheet.bytes(), sequence_bytes(&Graph::new(&sheet).default_sequence())]);
    }
    for shape in Shape::ALL {
        for size in [2, 3, 5] {
            let sheet = barely_entered(&mut random, shape, size);
            let entries = reordered(&mut random, &Graph::new(&sheet));
            run(&mut cases, &[sheet.bytes(), sequence_bytes(&entries)]);
        }
    }
    cases
}

fn run(cases: &mut Cases, parts: &[Vec<u8>]) {
    cases.add(Call::new(Operation::Program, &parts.concat()));
}

/// Where the length field divides the input.
fn divisions(cases: &mut Cases) {
    let sheet = sheet_a().bytes();
    let input = [sheet.clone(), sequence_bytes(&[0, 1, 0, 2])].concat();
    for length in 0..=input.len() {
        run(cases, &[input[..length].to_vec()]);
    }
    for more in [1, 3, 7, 65_536] {
        run(cases, &[input.clone(), vec![0; more]]);
    }
    for length in [0, 1, 2, 3, 4, 5, 24, 26, 32, 33, 255] {
        let mut input = input.clone();
        input[2] = length;
        run(cases, &[input]);
    }
    run(cases, &[vec![1, 0, 5, 0, 0], sequence_bytes(&[])]);
    run(cases, &[Sheet::new(0, vec![constraint(&[], &[])]).bytes(), sequence_bytes(&[])]);
}

/// Outputs of 16,384 words, of one less and of one more.
fn room(cases: &mut Cases) {
    let facts = vec![rule(0, &[], &[]); 4];
    let words = |number: usize| -> Vec<Record> { vec![constraint(&[], &[]); number] };
    for number in 2..=5 {
        // 630 copies of 26 words each, and a word for each constraint.
        let sheet = Sheet::new(1, [facts.clone(), words(number)].concat());
        run(cases, &[sheet.bytes(), sequence_bytes(&[0; 630])]);
    }
    for number in 22..=25 {
        // One of those copies less, and three of 2 words: before W2 two of them kept a rule, and nothing fitted.
        let sheet = Sheet::new(3, [facts.clone(), cycle(&[1, 2]), words(number)].concat());
        run(cases, &[sheet.bytes(), sequence_bytes(&[&[0; 629][..], &[1, 2, 1]].concat())]);
    }
}
