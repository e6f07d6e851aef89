//! Cases of the lparse text, and of the program that prints it.

use crate::cases::Cases;
use crate::choices;
use crate::sheets::{malformed, malformed_choices, well_formed};
use rulesheet_tests::inputs::{any_sheet, barely_entered, damaged, sheet_a, with_decided, Shape, Style};
use rulesheet_tests::random::Random;
use rulesheet_tests::service::{Call, Operation};
use rulesheet_tests::sheet::{choice, constraint, rule, Record, Sheet};

pub fn cases() -> Cases {
    let mut cases = Cases::default();
    let mut random = Random::new(6);
    let families = [
        well_formed(&mut random),
        choices::small(),
        choices::most_atoms(),
        kinds(),
        digits(),
        lengths(),
        random_sheets(&mut random),
    ];
    for sheet in families.concat() {
        ask(&mut cases, &mut random, &sheet);
    }
    every_room(&mut cases);
    longest(&mut cases);
    for bytes in [malformed(), malformed_choices(), random_faults(&mut random)].concat() {
        let call = Call::new(Operation::Lparse, &bytes);
        let rooms = [call.clone(), call.clone().room(0), call.clone().room(17), call.room(50_000)];
        cases.add(random.pick(&rooms).clone());
    }
    programs(&mut cases, &mut random);
    cases
}

/// With the room that is needed, with one byte less, and with another room.
fn ask(cases: &mut Cases, random: &mut Random, sheet: &Sheet) {
    let call = Call::new(Operation::Lparse, &sheet.bytes());
    let need = cases.add(call.clone()).length();
    for room in [need.saturating_sub(1), *random.pick(&[0, need / 2, need, need + 1, need + 40])] {
        cases.add(call.clone().room(room));
    }
}

fn from_to(first: u8, end: u8) -> Vec<u8> {
    (first..end).collect()
}

/// The three kinds with the same body, alone and in every order.
fn kinds() -> Vec<Sheet> {
    let bodies: [[&[u8]; 2]; 7] = [
        [&[], &[]],
        [&[0], &[]],
        [&[], &[0]],
        [&[1], &[0]],
        [&[0], &[1]],
        [&[0, 2], &[1, 2]],
        [&[0, 1, 2], &[0, 1, 2]],
    ];
    let mut sheets = Vec::new();
    for [positives, negatives] in bodies {
        let [a, b, c] =
            [rule(1, positives, negatives), constraint(positives, negatives), choice(2, positives, negatives)];
        let orders = [[&a, &b, &c], [&a, &c, &b], [&b, &a, &c], [&b, &c, &a], [&c, &a, &b], [&c, &b, &a]];
        sheets.extend([&a, &b, &c].map(|record| Sheet::new(3, vec![record.clone()])));
        sheets.extend(orders.map(|order| Sheet::new(3, order.map(Record::clone).to_vec())));
    }
    sheets
}

/// Tables of every length, and atoms around 8, whose number is 10, as heads and in both lists.
fn digits() -> Vec<Sheet> {
    let mut sheets: Vec<Sheet> = (0..=12).chain([20, 62, 63, 64]).map(|atoms| Sheet::new(atoms, vec![])).collect();
    for atom in [0, 1, 6, 7, 8, 9, 10, 11, 61, 62] {
        sheets.extend([
            Sheet::new(63, vec![rule(atom, &[], &[])]),
            Sheet::new(63, vec![choice(atom, &[], &[])]),
            Sheet::new(63, vec![constraint(&[atom], &[atom])]),
            Sheet::new(63, vec![rule(0, &[atom, 62][..1 + usize::from(atom < 62)], &[]), choice(9, &[], &[atom])]),
        ]);
    }
    sheets
}

/// Bodies of around 10, 64, 100 and 128 atoms, of which as many as can be are negative, or positive, or half of each.
fn lengths() -> Vec<Sheet> {
    let mut sheets = Vec::new();
    for length in [8, 9, 10, 11, 63, 64, 65, 98, 99, 100, 101, 126, 127, 128] {
        let (most, half) = (length.min(64), length / 2);
        for positives in [most, half, length - most] {
            let negatives = length - positives;
            // The last atoms have two digits, the first ones have one.
            let lists = [from_to(64 - positives, 64), from_to(0, negatives)];
            sheets.push(Sheet::new(64, vec![rule(7, &lists[0], &lists[1])]));
            sheets.push(Sheet::new(64, vec![constraint(&lists[0], &lists[1])]));
            if positives.max(negatives) < 64 {
                let lists = [from_to(0, positives), from_to(63 - negatives, 63)];
                sheets.push(Sheet::new(63, vec![choice(8, &lists[0], &lists[1])]));
            }
        }
    }
    sheets
}

fn random_sheets(random: &mut Random) -> Vec<Sheet> {
    let mut sheets = Vec::new();
    for _ in 0..60 {
        sheets.push(Style { atoms: 6, records: 9, component: 4, negated: 6, body: 2 }.sheet(random));
        sheets.push(choices::any(random, 12));
    }
    for _ in 0..30 {
        sheets.push(any_sheet(random));
    }
    for shape in Shape::ALL {
        sheets.extend([3, 8].map(|size| barely_entered(random, shape, size)));
    }
    // Question 11, which is not asked.
    sheets.extend([16, 17, 20].map(|number| with_decided(random, number)));
    sheets
}

/// Sheet A and a choice rule with a constraint, with every room up to what they need and beyond.
fn every_room(cases: &mut Cases) {
    let sheets = [sheet_a(), Sheet::new(9, vec![choice(8, &[1], &[0, 8]), constraint(&[7], &[8])])];
    for sheet in sheets {
        let call = Call::new(Operation::Lparse, &sheet.bytes());
        for room in 0..=cases.add(call.clone()).length() + 2 {
            cases.add(call.clone().room(room));
        }
    }
}

/// The longest text, and those of sheets that lack little of it: a head of one digit, an atom in one list, or a choice rule in
/// an atom's place.
fn longest(cases: &mut Cases) {
    let all = from_to(0, 64);
    let full = |head: u8| Sheet::new(64, vec![rule(head, &all, &all); 128]);
    let (mut lacking, mut chosen) = (full(8), full(62));
    lacking.records[127].positives.pop();
    chosen.atoms = 63;
    chosen.records.iter_mut().for_each(|record| {
        record.positives.pop();
        record.negatives.pop();
    });
    chosen.records[0] = choice(62, &all[..63], &all[..63]);
    for sheet in [full(7), lacking, chosen] {
        cases.add(Call::new(Operation::Lparse, &sheet.bytes()));
    }
    let call = Call::new(Operation::Lparse, &full(63).bytes());
    for room in [0, 49_087, 49_088, 65_536] {
        cases.add(call.clone().room(room));
    }
}

/// Bytes of sheets with one thing changed.
fn random_faults(random: &mut Random) -> Vec<Vec<u8>> {
    let mut sheets = Vec::new();
    for _ in 0..60 {
        let sheet = Style { atoms: 5, records: 5, component: 4, negated: 5, body: 2 }.sheet(random);
        sheets.push(damaged(random, &sheet));
        let sheet = choices::any(random, 5);
        sheets.push(damaged(random, &sheet));
    }
    sheets
}

/// The program on whole sheets, on parts of one, on sheets with bytes behind them, and on what it refuses.
fn programs(cases: &mut Cases, random: &mut Random) {
    let mut run = |input: &[u8]| drop(cases.add(Call::new(Operation::LparseProgram, input)));
    let sheet =
        Sheet::new(3, vec![rule(0, &[1], &[]), choice(1, &[], &[0]), constraint(&[0], &[2]), rule(2, &[], &[])])
            .bytes();
    for length in 0..=sheet.len() {
        run(&sheet[..length]);
    }
    for more in [1, 2, 5, 100] {
        run(&[&sheet[..], &vec![0; more]].concat());
    }
    // In two bytes 65,536 is 0, and 65,537 is 1.
    for length in [65_536, 65_537] {
        let mut input = vec![0; length];
        input[0] = 1;
        input[1..3].copy_from_slice(&(length as u16).to_be_bytes());
        run(&input);
    }
    let all = from_to(0, 64);
    let families = [
        choices::small().into_iter().step_by(4).collect(),
        choices::most_atoms().into_iter().step_by(3).collect(),
        well_formed(random).into_iter().step_by(6).collect(),
        lengths().into_iter().step_by(9).collect(),
        vec![Sheet::new(64, vec![rule(63, &all, &all); 128])],
    ];
    families.concat().iter().for_each(|sheet: &Sheet| run(&sheet.bytes()));
    for bytes in [malformed(), malformed_choices()].concat().iter().step_by(11) {
        run(bytes);
    }
    for _ in 0..20 {
        let sheet = any_sheet(random);
        run(&sheet.bytes());
        run(&damaged(random, &sheet));
    }
}
