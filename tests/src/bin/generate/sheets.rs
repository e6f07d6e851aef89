//! Cases of reading, bodies, components and default sequences.

use crate::cases::Cases;
use crate::choices;
use rulesheet_tests::inputs::{connected, cycle, damaged, sheet_a, upto, Shape, Style};
use rulesheet_tests::random::Random;
use rulesheet_tests::service::{Call, Operation};
use rulesheet_tests::sheet::{choice, constraint, rule, set_length, Record, Sheet};

pub fn cases() -> Cases {
    let mut cases = Cases::default();
    let mut random = Random::new(1);
    for sheet in well_formed(&mut random) {
        ask_all(&mut cases, &mut random, &sheet);
    }
    for bytes in malformed() {
        ask_some(&mut cases, &mut random, &bytes);
    }
    for _ in 0..60 {
        let sheet = Style { atoms: 5, records: 5, component: 4, negated: 5, body: 2 }.sheet(&mut random);
        let bytes = damaged(&mut random, &sheet);
        ask_some(&mut cases, &mut random, &bytes);
    }
    largest(&mut cases);
    with_choices(&mut cases, &mut random);
    cases
}

fn with_choices(cases: &mut Cases, random: &mut Random) {
    for sheet in choices::small() {
        ask_all(cases, random, &sheet);
    }
    for sheet in choices::most_atoms() {
        ask_some(cases, random, &sheet.bytes());
    }
    for _ in 0..16 {
        let sheet = choices::any(random, 8);
        ask_all(cases, random, &sheet);
    }
    for bytes in malformed_choices() {
        ask_some(cases, random, &bytes);
    }
    for _ in 0..60 {
        let sheet = choices::any(random, 4);
        let bytes = damaged(random, &sheet);
        ask_some(cases, random, &bytes);
    }
}

/// Reading, bodies at the limits of the number, components and defaults with rooms near the need.
fn ask_all(cases: &mut Cases, random: &mut Random, sheet: &Sheet) {
    let bytes = sheet.bytes();
    cases.add(Call::new(Operation::Read, &bytes));
    let records = sheet.records.len() as u64;
    let within = random.below(sheet.records.len().max(1)) as u64;
    let beyond = *random.pick(&[records + 1, records + 256, records + 65_536, 1 << 32, 1 << 63, u64::MAX]);
    for number in [0, within, records.saturating_sub(1), records, beyond] {
        cases.add(Call::new(Operation::Body, &bytes).number(number));
    }
    for operation in [Operation::Components, Operation::Default] {
        let call = Call::new(operation, &bytes);
        let need = cases.add(call.clone()).length();
        for room in [need, need.saturating_sub(1), *random.pick(&[0, need / 2, need + 1, need + 40])] {
            cases.add(call.clone().room(room));
        }
    }
}

/// Reading and one other operation.
fn ask_some(cases: &mut Cases, random: &mut Random, bytes: &[u8]) {
    cases.add(Call::new(Operation::Read, bytes));
    let number = *random.pick(&[0, 1, 5, 200, u64::MAX]);
    let room = *random.pick(&[0, 3, 700]);
    let calls = [
        Call::new(Operation::Body, bytes).number(number),
        Call::new(Operation::Components, bytes),
        Call::new(Operation::Components, bytes).room(room),
        Call::new(Operation::Default, bytes),
        Call::new(Operation::Default, bytes).room(room),
    ];
    cases.add(random.pick(&calls).clone());
}

pub fn well_formed(random: &mut Random) -> Vec<Sheet> {
    let mut sheets = vec![
        Sheet::new(0, vec![]),
        Sheet::new(1, vec![]),
        Sheet::new(64, vec![]),
        Sheet::new(0, vec![constraint(&[], &[])]),
        Sheet::new(0, vec![constraint(&[], &[]); 128]),
        Sheet::new(1, vec![rule(0, &[], &[]); 128]),
        Sheet::new(64, (0..128).map(|i| rule(i / 2, &[], &[i % 64])).collect()),
        sheet_a(),
        // Self loops.
        Sheet::new(1, vec![rule(0, &[0], &[])]),
        Sheet::new(3, vec![rule(2, &[2], &[2]), rule(1, &[0, 1], &[]), rule(0, &[0], &[1, 2])]),
        // Atoms in both lists.
        Sheet::new(2, vec![rule(0, &[1], &[1]), rule(1, &[0], &[0, 1]), constraint(&[0, 1], &[0, 1])]),
        // The largest atom and the longest lists.
        Sheet::new(64, vec![rule(63, &upto(64), &upto(64)), constraint(&upto(64), &upto(64)), rule(0, &[63], &[63])]),
    ];
    sheets.extend(graphs());
    for shape in Shape::ALL {
        for size in [2, 5, 9, 10, 11] {
            sheets.push(connected(random, shape, size));
        }
    }
    for _ in 0..12 {
        sheets.push(Style { atoms: 6, records: 8, component: 5, negated: 6, body: 2 }.sheet(random));
        sheets.push(Style { atoms: 20, records: 16, component: 10, negated: 20, body: 3 }.sheet(random));
    }
    sheets
}

/// Graphs at the limit of question 7.
fn graphs() -> Vec<Sheet> {
    let many = |n: u8, parts: &[Vec<u8>]| Sheet::new(n, parts.iter().flat_map(|part| cycle(part)).collect());
    let tens: Vec<Vec<u8>> = (0..6).map(|i| (10 * i..10 * i + 10).collect()).collect();
    let path = |n: u8| (1..n).map(|atom| rule(atom, &[atom - 1], &[])).collect::<Vec<_>>();
    let with = |mut records: Vec<Record>, more: &[Record]| {
        records.extend(more.iter().cloned());
        records
    };
    vec![
        many(10, &[upto(10)]),
        many(11, &[upto(11)]),
        many(64, &[upto(64)]),
        // Components of ten, side by side and with atoms in turn.
        many(64, &tens),
        many(60, &(0..6).map(|i| (0..10).map(|j| 6 * j + i).collect()).collect::<Vec<_>>()),
        // Two cycles with one atom in common: ten and eleven atoms.
        many(10, &[vec![0, 1, 2, 3, 4], vec![4, 5, 6, 7, 8, 9]]),
        many(11, &[vec![0, 1, 2, 3, 4, 5], vec![5, 6, 7, 8, 9, 10]]),
        // An eleventh atom reached from a component of ten, then also back.
        Sheet::new(11, with(cycle(&upto(10)), &[rule(10, &[4], &[])])),
        Sheet::new(11, with(cycle(&upto(10)), &[rule(10, &[4], &[]), rule(7, &[1, 10], &[])])),
        // Two components with edges one way, then both ways.
        Sheet::new(12, with(many(12, &[upto(6), (6..12).collect()]).records, &[rule(7, &[2], &[])])),
        Sheet::new(
            12,
            with(many(12, &[upto(6), (6..12).collect()]).records, &[rule(7, &[2], &[]), rule(0, &[11], &[])]),
        ),
        // A path; the way back leads over a rule, a negative atom, a constraint.
        Sheet::new(64, path(64)),
        Sheet::new(11, with(path(11), &[rule(0, &[10], &[])])),
        Sheet::new(11, with(path(11), &[rule(0, &[], &[10])])),
        Sheet::new(11, with(path(11), &[constraint(&[0, 10], &[])])),
        // Edges that only reach backwards through the numbers.
        many(9, &[vec![8, 3, 1], vec![7, 2], vec![6, 0, 5]]),
    ]
}

pub fn malformed() -> Vec<Vec<u8>> {
    [headers(), frames(), heads(), lists(), several_faults()].concat()
}

/// A sheet with three records, the last one with both lists.
fn sample() -> Sheet {
    Sheet::new(4, vec![rule(0, &[1], &[2]), constraint(&[0, 3], &[]), rule(3, &[0, 2], &[1, 3])])
}

fn changed(bytes: &[u8], place: usize, value: u8) -> Vec<u8> {
    let mut changed = bytes.to_vec();
    changed[place] = value;
    changed
}

/// The bytes with a length field that fits.
fn fitted(mut bytes: Vec<u8>) -> Vec<u8> {
    set_length(&mut bytes);
    bytes
}

/// Questions 1 to 3.
fn headers() -> Vec<Vec<u8>> {
    let sample = sample().bytes();
    let (high, low) = (sample[1], sample[2]);
    let mut sheets = vec![vec![], vec![1], vec![1, 0], vec![1, 0, 3], vec![1, 0, 4, 0], vec![1, 0, 5, 0], vec![0; 5]];
    sheets.extend([0, 2, 3, 129, 255].map(|version| changed(&sample, 0, version)));
    sheets.extend([vec![2, 0, 5, 0, 0], vec![2, 0, 12, 0, 0, 0, 0, 0, 0, 0, 0, 0]]);
    sheets.extend([low + 1, low - 1, 0, 255].map(|low| changed(&sample, 2, low)));
    sheets.extend([1, 128, 255].map(|high| changed(&sample, 1, high)));
    sheets.push(changed(&changed(&sample, 1, low), 2, high));
    sheets.extend([1, 2, 7].map(|missing| sample[..sample.len() - missing].to_vec()));
    sheets.extend([vec![1, 0, 4, 0, 0], vec![1, 0, 6, 0, 0], vec![1, 0, 4, 65, 0], vec![1, 0, 6, 0, 129]]);
    sheets.push([&sample[..], &[0]].concat());
    sheets.extend([65, 66, 128, 255].map(|atoms| changed(&sample, 3, atoms)));
    sheets.extend([129, 130, 255].map(|records| changed(&sample, 4, records)));
    sheets.extend([vec![1, 0, 5, 65, 0], vec![1, 0, 5, 0, 129], vec![1, 0, 5, 65, 129], vec![1, 0, 5, 64, 128]]);
    sheets.push(Sheet::new(65, vec![rule(64, &[64], &[64])]).bytes());
    sheets.push(Sheet::new(1, vec![rule(0, &[], &[]); 129]).bytes());
    sheets
}

/// Question 4.
fn frames() -> Vec<Vec<u8>> {
    let sheet = sample();
    let sample = sheet.bytes();
    let mut sheets: Vec<Vec<u8>> = (5..sample.len()).map(|length| fitted(sample[..length].to_vec())).collect();
    for number in 0..3 {
        let at = sheet.record_at(number);
        let (length, positives) = (sample[at], sample[at + 3]);
        sheets.extend([0, 1, 2, 3, length - 1, length + 1, 255].map(|length| changed(&sample, at, length)));
        sheets.extend([length - 2, 255, positives + 1].map(|positives| changed(&sample, at + 3, positives)));
    }
    sheets.extend([0, 1, 2, 4, 128].map(|records| changed(&sample, 4, records)));
    sheets.extend([&[0][..], &[3, 0, 0, 0], &[1; 300]].map(|more| fitted([&sample[..], more].concat())));
    sheets.extend([vec![1, 0, 6, 0, 0, 0], vec![1, 0, 9, 0, 0, 3, 1, 0, 0], vec![1, 0, 5, 0, 1]]);
    // Too short a record that is not complete either, and lists without a place for their lengths.
    sheets.extend([vec![1, 0, 6, 1, 1, 2], vec![1, 0, 6, 1, 1, 3], vec![1, 0, 8, 1, 1, 2, 0, 0]]);
    sheets
}

/// Question 5.
fn heads() -> Vec<Vec<u8>> {
    let sheet = sample();
    let sample = sheet.bytes();
    let mut sheets = Vec::new();
    for number in 0..3 {
        let at = sheet.record_at(number);
        sheets.extend([0, 1, 2, 3, 128, 255].map(|kind| changed(&sample, at + 1, kind)));
        sheets.extend([1, 3, 4, 5, 64, 255].map(|head| changed(&sample, at + 2, head)));
    }
    let choice_at = sheet.record_at(0);
    sheets.push(changed(&changed(&sample, choice_at + 1, 2), choice_at + 2, 4));
    sheets.push(Sheet::new(0, vec![rule(0, &[], &[])]).bytes());
    sheets.push(Sheet::new(64, vec![rule(63, &[], &[]), rule(64, &[], &[])]).bytes());
    sheets
}

/// Question 6.
fn lists() -> Vec<Vec<u8>> {
    let wrong: [&[u8]; 10] =
        [&[4], &[255], &[0, 4], &[4, 0], &[1, 1], &[1, 0], &[0, 2, 1], &[0, 1, 1], &[0, 1, 2, 3, 4], &[3, 3, 3]];
    let mut sheets = Vec::new();
    for list in wrong {
        for record in [rule(1, list, &[]), rule(1, &[0], list), constraint(list, &[1]), constraint(&[], list)] {
            sheets.push(Sheet::new(4, vec![rule(2, &[3], &[1]), record]).bytes());
        }
    }
    sheets.push(Sheet::new(0, vec![constraint(&[0], &[])]).bytes());
    sheets.push(Sheet::new(0, vec![constraint(&[], &[0])]).bytes());
    sheets.push(Sheet::new(64, vec![rule(0, &[63], &[64])]).bytes());
    sheets
}

/// Several questions answered with no, in one record or in two; and a component of eleven with faults behind it.
fn several_faults() -> Vec<Vec<u8>> {
    // Each puts one fault into the record that starts at a place.
    let faults: [fn(&mut [u8], usize); 5] = [
        |bytes, at| bytes[at] = 2,
        |bytes, at| bytes[at + 3] = 9,
        |bytes, at| bytes[at + 1] = 7,
        |bytes, at| bytes[at + 2] = 200,
        |bytes, at| bytes[at + 5] = bytes[at + 4],
    ];
    let sheet = Sheet::new(4, vec![rule(0, &[1, 2], &[2]), constraint(&[0, 3], &[]), rule(3, &[0, 2], &[1, 3])]);
    let mut sheets = Vec::new();
    for (first, second) in [(0, 0), (0, 1), (0, 2), (1, 2), (2, 2)] {
        for earlier in &faults {
            for later in &faults {
                let mut bytes = sheet.bytes();
                earlier(&mut bytes, sheet.record_at(first));
                later(&mut bytes, sheet.record_at(second));
                sheets.push(bytes);
            }
        }
    }
    for fault in &faults {
        let mut bytes = [&sheet.bytes()[..], &[0]].concat();
        fault(&mut bytes, sheet.record_at(2));
        sheets.push(fitted(bytes));
    }
    let eleven = Sheet::new(11, [cycle(&upto(11)), vec![rule(0, &[1, 2], &[2])]].concat());
    for fault in &faults {
        let mut bytes = eleven.bytes();
        fault(&mut bytes, eleven.record_at(11));
        sheets.push(bytes);
    }
    sheets.push(fitted([&eleven.bytes()[..], &[0]].concat()));
    sheets
}

/// Choice rules with a fault, and 65 atoms with faults that are asked about before and after.
pub fn malformed_choices() -> Vec<Vec<u8>> {
    let mut sheets = Vec::new();
    for atoms in [0, 1, 4, 64] {
        sheets.extend([0, 1, 3, 4, 63, 64, 255].map(|head| Sheet::new(atoms, vec![choice(head, &[], &[])]).bytes()));
    }
    for list in [&[4][..], &[1, 1], &[1, 0], &[0, 2, 255]] {
        sheets.extend([choice(1, list, &[]), choice(1, &[0], list)].map(|record| Sheet::new(4, vec![record]).bytes()));
    }
    let crowded = Sheet::new(63, [choices::free(2), vec![rule(0, &[1, 2], &[2])]].concat());
    let (bytes, last) = (crowded.bytes(), crowded.record_at(2));
    for (place, value) in [(0, 2), (0, 200), (1, 2), (1, 3), (2, 63), (3, 9), (4, 2), (5, 63)] {
        sheets.push(changed(&bytes, last + place, value));
    }
    sheets.push(fitted([&bytes[..], &[0]].concat()));
    sheets.push(fitted(bytes[..last].to_vec()));
    // Eleven atoms in a component, with 64 and with 65 atoms, and with bytes left over.
    for atoms in [53, 54] {
        let eleven = Sheet::new(atoms, choices::chosen(cycle(&upto(11)))).bytes();
        sheets.push(fitted([&eleven[..], &[0]].concat()));
    }
    sheets
}

/// The longest sheet that the questions admit.
fn largest(cases: &mut Cases) {
    let bytes = Sheet::new(64, vec![rule(63, &upto(64), &upto(64)); 128]).bytes();
    cases.add(Call::new(Operation::Read, &bytes));
    cases.add(Call::new(Operation::Body, &bytes).number(127));
}
