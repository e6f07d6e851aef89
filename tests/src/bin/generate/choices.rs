//! Sheets with choice rules, for the cases of all operations.

use rulesheet_tests::inputs::{add_choices, connected, cycle, upto, Shape, Style};
use rulesheet_tests::random::Random;
use rulesheet_tests::sheet::{choice, constraint, rule, Record, Sheet, CHOICE};

/// The rules as choice rules.
pub fn chosen(rules: Vec<Record>) -> Vec<Record> {
    rules.into_iter().map(|rule| Record { kind: CHOICE, ..rule }).collect()
}

/// So many atoms, each in or out.
pub fn free(heads: u8) -> Vec<Record> {
    (0..heads).map(|head| choice(head, &[], &[])).collect()
}

/// One sheet or more of each form that a choice rule can have.
pub fn small() -> Vec<Sheet> {
    let mut sheets = vec![
        Sheet::new(1, free(1)),
        // The head is in its own negative list, its positive list, both.
        Sheet::new(1, vec![choice(0, &[], &[0])]),
        Sheet::new(1, vec![choice(0, &[0], &[])]),
        Sheet::new(1, vec![choice(0, &[0], &[0])]),
        Sheet::new(3, vec![choice(1, &[], &[0, 1, 2]), choice(1, &[], &[0, 2]), rule(0, &[], &[2])]),
        Sheet::new(2, vec![choice(0, &[0], &[]), choice(0, &[], &[1]), choice(1, &[], &[])]),
        // Two choice rules with one head, and a rule for it, too.
        Sheet::new(1, vec![choice(0, &[], &[]), choice(0, &[], &[])]),
        Sheet::new(2, vec![choice(0, &[1], &[]), choice(0, &[], &[1]), choice(1, &[], &[])]),
        Sheet::new(2, vec![choice(0, &[1], &[]), choice(0, &[1], &[0]), choice(1, &[], &[0])]),
        Sheet::new(1, vec![choice(0, &[], &[]), rule(0, &[], &[])]),
        Sheet::new(2, vec![choice(0, &[], &[]), rule(0, &[], &[1]), choice(1, &[], &[])]),
        // Bodies that never hold, that always hold, that hang on another choice.
        Sheet::new(2, vec![choice(0, &[1], &[])]),
        Sheet::new(2, vec![choice(0, &[1], &[1]), choice(1, &[], &[])]),
        Sheet::new(2, vec![rule(1, &[], &[]), choice(0, &[1], &[]), choice(0, &[], &[1])]),
        Sheet::new(3, vec![choice(2, &[1], &[0]), choice(1, &[], &[0]), choice(0, &[], &[])]),
        Sheet::new(2, vec![choice(0, &[], &[1]), choice(1, &[], &[0])]),
        Sheet::new(2, vec![choice(0, &[], &[1]), rule(1, &[], &[0])]),
        Sheet::new(3, vec![choice(0, &[], &[]), rule(1, &[], &[0]), rule(2, &[], &[1]), rule(1, &[0], &[2])]),
        // Constraints on the head; choice rules before, between and behind other records.
        Sheet::new(1, vec![choice(0, &[], &[]), constraint(&[0], &[])]),
        Sheet::new(1, vec![constraint(&[], &[0]), choice(0, &[], &[])]),
        Sheet::new(1, vec![choice(0, &[], &[]), constraint(&[0], &[]), constraint(&[], &[0])]),
        Sheet::new(3, vec![choice(2, &[], &[]), constraint(&[2], &[1]), rule(1, &[], &[0]), choice(0, &[], &[2])]),
        Sheet::new(3, vec![rule(1, &[2], &[]), choice(2, &[], &[0, 1]), constraint(&[1], &[0]), choice(0, &[], &[])]),
        // The added atom stands last, below others.
        Sheet::new(4, vec![choice(0, &[3], &[1, 2]), choice(2, &[], &[3]), choice(3, &[], &[])]),
        Sheet::new(3, vec![choice(1, &upto(3), &upto(3)), choice(2, &upto(3), &[0, 1]), choice(0, &[], &[1, 2])]),
        // In a positive loop, with no way in and with one.
        Sheet::new(2, vec![choice(0, &[1], &[]), rule(1, &[0], &[])]),
        Sheet::new(2, chosen(cycle(&[0, 1]))),
        Sheet::new(2, vec![choice(0, &[1], &[]), choice(1, &[0], &[]), choice(1, &[], &[])]),
        Sheet::new(2, vec![choice(0, &[1], &[]), rule(1, &[0], &[]), choice(0, &[], &[])]),
        Sheet::new(3, vec![choice(0, &[1], &[]), rule(1, &[0], &[]), rule(0, &[], &[2]), choice(2, &[], &[])]),
        Sheet::new(3, vec![choice(0, &[1], &[2]), choice(1, &[0], &[]), rule(0, &[2], &[]), choice(2, &[], &[])]),
        Sheet::new(3, vec![rule(0, &[1], &[]), choice(1, &[0], &[]), rule(0, &[], &[2]), rule(2, &[], &[0])]),
        Sheet::new(
            4,
            [cycle(&[0, 1, 2]), vec![choice(1, &[3], &[]), choice(3, &[], &[0]), choice(2, &[2], &[])]].concat(),
        ),
    ];
    for size in [3, 6, 10] {
        sheets.push(Sheet::new(size, [chosen(cycle(&upto(size))), vec![choice(size / 2, &[], &[])]].concat()));
        sheets.push(Sheet::new(size, [cycle(&upto(size)), vec![choice(0, &[], &[]), choice(0, &[1], &[2])]].concat()));
    }
    sheets
}

/// Question 13 at its edge: 64 atoms with the fresh ones, and 65 and more.
pub fn most_atoms() -> Vec<Sheet> {
    let many = |atoms: u8, choices: usize| {
        Sheet::new(atoms, (0..choices).map(|i| choice(i as u8 % atoms, &[], &[])).collect())
    };
    let full = |atoms: u8, choices: u8| {
        let body = upto(atoms);
        Sheet::new(atoms, (0..choices).map(|place| choice(place % atoms, &[], &body)).collect())
    };
    let mut sheets = vec![full(40, 24), full(40, 25)];
    for (atoms, choices) in
        [(64, 0), (63, 1), (64, 1), (62, 2), (63, 2), (48, 16), (49, 16), (32, 32), (32, 33), (33, 32)]
    {
        sheets.push(many(atoms, choices));
    }
    // At most 191 rules come of 128 records: 63 choice rules with 65 rules.
    for (atoms, choices) in [(1, 62), (1, 63), (1, 64), (1, 128), (2, 63), (63, 65), (64, 64), (64, 128)] {
        let sheet = many(atoms, choices);
        let rest = vec![rule(0, &[], &[atoms - 1]); 128 - choices];
        sheets.push(Sheet::new(atoms, [&sheet.records[..], &rest].concat()));
        sheets.push(Sheet::new(atoms, [rest, sheet.records].concat()));
    }
    // A component of ten or eleven with 64 or 65 atoms: 13 comes before 7.
    for (size, atoms) in [(10, 54), (10, 55), (11, 53), (11, 54)] {
        sheets.push(Sheet::new(atoms, chosen(cycle(&upto(size)))));
    }
    sheets
}

/// A sheet with a component of some shape or in groups, and one choice rule or more.
pub fn any(random: &mut Random, atoms: usize) -> Sheet {
    let mut sheet = if random.one_in(3) {
        let shape = *random.pick(&Shape::ALL);
        let size = random.between(2, atoms.min(10));
        connected(random, shape, size)
    } else {
        Style { atoms, records: 2 * atoms, component: 5, negated: 6, body: 2 }.sheet(random)
    };
    while sheet.choices().count() == 0 {
        sheet.atoms = sheet.atoms.max(1);
        add_choices(random, &mut sheet);
    }
    sheet
}
