//! Cases of counting answer sets.

use crate::cases::Cases;
use crate::choices::{self, free};
use rulesheet_tests::inputs::{add_choices, connected, cycle, sheet_a, upto, with_decided, Shape, Style};
use rulesheet_tests::random::Random;
use rulesheet_tests::service::{Call, Operation};
use rulesheet_tests::sheet::{choice, constraint, rule, Record, Sheet};

pub fn cases() -> Cases {
    let mut cases = Cases::default();
    let mut random = Random::new(4);
    let families =
        [small_sheets(), negative_loops(), positive_loops(), alternatives(), sixteen_negated(&mut random), refused()];
    for sheet in families.concat() {
        count(&mut cases, &sheet);
    }
    random_sheets(&mut cases, &mut random);
    for bytes in [vec![], vec![1, 0, 4, 0], vec![1, 0, 6, 0, 0], vec![1, 0, 5, 0, 129], vec![1, 0, 6, 0, 0, 0]] {
        cases.add(Call::new(Operation::Count, &bytes));
    }
    let families = [choices::small(), choices::most_atoms(), free_heads(), sixteen_decided()];
    for sheet in families.concat() {
        count(&mut cases, &sheet);
    }
    random_choices(&mut cases, &mut random);
    cases
}

fn count(cases: &mut Cases, sheet: &Sheet) {
    cases.add(Call::new(Operation::Count, &sheet.bytes()));
}

fn joined(parts: &[&[Record]]) -> Vec<Record> {
    parts.concat()
}

/// Each atom if the next is not, and the last if the first is not.
fn negative_loop(atoms: &[u8]) -> Vec<Record> {
    let next = atoms.iter().cycle().skip(1);
    atoms.iter().zip(next).map(|(&atom, &next)| rule(atom, &[], &[next])).collect()
}

/// So many of the atoms: each holds if enough others do not.
fn exactly(number: usize, atoms: &[u8]) -> Vec<Record> {
    let out = atoms.len() - number;
    let rules = |&head: &u8| {
        let others: Vec<u8> = atoms.iter().copied().filter(|&atom| atom != head).collect();
        subsets(&others, out).into_iter().map(move |negatives| rule(head, &[], &negatives))
    };
    atoms.iter().flat_map(rules).collect()
}

/// The subsets of a size.
fn subsets(atoms: &[u8], size: usize) -> Vec<Vec<u8>> {
    match atoms {
        _ if size == 0 => vec![vec![]],
        [] => vec![],
        [first, rest @ ..] => {
            let with = subsets(rest, size - 1).into_iter().map(|subset| [&[*first], &subset[..]].concat());
            with.chain(subsets(rest, size)).collect()
        }
    }
}

fn small_sheets() -> Vec<Sheet> {
    let pair = negative_loop(&[0, 1]);
    vec![
        Sheet::new(0, vec![]),
        Sheet::new(1, vec![]),
        Sheet::new(64, vec![]),
        Sheet::new(0, vec![constraint(&[], &[])]),
        Sheet::new(1, vec![rule(0, &[], &[])]),
        Sheet::new(1, vec![rule(0, &[], &[]), constraint(&[0], &[])]),
        Sheet::new(1, vec![rule(0, &[], &[]), constraint(&[], &[0])]),
        Sheet::new(1, vec![constraint(&[0], &[])]),
        Sheet::new(1, vec![constraint(&[], &[0])]),
        Sheet::new(1, vec![constraint(&[0], &[0])]),
        Sheet::new(1, vec![rule(0, &[], &[0])]),
        Sheet::new(1, vec![rule(0, &[0], &[0])]),
        Sheet::new(1, vec![rule(0, &[], &[0]), rule(0, &[], &[])]),
        Sheet::new(64, (0..64).map(|atom| rule(atom, &[], &[])).collect()),
        Sheet::new(64, negative_loop(&[63, 0])),
        Sheet::new(64, joined(&[&negative_loop(&[63, 0]), &[constraint(&[63], &[])]])),
        Sheet::new(2, joined(&[&pair, &[constraint(&[0, 1], &[])]])),
        Sheet::new(2, joined(&[&pair, &[constraint(&[0], &[1])]])),
        Sheet::new(2, joined(&[&pair, &[constraint(&[0], &[1]), constraint(&[1], &[0])]])),
        Sheet::new(2, joined(&[&pair, &[constraint(&[], &[])]])),
        // Supported models that are no answer sets.
        Sheet::new(2, vec![rule(0, &[1], &[]), rule(1, &[0], &[])]),
        sheet_a(),
        Sheet::new(3, vec![rule(0, &[1], &[]), rule(1, &[0], &[]), constraint(&[], &[0])]),
        // A fact defeats, a missing atom does not.
        Sheet::new(3, vec![rule(0, &[], &[1]), rule(1, &[], &[]), rule(2, &[], &[0])]),
        Sheet::new(3, vec![rule(0, &[], &[1]), rule(2, &[], &[0])]),
    ]
}

fn negative_loops() -> Vec<Sheet> {
    let mut sheets = Vec::new();
    for size in 1..=16 {
        sheets.push(Sheet::new(size, negative_loop(&upto(size))));
        sheets.push(Sheet::new(size, joined(&[&negative_loop(&upto(size)), &[constraint(&[0], &[])]])));
        // An odd loop that another atom may break.
        let exit = [rule(0, &[size], &[]), rule(size, &[], &[size + 1]), rule(size + 1, &[], &[size])];
        if size <= 14 {
            sheets.push(Sheet::new(size + 2, joined(&[&negative_loop(&upto(size)), &exit])));
        }
    }
    sheets
}

/// Positive loops with and without a way in, under and behind negation.
fn positive_loops() -> Vec<Sheet> {
    let mut sheets = Vec::new();
    for size in 2..=10 {
        let (a, b) = (size, size + 1);
        let ring = cycle(&upto(size));
        let choice = negative_loop(&[a, b]);
        sheets.extend([
            Sheet::new(size, ring.clone()),
            Sheet::new(size + 1, joined(&[&ring, &[rule(a, &[], &[0])]])),
            Sheet::new(size + 1, joined(&[&ring, &[rule(0, &[], &[a]), rule(a, &[], &[size - 1])]])),
            Sheet::new(size + 2, joined(&[&ring, &choice, &[rule(1, &[a], &[])]])),
            Sheet::new(size + 2, joined(&[&ring, &choice, &[rule(1, &[a], &[]), constraint(&[0], &[b])]])),
            Sheet::new(
                size + 2,
                joined(&[&ring, &choice, &[rule(0, &[a], &[]), rule(1, &[b], &[]), constraint(&[], &[0])]]),
            ),
        ]);
    }
    sheets
}

fn alternatives() -> Vec<Sheet> {
    let mut sheets = Vec::new();
    for pairs in 1..=8u8 {
        let records: Vec<Record> = (0..pairs).flat_map(|i| negative_loop(&[2 * i, 2 * i + 1])).collect();
        let none_of = constraint(&[], &(0..pairs).map(|i| 2 * i).collect::<Vec<_>>());
        let all_of = constraint(&(0..pairs).map(|i| 2 * i + 1).collect::<Vec<_>>(), &[]);
        sheets.push(Sheet::new(2 * pairs, records.clone()));
        sheets.push(Sheet::new(2 * pairs, joined(&[&records, std::slice::from_ref(&none_of)])));
        sheets.push(Sheet::new(2 * pairs, joined(&[&records, &[none_of, all_of]])));
    }
    for size in 2..=16 {
        sheets.push(Sheet::new(size, exactly(1, &upto(size))));
    }
    let threes: Vec<Record> = (0..5).flat_map(|i| exactly(1, &[3 * i, 3 * i + 1, 3 * i + 2])).collect();
    let fours: Vec<Record> = (0..4).flat_map(|i| exactly(2, &[4 * i, 4 * i + 1, 4 * i + 2, 4 * i + 3])).collect();
    let mixed = joined(&[&exactly(3, &upto(6)), &exactly(2, &[6, 7, 8, 9, 10]), &exactly(3, &[11, 12, 13, 14, 15])]);
    sheets.extend([
        Sheet::new(15, threes.clone()),
        Sheet::new(16, joined(&[&threes, &[rule(15, &[0, 4, 8], &[15])]])),
        Sheet::new(16, fours.clone()),
        Sheet::new(16, joined(&[&fours, &[constraint(&[1, 2, 13], &[7])]])),
        // 2,000 answer sets.
        Sheet::new(16, mixed.clone()),
        Sheet::new(16, joined(&[&mixed, &[constraint(&[0, 6], &[]), constraint(&[], &[1, 11])]])),
    ]);
    sheets
}

/// Question 11 at its limit: 15, 16 and 17 atoms, spread over rules, repeated, and in constraints, where none counts.
fn sixteen_negated(random: &mut Random) -> Vec<Sheet> {
    let mut sheets = Vec::new();
    for number in 15..=18u8 {
        let atoms = upto(number);
        let single: Vec<Record> = atoms.iter().map(|&atom| rule(63, &[], &[atom])).collect();
        sheets.extend([
            Sheet::new(64, vec![rule(0, &[], &atoms)]),
            Sheet::new(64, single.clone()),
            Sheet::new(64, joined(&[&single, &single])),
            Sheet::new(64, vec![rule(0, &[], &(64 - number..64).collect::<Vec<_>>())]),
            Sheet::new(64, joined(&[&negative_loop(&atoms), &[constraint(&[], &upto(64))]])),
            Sheet::new(64, vec![rule(0, &[], &upto(3)), constraint(&atoms, &upto(64))]),
            // Rules that never fire count too.
            Sheet::new(64, vec![rule(0, &[0], &atoms)]),
        ]);
    }
    // Nothing decides the first fifteen until the sixteenth, behind a path of 48.
    let free: Vec<Record> = (0..15).map(|atom| rule(atom, &[63], &[(atom + 1) % 15])).collect();
    let path: Vec<Record> = (17..64).map(|atom| rule(atom, &[atom - 1], &[])).collect();
    sheets.push(Sheet::new(64, joined(&[&free, &path, &[rule(16, &[], &[15])]])));
    for _ in 0..8 {
        let style = Style { atoms: 40, records: 40, component: 6, negated: 16, body: 3 };
        sheets.push(style.sheet(random));
    }
    sheets
}

/// Up to sixteen free heads, with rules and constraints on them.
fn free_heads() -> Vec<Sheet> {
    let mut sheets = Vec::new();
    for heads in [2, 3, 5, 8, 12, 16] {
        let others = upto(heads - 1);
        let last = heads - 1;
        sheets.extend([
            Sheet::new(heads, free(heads)),
            // All are in, all are out, one is in, the last hangs on the others.
            Sheet::new(
                heads,
                joined(&[&free(heads), &upto(heads).iter().map(|&a| constraint(&[], &[a])).collect::<Vec<_>>()]),
            ),
            Sheet::new(
                heads,
                joined(&[&free(heads), &upto(heads).iter().map(|&a| constraint(&[a], &[])).collect::<Vec<_>>()]),
            ),
            Sheet::new(heads + 1, joined(&[&free(heads), &one_of(heads)])),
            Sheet::new(heads, joined(&[&free(last), &[choice(last, &others, &[])]])),
            Sheet::new(heads, joined(&[&free(last), &[choice(last, &[], &others), constraint(&[0], &[last])]])),
        ]);
        // Each may be in if the one before it is; the last closes a positive loop.
        let links: Vec<Record> = (1..heads).map(|atom| choice(atom, &[atom - 1], &[])).collect();
        sheets.push(Sheet::new(heads, joined(&[&free(1), &links])));
        if heads <= 10 {
            sheets.push(Sheet::new(heads, joined(&[&free(1), &links, &[choice(0, &[last], &[])]])));
        }
    }
    sheets
}

/// Constraints that leave just one of the atoms in.
fn one_of(atoms: u8) -> Vec<Record> {
    let pairs = |a: u8| (a + 1..atoms).map(move |b| constraint(&[a, b], &[]));
    let some = (0..atoms).map(|atom| rule(atoms, &[atom], &[]));
    let mut records: Vec<Record> = some.chain([constraint(&[], &[atoms])]).collect();
    records.extend((0..atoms).flat_map(pairs).take(128 - records.len() - usize::from(atoms)));
    records
}

/// Question 11 at its limit with heads and negative lists of choice rules.
fn sixteen_decided() -> Vec<Sheet> {
    let mut sheets = Vec::new();
    for number in 15..=18u8 {
        let atoms = upto(number);
        let half = number / 2;
        sheets.extend([
            // Heads alone; a head and a list; heads on one side and lists of both kinds on the other.
            Sheet::new(number, free(number)),
            Sheet::new(40, joined(&[&free(number), &[constraint(&[], &upto(40)), constraint(&upto(40), &[])]])),
            Sheet::new(20, vec![choice(19, &[], &upto(number - 1))]),
            Sheet::new(20, vec![choice(3, &[], &atoms)]),
            Sheet::new(20, vec![choice(3, &[], &atoms), choice(3, &[], &[]), choice(5, &[3], &[3])]),
            Sheet::new(20, joined(&[&free(half), &[rule(19, &[], &(half..number).collect::<Vec<_>>())]])),
            Sheet::new(20, joined(&[&free(half), &[choice(0, &[19], &(half..number).collect::<Vec<_>>())]])),
            // No fresh atom counts.
            Sheet::new(20, vec![choice(0, &[], &(1..number).collect::<Vec<_>>()); 30]),
            // A choice rule that never fires counts too.
            Sheet::new(20, joined(&[&free(number - 1), &[choice(19, &[19], &[])]])),
        ]);
    }
    sheets
}

fn random_choices(cases: &mut Cases, random: &mut Random) {
    for _ in 0..100 {
        count(cases, &choices::any(random, 6));
    }
    for _ in 0..40 {
        count(cases, &choices::any(random, 12));
    }
    for _ in 0..12 {
        let mut sheet = Style { atoms: 50, records: 90, component: 10, negated: 8, body: 3 }.sheet(random);
        add_choices(random, &mut sheet);
        count(cases, &sheet);
    }
    for number in [15, 16, 17, 17, 17, 18] {
        count(cases, &with_decided(random, number));
    }
}

fn refused() -> Vec<Sheet> {
    let eleven = cycle(&upto(11));
    vec![
        Sheet::new(11, eleven.clone()),
        Sheet::new(17, joined(&[&eleven, &[rule(0, &[], &upto(17))]])),
        Sheet::new(17, vec![rule(0, &[], &upto(17)), rule(17, &[], &[])]),
        Sheet::new(17, vec![rule(0, &[], &upto(17)), constraint(&[1, 1], &[])]),
    ]
}

fn random_sheets(cases: &mut Cases, random: &mut Random) {
    for _ in 0..120 {
        count(cases, &Style { atoms: 5, records: 9, component: 4, negated: 5, body: 2 }.sheet(random));
    }
    for _ in 0..50 {
        count(cases, &Style { atoms: 12, records: 30, component: 6, negated: 10, body: 2 }.sheet(random));
    }
    for _ in 0..12 {
        count(cases, &Style { atoms: 64, records: 90, component: 10, negated: 9, body: 3 }.sheet(random));
    }
    for size in 2..=10 {
        for shape in Shape::ALL {
            let mut sheet = connected(random, shape, size);
            let atoms = upto(sheet.atoms);
            for _ in 0..3 {
                sheet.records.push(rule(*random.pick(&atoms), &[], &random.some_of(&atoms, 2)));
            }
            count(cases, &sheet);
        }
    }
}
