//! Cases of testing a sequence.

use crate::cases::Cases;
use crate::choices;
use rulesheet_tests::inputs::{connected, cycle, sheet_a, Shape, Style};
use rulesheet_tests::limits::OFFICE;
use rulesheet_tests::random::Random;
use rulesheet_tests::reference::Graph;
use rulesheet_tests::sequences::{lengthened, malformed, minimal, mixed, padded, without};
use rulesheet_tests::service::{Call, Operation};
use rulesheet_tests::sheet::{constraint, rule, sequence_bytes, Sheet};

pub fn cases() -> Cases {
    let mut cases = Cases::default();
    let mut random = Random::new(2);
    for size in 2..=10 {
        for shape in Shape::ALL {
            let sheet = connected(&mut random, shape, size);
            near_the_limit(&mut cases, &mut random, &sheet);
        }
    }
    for _ in 0..25 {
        let sheet = Style { atoms: 14, records: 24, component: 6, negated: 4, body: 3 }.sheet(&mut random);
        near_the_limit(&mut cases, &mut random, &sheet);
    }
    small_sheets(&mut cases);
    last_entry(&mut cases, &mut random);
    refused_before(&mut cases);
    malformed_sequences(&mut cases, &mut random);
    with_choices(&mut cases, &mut random);
    cases
}

/// Sequences that name fresh atoms, wherever they stand, and sequences that do not.
fn with_choices(cases: &mut Cases, random: &mut Random) {
    for sheet in choices::small() {
        near_fresh_atoms(cases, random, &sheet);
    }
    for sheet in choices::most_atoms() {
        let default = Graph::new(&sheet).default_sequence();
        if default.len() <= OFFICE.entries {
            test(cases, &sheet, &default);
            test(cases, &sheet, &default[..default.len() - 1]);
        }
    }
    for _ in 0..20 {
        let sheet = choices::any(random, 9);
        near_the_limit(cases, random, &sheet);
        near_fresh_atoms(cases, random, &sheet);
    }
    let sheet = choices::any(random, 5);
    for sequence in malformed(sheet.all_atoms() as u8, &Graph::new(&sheet).default_sequence()) {
        cases.add(Call::new(Operation::Test, &sheet.bytes()).sequence(&sequence));
    }
}

fn near_fresh_atoms(cases: &mut Cases, random: &mut Random, sheet: &Sheet) {
    let graph = Graph::new(sheet);
    let default = graph.default_sequence();
    let written: Vec<u8> = default.iter().copied().filter(|&entry| entry < sheet.atoms).collect();
    let fresh: Vec<u8> = default.iter().copied().filter(|&entry| entry >= sheet.atoms).collect();
    let all = sheet.all_atoms() as u8;
    for entries in [
        default.clone(),
        minimal(random, &graph, &default),
        written.clone(),
        fresh.clone(),
        [&fresh[..], &written].concat(),
        [&fresh[..], &written, &fresh].concat(),
        [&written[..], &fresh[1..]].concat(),
        [&written[..], &fresh[..fresh.len() - 1]].concat(),
        [&written[1..], &fresh].concat(),
        [&default[..], &[all]].concat(),
        [&written[..], &[all]].concat(),
    ] {
        test(cases, sheet, &entries);
    }
}

fn test(cases: &mut Cases, sheet: &Sheet, entries: &[u8]) {
    cases.add(Call::new(Operation::Test, &sheet.bytes()).sequence(&sequence_bytes(entries)));
}

/// Passing sequences, passing ones that cannot be shortened, and those shortened by one entry.
fn near_the_limit(cases: &mut Cases, random: &mut Random, sheet: &Sheet) {
    let graph = Graph::new(sheet);
    let default = graph.default_sequence();
    let mixed = mixed(random, &graph);
    let start = if random.one_in(2) { &default } else { &mixed };
    let minimal = minimal(random, &graph, start);
    test(cases, sheet, &default);
    test(cases, sheet, &mixed);
    test(cases, sheet, &minimal);
    for _ in 0..2 {
        test(cases, sheet, &lengthened(random, &graph, &minimal, 5, OFFICE.entries));
        if !minimal.is_empty() {
            test(cases, sheet, &without(&minimal, random.below(minimal.len())));
        }
    }
    if let Some((_, but_last)) = minimal.split_last() {
        test(cases, sheet, but_last);
        test(cases, sheet, &minimal[1..]);
    }
    let mut shuffled = default;
    random.shuffle(&mut shuffled);
    test(cases, sheet, &shuffled);
    shuffled.reverse();
    test(cases, sheet, &shuffled);
}

/// Every sequence worth a look on the smallest graphs.
fn small_sheets(cases: &mut Cases) {
    let pair = vec![rule(0, &[1], &[]), rule(1, &[0], &[])];
    let sheets = [
        Sheet::new(0, vec![]),
        Sheet::new(0, vec![constraint(&[], &[])]),
        Sheet::new(1, vec![rule(0, &[0], &[])]),
        Sheet::new(2, vec![rule(0, &[0, 1], &[]), rule(1, &[1], &[])]),
        // Edges that make no chain: one way, through a negative atom, in a constraint.
        Sheet::new(2, vec![rule(0, &[1], &[])]),
        Sheet::new(2, vec![rule(0, &[1], &[]), rule(1, &[], &[0])]),
        Sheet::new(2, vec![constraint(&[0, 1], &[])]),
        Sheet::new(2, pair),
        sheet_a(),
        Sheet::new(3, cycle(&[0, 1, 2])),
        Sheet::new(3, cycle(&[2, 1, 0])),
    ];
    let sequences: [&[u8]; 26] = [
        &[],
        &[0],
        &[1],
        &[0, 0],
        &[0, 1],
        &[1, 0],
        &[0, 1, 0],
        &[1, 0, 1],
        &[0, 0, 1],
        &[0, 1, 1, 0],
        &[0, 1, 2],
        &[2, 1, 0],
        &[0, 1, 0, 2],
        &[1, 0, 1, 2],
        &[2, 0, 1, 0],
        &[0, 2, 1, 0],
        &[0, 1, 2, 0],
        &[0, 2, 1, 0, 2],
        &[0, 1, 2, 0, 1],
        &[1, 2, 0, 1, 2],
        &[2, 0, 1, 2, 0],
        &[2, 1, 0, 2, 1],
        &[0, 1, 0, 1, 2],
        &[0, 1, 2, 1, 0],
        &[0, 1, 2, 0, 2, 1],
        &[0, 1, 2, 0, 1, 2, 0, 1, 2],
    ];
    for sheet in &sheets {
        for entries in sequences.iter().filter(|entries| entries.iter().all(|&entry| entry <= sheet.atoms)) {
            test(cases, sheet, entries);
        }
    }
}

/// Chains that only the last of 640 entries completes.
fn last_entry(cases: &mut Cases, random: &mut Random) {
    let mut shapes = vec![Sheet::new(2, cycle(&[0, 1]))];
    shapes.extend([Shape::Complete, Shape::Cycle, Shape::Path].map(|shape| connected(random, shape, 10)));
    for sheet in shapes {
        let graph = Graph::new(&sheet);
        let minimal = minimal(random, &graph, &graph.default_sequence());
        for number in [OFFICE.entries - 1, OFFICE.entries] {
            let entries = padded(&minimal, number);
            test(cases, &sheet, &entries);
            test(cases, &sheet, &entries[..number - 1]);
        }
        test(cases, &sheet, &lengthened(random, &graph, &minimal, OFFICE.entries, OFFICE.entries));
    }
    six_components(cases, random);
}

/// Six components of ten atoms, each with every edge, and long sequences.
fn six_components(cases: &mut Cases, random: &mut Random) {
    let rules =
        |random: &mut Random, first: u8| Shape::Complete.rules(random, &(first..first + 10).collect::<Vec<_>>());
    let sheet = Sheet::new(64, (0..6).flat_map(|i| rules(random, 10 * i)).collect());
    let graph = Graph::new(&sheet);
    let default = graph.default_sequence();
    let mixed = mixed(random, &graph);
    test(cases, &sheet, &default);
    test(cases, &sheet, &default[..default.len() - 1]);
    test(cases, &sheet, &lengthened(random, &graph, &mixed, OFFICE.entries, OFFICE.entries));
    // Nothing is missing but one chain of the last component.
    let one = Graph::new(&Sheet::new(10, rules(random, 0)));
    let last = minimal(random, &one, &one.default_sequence()).iter().map(|atom| 50 + atom).collect::<Vec<_>>();
    let others: Vec<u8> = default.iter().copied().filter(|atom| !(50..60).contains(atom)).collect();
    test(cases, &sheet, &[&others[..], &last].concat());
    test(cases, &sheet, &[&others[..], &last[..last.len() - 1]].concat());
    test(cases, &sheet, &[&last[1..], &others].concat());
}

/// A sheet that is refused by an earlier question, with sequences of all sorts.
fn refused_before(cases: &mut Cases) {
    let eleven = Sheet::new(11, cycle(&(0..11).collect::<Vec<_>>()));
    let default = Graph::new(&eleven).default_sequence();
    test(cases, &eleven, &default);
    test(cases, &eleven, &[]);
    let mut sheets = vec![eleven.bytes(), vec![], vec![1, 0, 6, 1, 0], vec![1, 0, 5, 65, 0], vec![1, 0, 6, 1, 0, 0]];
    sheets.push(Sheet::new(1, vec![rule(1, &[], &[])]).bytes());
    sheets.push(Sheet::new(1, vec![rule(0, &[1], &[])]).bytes());
    sheets.push(Sheet::new(2, vec![rule(0, &[], &[])]).bytes());
    for (number, sheet) in sheets.iter().enumerate() {
        for sequence in malformed(11, &[0, 1]).iter().skip(number % 2).step_by(2) {
            cases.add(Call::new(Operation::Test, sheet).sequence(sequence));
        }
    }
}

/// Malformed sequences whose entries would pass, and others that lack chains too.
fn malformed_sequences(cases: &mut Cases, random: &mut Random) {
    let mut sheets = vec![Sheet::new(0, vec![]), Sheet::new(64, vec![])];
    sheets.extend((2..5).map(|size| connected(random, Shape::Complete, size)));
    for sheet in sheets {
        let graph = Graph::new(&sheet);
        for entries in [graph.default_sequence(), vec![0; sheet.atoms.min(1).into()]] {
            for sequence in malformed(sheet.atoms, &entries) {
                cases.add(Call::new(Operation::Test, &sheet.bytes()).sequence(&sequence));
            }
        }
    }
}
