//! Cases of the shortest missing chain.

use crate::cases::Cases;
use crate::choices;
use crate::sheets::{malformed as malformed_sheets, malformed_choices};
use rulesheet_tests::inputs::{choose, complete, complete_components, connected, cycle, sheet_a, upto, Shape};
use rulesheet_tests::limits::OFFICE;
use rulesheet_tests::random::Random;
use rulesheet_tests::reference::{shortest_missing, Graph};
use rulesheet_tests::sequences::{
    lengthened, malformed, minimal, mixed, padded, reordered, thinned, without, without_fresh,
};
use rulesheet_tests::service::{Call, Operation};
use rulesheet_tests::sheet::{constraint, rule, sequence_bytes, Sheet};
use std::collections::HashMap;

pub fn cases() -> Cases {
    let mut cases = Cases::default();
    let mut random = Random::new(7);
    every_room(&mut cases);
    short_sequences(&mut cases);
    for sheet in one_component(&mut random) {
        some_sequences(&mut cases, &mut random, &sheet, 5);
    }
    for _ in 0..25 {
        let sheet = several_components(&mut random);
        some_sequences(&mut cases, &mut random, &sheet, 4);
    }
    dense(&mut cases, &mut random);
    rounds(&mut cases);
    cut_cycles(&mut cases);
    ties(&mut cases, &mut random);
    long_sequences(&mut cases, &mut random);
    six_components(&mut cases);
    with_choices(&mut cases, &mut random);
    refused_before(&mut cases, &mut random);
    malformed_sequences(&mut cases, &mut random);
    cases
}

fn call(sheet: &Sheet, entries: &[u8]) -> Call {
    Call::new(Operation::Missing, &sheet.bytes()).sequence(&sequence_bytes(entries))
}

/// With the room that is needed, and with another room.
fn ask(cases: &mut Cases, random: &mut Random, sheet: &Sheet, entries: &[u8]) {
    let call = call(sheet, entries);
    let need = cases.add(call.clone()).length();
    let less = need.saturating_sub(1);
    cases.add(call.room(*random.pick(&[0, less, less, need, need + 1, 10])));
}

/// Small sheets with every room up to what they need and beyond; where a sequence passes, 14 comes before 10.
fn every_room(cases: &mut Cases) {
    let inputs: [(Sheet, &[&[u8]]); 5] = [
        (sheet_a(), &[&[0, 1, 2], &[1, 0, 2], &[0, 1, 0], &[], &[2], &[0, 1, 0, 2], &[0, 1, 0, 1, 2]]),
        (Sheet::new(0, vec![]), &[&[]]),
        (Sheet::new(0, vec![constraint(&[], &[])]), &[&[]]),
        (Sheet::new(64, vec![]), &[&[], &[0], &upto(63), &upto(64)]),
        (complete_components(1, 5), &[&upto(5).repeat(3), &upto(5).repeat(4), &upto(5).repeat(5)]),
    ];
    for (sheet, sequences) in &inputs {
        for entries in *sequences {
            let call = call(sheet, entries);
            for room in 0..=cases.add(call.clone()).length() + 1 {
                cases.add(call.clone().room(room));
            }
            cases.add(call.room(10));
        }
    }
}

/// Every sequence of up to four entries, for the smallest components.
fn short_sequences(cases: &mut Cases) {
    let sheets = [
        Sheet::new(1, vec![rule(0, &[0], &[])]),
        Sheet::new(2, vec![rule(0, &[1], &[])]),
        Sheet::new(2, cycle(&[0, 1])),
        Sheet::new(3, cycle(&[0, 1, 2])),
        complete_components(1, 3),
    ];
    for sheet in sheets {
        let mut sequences = vec![Vec::new()];
        for _ in 0..=4 {
            sequences.iter().for_each(|entries| drop(cases.add(call(&sheet, entries))));
            sequences = longer(&sequences, sheet.atoms);
        }
    }
}

/// The sequences with one entry more, which can be any atom.
fn longer(sequences: &[Vec<u8>], atoms: u8) -> Vec<Vec<u8>> {
    sequences.iter().flat_map(|entries| (0..atoms).map(move |atom| [&entries[..], &[atom]].concat())).collect()
}

/// A component of each shape and size, but that the dense ones have at most seven atoms, and two cycles that share an atom.
fn one_component(random: &mut Random) -> Vec<Sheet> {
    let mut sheets = Vec::new();
    for size in 2..=7 {
        sheets.extend(Shape::ALL.map(|shape| connected(random, shape, size)));
    }
    for size in 8..=10 {
        sheets.extend([Shape::Cycle, Shape::Path, Shape::Star].map(|shape| connected(random, shape, size)));
    }
    for (size, other) in [(2, 2), (2, 3), (3, 3), (3, 5), (4, 4), (5, 5), (5, 6), (2, 9)] {
        let atoms = choose(random, size + other - 1, size + other - 1);
        sheets.push(Sheet::new(atoms.len() as u8, [cycle(&atoms[..size]), cycle(&atoms[size - 1..])].concat()));
    }
    sheets
}

/// Components of up to five atoms with edges from each to the next, atoms that are alone, and a constraint.
fn several_components(random: &mut Random) -> Sheet {
    let n = random.between(6, 14);
    let atoms = choose(random, n, n);
    let mut rest = &atoms[..];
    let mut records = vec![constraint(&random.some_of(&atoms, 2), &random.some_of(&atoms, 2))];
    while rest.len() > 1 {
        let (inside, after) = rest.split_at(random.between(1, 5.min(rest.len())));
        if inside.len() > 1 {
            records.extend(random.pick(&Shape::ALL).rules(random, inside));
        }
        records.extend(after.first().map(|&next| rule(next, &[inside[0]], &random.some_of(&atoms, 1))));
        rest = after;
    }
    random.shuffle(&mut records);
    Sheet::new(n as u8, records)
}

/// So many of the sequences that pass or lack more or less.
fn some_sequences(cases: &mut Cases, random: &mut Random, sheet: &Sheet, number: usize) {
    let mut sequences = sequences(random, &Graph::new(sheet));
    random.shuffle(&mut sequences);
    for entries in &sequences[..number] {
        ask(cases, random, sheet, entries);
    }
}

fn sequences(random: &mut Random, graph: &Graph) -> Vec<Vec<u8>> {
    let default = graph.default_sequence();
    let mixed = mixed(random, graph);
    let minimal = minimal(random, graph, &mixed);
    let lacking = without(&minimal, random.below(minimal.len()));
    let round = graph.components().last().map_or(0, |component| component.len());
    let mut shuffled = default.clone();
    random.shuffle(&mut shuffled);
    vec![
        vec![],
        default[..default.len() - 1].to_vec(),
        default[..default.len() - round].to_vec(),
        default[1..].to_vec(),
        without(&default, random.below(default.len())),
        without(&minimal, minimal.len() - 1),
        without(&lacking, random.below(lacking.len())),
        lacking.iter().flat_map(|&entry| [entry; 3]).collect(),
        lengthened(random, graph, &lacking, 4, OFFICE.entries),
        lacking,
        random_entries(random, graph, 2),
        random_entries(random, graph, 6),
        shuffled,
        minimal,
        mixed,
        default,
    ]
}

/// Up to so many entries for each atom.
fn random_entries(random: &mut Random, graph: &Graph, most: usize) -> Vec<u8> {
    let atoms: Vec<u8> = graph.atoms().collect();
    (0..random.between(1, most * atoms.len())).map(|_| *random.pick(&atoms)).collect()
}

/// Dense components of eight and more: without an entry that is needed. A case of ten atoms goes through millions of chains.
fn dense(cases: &mut Cases, random: &mut Random) {
    for (size, number) in [(8, 8), (9, 4), (10, 2)] {
        for shape in [Shape::Complete, Shape::Tangle] {
            let sheet = connected(random, shape, size);
            let graph = Graph::new(&sheet);
            let reordered = reordered(random, &graph);
            let minimal = minimal(random, &graph, &reordered);
            for _ in 0..number {
                cases.add(call(&sheet, &without(&minimal, random.below(minimal.len()))));
            }
        }
    }
}

/// Rounds of a complete component: the shortest missing chain falls, and has one atom more than there are rounds. With one round
/// too few it is the only one.
fn rounds(cases: &mut Cases) {
    for size in [2, 3, 4, 6, 8, 10] {
        let sheet = complete_components(1, size);
        for number in 0..=size {
            cases.add(call(&sheet, &upto(size).repeat(number.into())));
        }
    }
    // The last ten of 64 atoms.
    let last: Vec<u8> = (54..64).collect();
    let sheet = Sheet::new(64, complete(&last));
    cases.add(call(&sheet, &[&upto(54)[..], &last.repeat(9)].concat()));
    let nine = upto(10).repeat(9);
    let call = |entries: &[u8]| call(&complete_components(1, 10), entries);
    for room in [0, 9, 10, 11] {
        cases.add(call(&nine).room(room));
    }
    // Further entries that complete it, or do not.
    cases.add(call(&[&nine[..], &[0]].concat()));
    cases.add(call(&[&nine[..], &[9; 550]].concat()));
    cases.add(call(&padded(&nine, OFFICE.entries)));
}

/// Cycles of ten: behind one round, so many entries of a second. The shortest missing chain starts with the round's last atom and
/// goes on to the first one that is cut off; with eight entries in the second round it is the only one.
fn cut_cycles(cases: &mut Cases) {
    let rising = upto(10);
    let falling: Vec<u8> = rising.iter().rev().copied().collect();
    let mixed = [3, 8, 0, 5, 9, 1, 7, 2, 6, 4];
    for round in [&rising[..], &falling, &mixed] {
        let sheet = Sheet::new(10, cycle(round));
        for number in 0..=10 {
            cases.add(call(&sheet, &[round, &round[..number]].concat()));
        }
    }
}

/// Where the first two of the shortest missing chains differ.
#[derive(PartialEq, Eq, Hash)]
struct Tie {
    length: usize,
    place: usize,
    /// They are of one component.
    inside: bool,
    /// Another one is of a component with a smaller atom.
    earlier_component: bool,
}

fn tie(graph: &Graph, entries: &[u8]) -> Option<Tie> {
    let chains = shortest_missing(graph, entries, usize::MAX);
    let [first, second, ..] = &chains[..] else { return None };
    let component = |chain: &[u8]| graph.smallest(chain[0]);
    Some(Tie {
        length: first.len(),
        place: first.iter().zip(second).position(|(one, other)| one != other)?,
        inside: component(first) == component(second),
        earlier_component: chains.iter().any(|chain| component(chain) < component(first)),
    })
}

/// Sequences that lack several chains of the same length: a few for each way in which they differ.
fn ties(cases: &mut Cases, random: &mut Random) {
    let mut found: HashMap<Tie, usize> = HashMap::new();
    for _ in 0..4_000 {
        let (shape, size) = (*random.pick(&Shape::ALL), random.between(2, 7));
        let sheet = if random.one_in(2) { connected(random, shape, size) } else { several_components(random) };
        let graph = Graph::new(&sheet);
        let entries = thinned(random, &graph);
        let Some(tie) = tie(&graph, &entries) else { continue };
        let number = found.entry(tie).or_default();
        *number += 1;
        if *number <= 4 {
            cases.add(call(&sheet, &entries));
        }
    }
}

/// The most entries: chains that only the last one completes, and sequences that lack some.
fn long_sequences(cases: &mut Cases, random: &mut Random) {
    let mut sheets = vec![sheet_a(), Sheet::new(10, cycle(&upto(10)))];
    sheets.extend(Shape::ALL.map(|shape| connected(random, shape, 6)));
    for sheet in sheets {
        let graph = Graph::new(&sheet);
        let minimal = minimal(random, &graph, &graph.default_sequence());
        let lacking = without(&minimal, random.below(minimal.len()));
        let longest = padded(&minimal, OFFICE.entries);
        let many = lacking.iter().flat_map(|&entry| vec![entry; OFFICE.entries / lacking.len()]).collect();
        let drawn = lengthened(random, &graph, &lacking, OFFICE.entries, OFFICE.entries);
        for entries in [longest[..OFFICE.entries - 1].to_vec(), padded(&lacking, OFFICE.entries), many, drawn, longest]
        {
            ask(cases, random, &sheet, &entries);
        }
    }
}

/// Six components of ten, with so many entries of each: cycles, which 19 entries are enough for, and complete ones, of which the
/// last or the first lacks a chain.
fn six_components(cases: &mut Cases) {
    let block = |place: u8| (10 * place..10 * place + 10).collect::<Vec<u8>>();
    let entries = |numbers: [usize; 6]| {
        let part = |(place, number)| block(place).into_iter().cycle().take(number);
        (0..).zip(numbers).flat_map(part).collect::<Vec<u8>>()
    };
    let cycles = Sheet::new(60, (0..6).flat_map(|place| cycle(&block(place))).collect());
    for numbers in [
        [19; 6],
        [18; 6],
        [18, 19, 19, 19, 19, 19],
        [19, 19, 19, 19, 19, 18],
        [19, 18, 19, 18, 19, 17],
        [100, 15, 100, 14, 19, 14],
        [12, 12, 11, 12, 11, 12],
        [10, 100, 100, 9, 100, 100],
        [100, 100, 100, 100, 100, 0],
        [0, 100, 100, 100, 100, 100],
    ] {
        cases.add(call(&cycles, &entries(numbers)));
    }
    let complete = complete_components(6, 10);
    for numbers in [
        [100; 6],
        [91, 91, 91, 91, 91, 90],
        [90, 100, 100, 100, 100, 100],
        [100, 40, 100, 30, 100, 31],
        [100, 100, 100, 100, 100, 9],
    ] {
        cases.add(call(&complete, &entries(numbers)));
    }
}

/// Sequences that lack fresh atoms, among others: a fresh atom alone is a chain, behind all written ones.
fn with_choices(cases: &mut Cases, random: &mut Random) {
    for sheet in choices::small() {
        let default = Graph::new(&sheet).default_sequence();
        let written: Vec<u8> = default.iter().copied().filter(|&entry| entry < sheet.atoms).collect();
        ask(cases, random, &sheet, &written);
        ask(cases, random, &sheet, &default[..default.len() - 1]);
        some_sequences(cases, random, &sheet, 1);
    }
    for sheet in choices::most_atoms() {
        let default = Graph::new(&sheet).default_sequence();
        ask(cases, random, &sheet, &default[..default.len() - 1]);
        cases.add(call(&sheet, &default));
    }
    for _ in 0..25 {
        let sheet = choices::any(random, 8);
        let entries = without_fresh(random, &sheet, &Graph::new(&sheet).default_sequence());
        ask(cases, random, &sheet, &entries);
        some_sequences(cases, random, &sheet, 2);
    }
}

/// Refusals by the questions about the sheet, with sequences of all sorts and with no room or plenty.
fn refused_before(cases: &mut Cases, random: &mut Random) {
    let eleven = Sheet::new(11, cycle(&upto(11)));
    let mut sequences = malformed(11, &[0, 1]);
    sequences.extend([&[][..], &[0], &upto(11), &upto(11).repeat(11)].map(sequence_bytes));
    for sequence in &sequences {
        cases.add(Call::new(Operation::Missing, &eleven.bytes()).sequence(sequence));
    }
    let sheets = [malformed_sheets(), malformed_choices()].concat();
    for sheet in sheets.iter().step_by(3) {
        let call = Call::new(Operation::Missing, sheet).sequence(&random.pick(&sequences)[..]);
        cases.add(if random.one_in(2) { call.room(*random.pick(&[0, 10])) } else { call });
    }
}

/// Malformed sequences whose entries would pass, and others that lack chains too.
fn malformed_sequences(cases: &mut Cases, random: &mut Random) {
    let sheets = [Sheet::new(0, vec![]), sheet_a(), Sheet::new(64, vec![]), choices::any(random, 4)];
    for sheet in sheets {
        let default = Graph::new(&sheet).default_sequence();
        for entries in [&default[..], &default[..default.len().min(1)]] {
            for sequence in malformed(sheet.all_atoms() as u8, entries) {
                let call = Call::new(Operation::Missing, &sheet.bytes()).sequence(&sequence);
                cases.add(if random.one_in(3) { call.room(*random.pick(&[0, 10])) } else { call });
            }
        }
    }
}
