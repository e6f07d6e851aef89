//! Cases of unfolded programs and clauses.

use crate::cases::Cases;
use crate::choices;
use rulesheet_tests::inputs::{barely_entered, connected, cycle, sheet_a, Shape, Style};
use rulesheet_tests::limits::OFFICE;
use rulesheet_tests::random::Random;
use rulesheet_tests::reference::{answer_by, Graph, Unfolded};
use rulesheet_tests::sequences::{delayed, lengthened, malformed, minimal, mixed, reordered, without, without_fresh};
use rulesheet_tests::service::{Call, Operation};
use rulesheet_tests::sheet::{choice, constraint, rule, sequence_bytes, Record, Sheet};

const OPERATIONS: [Operation; 2] = [Operation::Unfolded, Operation::Clauses];

pub fn cases() -> Cases {
    let mut cases = Cases::default();
    let mut random = Random::new(3);
    small_sheets(&mut cases, &mut random);
    for _ in 0..60 {
        let sheet = Style { atoms: 5, records: 7, component: 4, negated: 5, body: 2 }.sheet(&mut random);
        some_sequences(&mut cases, &mut random, &sheet);
    }
    for _ in 0..20 {
        let sheet = Style { atoms: 16, records: 24, component: 7, negated: 12, body: 3 }.sheet(&mut random);
        some_sequences(&mut cases, &mut random, &sheet);
    }
    for size in 2..=10 {
        for shape in Shape::ALL {
            let sheet = with_entrances(&mut random, shape, size);
            some_sequences(&mut cases, &mut random, &sheet);
        }
    }
    long_outputs(&mut cases, &mut random);
    refusals(&mut cases, &mut random);
    with_choices(&mut cases, &mut random);
    never_on(&mut cases, &mut random);
    one_way_in(&mut cases, &mut random);
    dead_stretches(&mut cases, &mut random);
    for size in 2..=10 {
        for shape in Shape::ALL {
            let sheet = barely_entered(&mut random, shape, size);
            late_sequences(&mut cases, &mut random, &sheet);
        }
    }
    cases
}

fn with_choices(cases: &mut Cases, random: &mut Random) {
    for sheet in choices::small() {
        some_sequences(cases, random, &sheet);
    }
    for _ in 0..40 {
        let sheet = choices::any(random, 7);
        some_sequences(cases, random, &sheet);
        let entries = without_fresh(random, &sheet, &Graph::new(&sheet).default_sequence());
        ask(cases, random, &sheet, &entries);
    }
    for sheet in choices::most_atoms() {
        let default = Graph::new(&sheet).default_sequence();
        ask(cases, random, &sheet, &default);
    }
    // Many copies of heads and of fresh atoms.
    for sheet in [choices::any(random, 10), choices::any(random, 10)] {
        let graph = Graph::new(&sheet);
        let entries = lengthened(random, &graph, &graph.default_sequence(), OFFICE.entries, OFFICE.entries);
        ask(cases, random, &sheet, &entries);
    }
}

/// Both operations, with the room that is needed, with another room near it, and with one near the room needed before W2.
fn ask(cases: &mut Cases, random: &mut Random, sheet: &Sheet, entries: &[u8]) {
    let rooms: [fn(usize) -> usize; 8] = [
        |need| need,
        |need| need,
        |need| need.saturating_sub(1),
        |need| need.saturating_sub(1),
        |_| 0,
        |need| need / 2,
        |need| need + 1,
        |need| need + 99,
    ];
    for operation in OPERATIONS {
        let call = Call::new(operation, &sheet.bytes()).sequence(&sequence_bytes(entries));
        let need = cases.add(call.clone()).length();
        let needed = answer_by(Unfolded::unshortened, &call).length();
        let room = random.pick(&rooms);
        cases.add(call.clone().room(room(need)));
        cases.add(call.room(room(needed)));
    }
}

/// A passing sequence of each of two sorts.
fn some_sequences(cases: &mut Cases, random: &mut Random, sheet: &Sheet) {
    let graph = Graph::new(sheet);
    let default = graph.default_sequence();
    let mixed = mixed(random, &graph);
    let minimal = minimal(random, &graph, &mixed);
    let mut sequences = [
        lengthened(random, &graph, &minimal, 4, OFFICE.entries),
        lengthened(random, &graph, &default, 2, OFFICE.entries),
        default,
        mixed,
        minimal,
    ];
    random.shuffle(&mut sequences);
    for entries in &sequences[..2] {
        ask(cases, random, sheet, entries);
    }
}

/// Passing sequences along which copies keep no rule at first.
fn late_sequences(cases: &mut Cases, random: &mut Random, sheet: &Sheet) {
    let graph = Graph::new(sheet);
    let reordered = reordered(random, &graph);
    let minimal = minimal(random, &graph, &reordered);
    let delayed = delayed(random, &graph, &minimal, 9);
    for entries in [reordered, delayed] {
        ask(cases, random, sheet, &entries);
    }
}

/// A component that facts and negative atoms lead into, and a constraint on it.
fn with_entrances(random: &mut Random, shape: Shape, size: usize) -> Sheet {
    let mut sheet = connected(random, shape, size);
    let atoms: Vec<u8> = (0..sheet.atoms).collect();
    let records = [
        rule(*random.pick(&atoms), &[], &[]),
        rule(*random.pick(&atoms), &[], &random.some_of(&atoms, 2)),
        constraint(&random.some_of(&atoms, 2), &random.some_of(&atoms, 2)),
    ];
    for record in records {
        sheet.records.insert(random.below(sheet.records.len() + 1), record);
    }
    sheet
}

fn small_sheets(cases: &mut Cases, random: &mut Random) {
    let pair = [rule(0, &[1], &[]), rule(1, &[0], &[])];
    let small: [(Sheet, &[&[u8]]); 12] = [
        (Sheet::new(0, vec![]), &[&[]]),
        (Sheet::new(0, vec![constraint(&[], &[])]), &[&[]]),
        (Sheet::new(1, vec![]), &[&[0], &[0, 0, 0]]),
        (Sheet::new(2, pair.to_vec()), &[&[0, 1, 0], &[1, 0, 1], &[0, 1, 0, 1], &[0, 0, 1, 1, 0, 0]]),
        (sheet_a(), &[&[0, 1, 0, 2], &[0, 1, 0, 1, 2], &[2, 0, 1, 0], &[1, 0, 1, 2, 2], &[0, 1, 2]]),
        // A self loop: the rule is dropped at the first copy and reads the copy before at the others.
        (Sheet::new(1, vec![rule(0, &[0], &[])]), &[&[0], &[0, 0], &[0, 0, 0, 0]]),
        (Sheet::new(1, vec![rule(0, &[0], &[]), rule(0, &[], &[])]), &[&[0], &[0, 0, 0]]),
        // One atom in both lists, in its own component and in another.
        (Sheet::new(2, vec![rule(0, &[0], &[0]), rule(1, &[0], &[0])]), &[&[0, 1], &[1, 0], &[0, 1, 0, 1]]),
        // An atom of another component is read by its last copy, wherever that stands.
        (Sheet::new(2, vec![rule(1, &[0], &[]), rule(0, &[], &[])]), &[&[0, 1], &[1, 0], &[0, 1, 0], &[1, 0, 1, 0, 0]]),
        // Two atoms of the component in one body, one of them without a copy at first.
        (
            Sheet::new(3, [cycle(&[0, 1, 2]), vec![rule(0, &[1, 2], &[1]), rule(2, &[0, 2], &[])]].concat()),
            &[&[0, 1, 2, 0, 1, 2, 0, 1, 2], &[2, 1, 0, 1, 2, 0, 1]],
        ),
        // The same rule twice, facts, and constraints of every form.
        (
            Sheet::new(2, vec![rule(1, &[], &[0]), rule(1, &[], &[0]), rule(0, &[], &[]), rule(0, &[], &[])]),
            &[&[0, 1], &[1, 0, 0]],
        ),
        (
            Sheet::new(
                2,
                vec![
                    constraint(&[], &[]),
                    constraint(&[0], &[]),
                    constraint(&[], &[0, 1]),
                    constraint(&[0, 1], &[0, 1]),
                ],
            ),
            &[&[0, 1], &[1, 1, 0]],
        ),
    ];
    for (sheet, sequences) in small {
        for entries in sequences {
            ask(cases, random, &sheet, entries);
        }
    }
}

/// Copies that keep no rule in the smallest sheets, and what reads them.
fn never_on(cases: &mut Cases, random: &mut Random) {
    let pair = cycle(&[0, 1]);
    let three = cycle(&[2, 1, 0]);
    let sheets: [(Vec<Record>, &[&[u8]]); 14] = [
        (cycle(&[0, 1, 2]), &[&[0, 1, 2, 0, 1, 2, 0, 1, 2], &[2, 1, 0, 2, 1, 0, 2, 1, 0]]),
        // A way in: copies before it keep no rule, and those after it bring on one another.
        ([&pair[..], &[rule(1, &[], &[])]].concat(), &[&[0, 1, 0, 1, 2], &[0, 0, 0, 1, 0, 2], &[1, 0, 1, 0, 2]]),
        ([&three[..], &[rule(2, &[], &[])]].concat(), &[&[0, 1, 2, 0, 1, 2, 0, 1, 2], &[2, 1, 0, 2, 1, 0]]),
        (
            [&three[..], &[rule(0, &[], &[1])]].concat(),
            &[&[1, 2, 0, 1, 2, 0, 1, 2, 0], &[1, 1, 2, 2, 0, 1, 2, 0, 1, 2]],
        ),
        // A self loop beside another rule: the copy comes on by that rule, and then reads itself.
        ([&pair[..], &[rule(0, &[0], &[]), rule(1, &[], &[2])]].concat(), &[&[0, 0, 1, 0, 0, 2], &[1, 0, 0, 1, 2]]),
        (vec![rule(0, &[0], &[]), rule(0, &[0, 1], &[]), rule(1, &[], &[])], &[&[0, 1, 2, 0, 0]]),
        // Two atoms of the component in a body, of which one keeps no rule, for some time or for ever.
        (
            vec![rule(0, &[1, 2], &[]), rule(1, &[0], &[]), rule(2, &[0], &[]), rule(2, &[], &[])],
            &[&[2, 1, 0, 1, 2, 0]],
        ),
        (
            vec![rule(0, &[1, 2], &[]), rule(1, &[0], &[]), rule(1, &[2], &[]), rule(2, &[0], &[]), rule(2, &[], &[])],
            &[&[1, 0, 2, 0, 1, 0, 2, 1, 0], &[2, 0, 1, 0, 2, 1, 0, 1]],
        ),
        // Copies of another component keep no rule and drop none: no rule at all, a self loop, a loop; and under a `not`.
        (vec![rule(0, &[1], &[]), rule(2, &[1, 2], &[]), rule(2, &[0], &[])], &[&[0, 1, 2, 2], &[1, 0, 2, 1, 2]]),
        (vec![rule(0, &[2], &[]), rule(1, &[0, 2], &[]), rule(2, &[2], &[])], &[&[2, 0, 1], &[0, 1, 2, 2, 0]]),
        ([&pair[..], &[rule(2, &[0], &[]), rule(2, &[1], &[1])]].concat(), &[&[0, 1, 0, 2], &[2, 1, 0, 1, 2]]),
        ([&pair[..], &[rule(2, &[], &[0, 1]), constraint(&[0], &[1])]].concat(), &[&[0, 1, 0, 2], &[2, 1, 0, 1, 2]]),
        // Choice rules: the fresh atom is in a component of its own, and keeps what its head drops.
        (vec![choice(0, &[1], &[]), choice(1, &[0], &[2])], &[&[3, 0, 1, 0, 4, 2], &[1, 0, 1, 4, 2, 3, 0, 1]]),
        (
            vec![choice(0, &[1], &[]), rule(1, &[0], &[]), choice(1, &[], &[]), choice(0, &[0, 1], &[])],
            &[&[0, 1, 0, 1, 2, 3, 4, 5, 0], &[5, 4, 3, 2, 0, 0, 1, 0, 1]],
        ),
    ];
    for (records, sequences) in sheets {
        let sheet = Sheet::new(3, records);
        for entries in sequences {
            ask(cases, random, &sheet, entries);
        }
    }
}

/// Cycles with one way in, at each place. Along a falling sequence a copy brings on the next one in the same round, along a
/// rising one in the round after it.
fn one_way_in(cases: &mut Cases, random: &mut Random) {
    for size in [2, 4, 7, 10] {
        let falling: Vec<u8> = (0..size).rev().collect();
        for place in 0..size {
            let ways_in = [
                rule(place, &[], &[]),
                rule(place, &[], &[(place + 1) % size]),
                rule(place, &[size], &[]),
                choice(place, &[], &[]),
            ];
            let way_in = ways_in[usize::from(place) % ways_in.len()].clone();
            let sheet = Sheet::new(size + 1, [cycle(&falling), vec![way_in]].concat());
            let default = Graph::new(&sheet).default_sequence();
            let outside = &default[usize::from(size) * usize::from(size)..];
            ask(cases, random, &sheet, &default);
            ask(cases, random, &sheet, &[&falling.repeat(size.into())[..], outside].concat());
        }
    }
}

/// Many entries in a row whose copies keep no rule, up to the longest sequence.
fn dead_stretches(cases: &mut Cases, random: &mut Random) {
    for size in [3, 10] {
        let ring: Vec<u8> = (0..size).collect();
        let shut = Sheet::new(size, cycle(&ring));
        let default = Graph::new(&shut).default_sequence();
        let open = Sheet::new(size, [cycle(&ring), vec![rule(size - 1, &[], &[])]].concat());
        for number in [20, 100, OFFICE.entries - default.len()] {
            let stretch: Vec<u8> = (0..size - 1).cycle().take(number).collect();
            ask(cases, random, &shut, &[&default[..], &stretch].concat());
            ask(cases, random, &open, &[&stretch[..], &default].concat());
        }
    }
}

/// Outputs of many thousand words.
fn long_outputs(cases: &mut Cases, random: &mut Random) {
    for shape in [Shape::CompleteSplit, Shape::Complete, Shape::Tangle] {
        let sheet = connected(random, shape, 10);
        let graph = Graph::new(&sheet);
        let entries = lengthened(random, &graph, &graph.default_sequence(), OFFICE.entries, OFFICE.entries);
        ask(cases, random, &sheet, &entries);
    }
    let sheet = loop {
        let sheet = Style { atoms: 64, records: 128, component: 6, negated: 64, body: 4 }.sheet(random);
        if sheet.atoms >= 50 && sheet.records.len() >= 80 {
            break sheet;
        }
    };
    let graph = Graph::new(&sheet);
    ask(cases, random, &sheet, &graph.default_sequence());
    let entries = lengthened(random, &graph, &graph.default_sequence(), OFFICE.entries, OFFICE.entries);
    ask(cases, random, &sheet, &entries);
}

/// Refusals by the questions before the room, with no room and with plenty.
fn refusals(cases: &mut Cases, random: &mut Random) {
    let sheet = connected(random, Shape::Complete, 3);
    let graph = Graph::new(&sheet);
    let minimal = minimal(random, &graph, &graph.default_sequence());
    let eleven = Sheet::new(11, cycle(&(0..11).collect::<Vec<_>>()));
    let good = sheet.bytes();
    let mut pairs: Vec<(Vec<u8>, Vec<u8>)> = vec![
        (vec![], sequence_bytes(&[])),
        (vec![1, 0, 6, 0, 0], sequence_bytes(&[])),
        (vec![1, 0, 5, 65, 0], sequence_bytes(&[])),
        (vec![1, 0, 6, 0, 0, 0], sequence_bytes(&[])),
        (Sheet::new(1, vec![rule(1, &[], &[])]).bytes(), sequence_bytes(&[0])),
        (Sheet::new(1, vec![rule(0, &[1], &[])]).bytes(), sequence_bytes(&[0])),
        (eleven.bytes(), sequence_bytes(&Graph::new(&eleven).default_sequence())),
        (eleven.bytes(), vec![]),
        (eleven.bytes(), vec![1, 0, 1, 11]),
    ];
    pairs.extend(malformed(sheet.atoms, &minimal).into_iter().map(|sequence| (good.clone(), sequence)));
    pairs.extend((0..minimal.len()).map(|place| (good.clone(), sequence_bytes(&without(&minimal, place)))));
    for (sheet, sequence) in &pairs {
        for operation in OPERATIONS {
            let call = Call::new(operation, sheet).sequence(sequence);
            cases.add(if random.one_in(3) { call.room(*random.pick(&[0, 1, 5_000])) } else { call });
        }
    }
}
