//! Cases of the hub, and of the office where the hub refuses by 15 or 16.

use crate::cases::Cases;
use crate::choices::{self, chosen};
use crate::sheets::{malformed as malformed_sheets, malformed_choices};
use rulesheet_tests::inputs::{complete_components, cycle, damaged, hub_sheet, sheet_a, upto, Shape};
use rulesheet_tests::limits::{HUB, OFFICE};
use rulesheet_tests::random::Random;
use rulesheet_tests::reference::Graph;
use rulesheet_tests::sequences::{any_sequence, malformed, nearly_too_many, padded, thinned};
use rulesheet_tests::service::{Answer, Call, Host, Operation};
use rulesheet_tests::sheet::{choice, constraint, rule, sequence_bytes, Record, Sheet};

/// The operations that write something about a sheet, and those that take a sequence.
const WRITERS: [Operation; 3] = [Operation::Components, Operation::Default, Operation::Lparse];
const WITH_SEQUENCE: [Operation; 4] = [Operation::Test, Operation::Missing, Operation::Unfolded, Operation::Clauses];

pub fn cases() -> Cases {
    let mut cases = Cases::default();
    let mut random = Random::new(8);
    let families = [numbers_of_atoms(), sizes_of_components(&mut random), two_faults(), within()];
    for sheet in families.concat() {
        ask_sheet(&mut cases, &mut random, &sheet);
    }
    for sheet in [sheet_a(), Sheet::new(24, vec![]), complete_components(6, 4), with_fresh()] {
        numbers_of_entries(&mut cases, &mut random, &sheet);
    }
    malformed_sequences(&mut cases, &mut random);
    for bytes in [malformed_sheets(), malformed_choices()].concat().iter().step_by(6) {
        ask_one(&mut cases, &mut random, bytes);
    }
    for _ in 0..20 {
        let sheet = hub_sheet(&mut random);
        let sequence = any_sequence(&mut random, &sheet);
        ask_pair(&mut cases, &mut random, &sheet, &sequence);
        let graph = Graph::new(&sheet);
        for entries in [nearly_too_many(&mut random, &graph), thinned(&mut random, &graph)] {
            ask_pair(&mut cases, &mut random, &sheet, &sequence_bytes(&entries));
        }
        ask_one(&mut cases, &mut random, &sheet.bytes());
        let bytes = damaged(&mut random, &sheet);
        ask_one(&mut cases, &mut random, &bytes);
    }
    rounds(&mut cases);
    longest(&mut cases);
    cases
}

/// A call to the hub, and to the office where the hub refuses by a limit of its own.
fn ask(cases: &mut Cases, call: Call) -> Answer {
    let answer = cases.add(call.clone().at(Host::Hub));
    if matches!(answer, Answer::Refused(15 | 16)) {
        cases.add(call);
    }
    answer
}

/// With the room that is needed, and with one element less.
fn ask_rooms(cases: &mut Cases, call: Call) {
    let need = ask(cases, call.clone()).length();
    ask(cases, call.room(need.saturating_sub(1)));
}

/// Every operation that takes no sequence, but one of those that write; and some with the default sequence.
fn ask_sheet(cases: &mut Cases, random: &mut Random, sheet: &Sheet) {
    let bytes = sheet.bytes();
    let records = sheet.records.len() as u64;
    ask(cases, Call::new(Operation::Read, &bytes));
    let number = *random.pick(&[0, records.saturating_sub(1), records, u64::MAX]);
    ask(cases, Call::new(Operation::Body, &bytes).number(number));
    ask(cases, Call::new(Operation::Count, &bytes));
    ask_rooms(cases, Call::new(*random.pick(&WRITERS), &bytes));
    let default = Graph::new(sheet).default_sequence();
    for entries in [&default[..], &default[..default.len().saturating_sub(1)]] {
        ask_pair(cases, random, sheet, &sequence_bytes(entries));
    }
}

/// Testing or looking for a missing chain, and unfolding.
fn ask_pair(cases: &mut Cases, random: &mut Random, sheet: &Sheet, sequence: &[u8]) {
    let [test, missing, unfolded, clauses] =
        WITH_SEQUENCE.map(|operation| Call::new(operation, &sheet.bytes()).sequence(sequence));
    ask(cases, if random.one_in(2) { test } else { missing });
    let call = if random.one_in(2) { unfolded } else { clauses };
    ask(cases, if random.one_in(3) { call.room(*random.pick(&[0, 1, 60])) } else { call });
}

/// One operation on the bytes of a sheet, with the empty sequence.
fn ask_one(cases: &mut Cases, random: &mut Random, bytes: &[u8]) {
    let operations: Vec<Operation> =
        Operation::ALL.into_iter().filter(|&operation| Host::Hub.offers(operation)).collect();
    let call = Call::new(*random.pick(&operations), bytes).sequence(&sequence_bytes(&[]));
    ask(cases, if random.one_in(3) { call.room(*random.pick(&[0, 20])) } else { call });
}

/// So many written atoms, and choice rules for them in turn.
fn with_choices(atoms: u8, number: u8) -> Sheet {
    Sheet::new(atoms, (0..number).map(|place| choice(place % atoms, &[], &[])).collect())
}

/// Around 24 atoms, with fresh ones and without, and around 64, where 13 comes before.
fn numbers_of_atoms() -> Vec<Sheet> {
    let mut sheets: Vec<Sheet> = [23, 24, 25, 26, 32, 63, 64].map(|atoms| Sheet::new(atoms, vec![])).to_vec();
    for (atoms, number) in [
        (23, 1),
        (24, 1),
        (22, 2),
        (23, 2),
        (20, 4),
        (20, 5),
        (12, 12),
        (12, 13),
        (13, 12),
        (1, 23),
        (1, 24),
        (2, 22),
        (63, 1),
        (64, 1),
        (40, 24),
        (40, 25),
        (1, 63),
        (1, 64),
    ] {
        sheets.push(with_choices(atoms, number));
    }
    sheets
}

/// Components of 4, 5, 10 and 11 atoms, alone and among others.
fn sizes_of_components(random: &mut Random) -> Vec<Sheet> {
    let many = |n: u8, parts: &[Vec<u8>]| Sheet::new(n, parts.iter().flat_map(|part| cycle(part)).collect());
    let mut sheets = Vec::new();
    for size in [4, 5, 10, 11] {
        let shape = *random.pick(&Shape::ALL);
        sheets.push(Sheet::new(size, shape.rules(random, &upto(size))));
        sheets.push(Sheet::new(size, cycle(&upto(size))));
        // The last atoms of 24, of 25 and of 64.
        for atoms in [24, 25, 64] {
            sheets.push(Sheet::new(atoms, cycle(&(atoms - size..atoms).collect::<Vec<u8>>())));
        }
        // Each has a fresh atom, too.
        sheets.push(Sheet::new(size, chosen(cycle(&upto(size)))));
    }
    sheets.extend([
        complete_components(6, 4),
        complete_components(7, 4),
        complete_components(4, 5),
        complete_components(5, 5),
        complete_components(6, 10),
        // Six components of four with atoms in turn, and one of five among five of four or less.
        many(24, &(0..6).map(|place| vec![place, place + 6, place + 12, place + 18]).collect::<Vec<_>>()),
        many(24, &[upto(5), vec![5, 6, 7, 8], vec![9, 10, 11, 12], vec![13, 14, 15, 16], vec![17, 18, 19]]),
        // Two cycles with one atom in common: four and five atoms.
        many(4, &[vec![0, 1], vec![1, 2, 3]]),
        many(5, &[vec![0, 1, 2], vec![2, 3, 4]]),
        // A fifth atom reached from a component of four, then also back, by a choice rule, by a `not`, by a constraint.
        with_fifth(rule(4, &[], &[])),
        with_fifth(rule(1, &[2, 4], &[])),
        with_fifth(choice(1, &[4], &[])),
        with_fifth(rule(1, &[], &[4])),
        with_fifth(constraint(&[1, 4], &[])),
    ]);
    sheets
}

/// A cycle of four atoms, from which a fifth is reached, and a record more.
fn with_fifth(record: Record) -> Sheet {
    Sheet::new(5, [cycle(&upto(4)), vec![rule(4, &[3], &[]), record]].concat())
}

/// Several questions that get a no: 13, 7, 15 and 11 in pairs, and both parts of 15.
fn two_faults() -> Vec<Sheet> {
    let negated = |number: u8| rule(0, &[], &upto(number));
    vec![
        // 13, with components of 5 and of 11.
        Sheet::new(60, chosen(cycle(&upto(5)))),
        Sheet::new(54, chosen(cycle(&upto(11)))),
        // 7, with more than 24 atoms and with fewer.
        Sheet::new(30, cycle(&upto(11))),
        Sheet::new(13, chosen(cycle(&upto(11)))),
        Sheet::new(20, [cycle(&upto(11)), vec![negated(17)]].concat()),
        // 15 by its atoms, by a component, by both; each with 16 and with 17 negated atoms.
        Sheet::new(25, vec![negated(16)]),
        Sheet::new(25, vec![negated(17)]),
        Sheet::new(20, [cycle(&upto(5)), vec![negated(16)]].concat()),
        Sheet::new(20, [cycle(&upto(5)), vec![negated(17)]].concat()),
        Sheet::new(30, [cycle(&upto(10)), vec![negated(16)]].concat()),
        Sheet::new(30, [cycle(&upto(10)), vec![negated(17)]].concat()),
        // 11 alone.
        Sheet::new(24, vec![negated(16)]),
        Sheet::new(24, vec![negated(17)]),
        Sheet::new(24, [cycle(&upto(4)), vec![negated(24)]].concat()),
    ]
}

/// Sheets that the hub takes.
fn within() -> Vec<Sheet> {
    let facts = (0..24).map(|atom| rule(atom, &[], &[])).collect();
    let mut sheets = vec![
        Sheet::default(),
        sheet_a(),
        Sheet::new(24, facts),
        with_fresh(),
        Sheet::new(24, vec![rule(23, &upto(24), &upto(24)); 4]),
    ];
    sheets.extend(choices::small().into_iter().step_by(3));
    sheets
}

/// Four components of four atoms, in which six rules are choice rules, and two atoms more: 24 with the fresh ones.
fn with_fresh() -> Sheet {
    let mut sheet = complete_components(4, 4);
    sheet.atoms = 18;
    sheet.records.extend([rule(0, &[], &[17]), rule(17, &[], &[16]), constraint(&[3], &[16])]);
    let rest = sheet.records.split_off(6);
    sheet.records = [chosen(sheet.records), rest].concat();
    sheet
}

/// Around 96 and 640 entries; in two bytes 352 is 1 and 96.
fn numbers_of_entries(cases: &mut Cases, random: &mut Random, sheet: &Sheet) {
    let default = Graph::new(sheet).default_sequence();
    let atoms = sheet.all_atoms() as u8;
    for number in [95, 96, 97, 98, 255, 256, 257, 352, 639, 640, 641] {
        let passing = if number >= default.len() { padded(&default, number) } else { default[..number].to_vec() };
        // It lacks every chain but one.
        let lacking = vec![atoms - 1; number];
        for entries in [passing, lacking] {
            ask_pair(cases, random, sheet, &sequence_bytes(&entries));
        }
    }
    for number in [96, 97, 640] {
        for place in [0, 95, 96, 97, 639] {
            let mut entries = padded(&default, number.max(default.len()));
            if let Some(entry) = entries.get_mut(place) {
                *entry = *random.pick(&[atoms, 255]);
                ask_pair(cases, random, sheet, &sequence_bytes(&entries));
            }
        }
    }
}

/// Malformed sequences: with a sheet that is too large, with one that is not, and of too many entries.
fn malformed_sequences(cases: &mut Cases, random: &mut Random) {
    let sheets = [Sheet::new(25, vec![]), Sheet::new(5, cycle(&upto(5))), Sheet::new(11, cycle(&upto(11))), sheet_a()];
    for sheet in sheets {
        let default = Graph::new(&sheet).default_sequence();
        for entries in [default.clone(), padded(&default, default.len().max(HUB.entries + 1))] {
            for sequence in malformed(sheet.atoms, &entries) {
                ask(cases, Call::new(*random.pick(&WITH_SEQUENCE), &sheet.bytes()).sequence(&sequence));
            }
            ask_pair(cases, random, &sheet, &sequence_bytes(&entries));
        }
        ask_pair(cases, random, &sheet, &sequence_bytes(&padded(&default, OFFICE.entries + 1)));
    }
}

/// Rounds of a complete component: the missing chain has one atom more than there are rounds.
fn rounds(cases: &mut Cases) {
    for size in 2..=5 {
        let sheet = complete_components(1, size).bytes();
        for number in 0..=size {
            let sequence = sequence_bytes(&upto(size).repeat(number.into()));
            ask_rooms(cases, Call::new(Operation::Missing, &sheet).sequence(&sequence));
        }
    }
}

/// The longest outputs of the hub, but for the missing chain.
fn longest(cases: &mut Cases) {
    let all = upto(24);
    let text = Sheet::new(24, vec![rule(23, &all, &all); 128]);
    ask_rooms(cases, Call::new(Operation::Lparse, &text.bytes()));
    ask_rooms(cases, Call::new(Operation::Default, &complete_components(6, 4).bytes()));
    // One of the rules lacks its head, so that the copies keep rules.
    let words = Sheet::new(24, [vec![rule(0, &all[1..], &all)], vec![rule(0, &all, &all); 127]].concat());
    let sequence = sequence_bytes(&[&[0; 73][..], &all[1..]].concat());
    for operation in [Operation::Unfolded, Operation::Clauses] {
        ask_rooms(cases, Call::new(operation, &words.bytes()).sequence(&sequence));
    }
}
