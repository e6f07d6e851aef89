//! The sheets that are measured.

use rulesheet_tests::inputs::{add_pairs, cycle, Style};
use rulesheet_tests::random::Random;
use rulesheet_tests::sheet::{choice, constraint, rule, Record, Sheet, CHOICE};

const SEED: u64 = 1;

/// Rules for the first atoms in turn, each with every atom in both lists: those atoms are one component. As every rule names its
/// own head, no copy of them keeps a rule.
pub fn full(atoms: u8, heads: u8, rules: u8) -> Sheet {
    let all: Vec<u8> = (0..atoms).collect();
    Sheet::new(atoms, (0..rules).map(|place| rule(place % heads, &all, &all)).collect())
}

/// Rules for one of 64 atoms, each with every atom in both lists.
pub fn full_for(head: u8, rules: usize) -> Sheet {
    let all: Vec<u8> = (0..64).collect();
    Sheet::new(64, vec![rule(head, &all, &all); rules])
}

/// Two rules for each of 64 atoms, with one positive atom, the one before it, and one negative one.
pub fn short_rules() -> Sheet {
    let short = |place: u8| rule(place / 2, &[(place / 2).saturating_sub(1)], &[place % 64]);
    Sheet::new(64, (0..128).map(short).collect())
}

/// The sheet without the positive atoms of its first rules, one for each of so many heads: so their copies keep rules.
pub fn entered(mut sheet: Sheet, heads: usize) -> Sheet {
    sheet.records.iter_mut().take(heads).for_each(|record| record.positives.clear());
    sheet
}

/// A component of eight, where 56 of the 128 records are choice rules: 64 atoms with the fresh ones.
pub fn many_choices() -> Sheet {
    let mut sheet = entered(full(8, 8, 128), 8);
    sheet.records.iter_mut().take(56).for_each(|record| record.kind = CHOICE);
    sheet
}

/// Six complete components of ten atoms: each rule has every atom that comes before its component, those of the
/// component, and every atom negated; the first rule of each atom has negated ones only.
pub fn six_components() -> Sheet {
    let all: Vec<u8> = (0..60).collect();
    let earlier = |head: u8| &all[..usize::from(head / 10 * 10 + 10)];
    let rules = (0..128).map(|place| place % 60).map(|head| rule(head, earlier(head), &all));
    entered(Sheet::new(60, rules.collect()), 60)
}

/// Six cycles of ten atoms: each atom holds if the next does, and the last is a fact. Along the default sequence each round
/// brings one atom more whose copies keep a rule.
pub fn late_cycles() -> Sheet {
    let block = |first: u8| {
        let falling: Vec<u8> = (first..first + 10).rev().collect();
        [cycle(&falling), vec![rule(first + 9, &[], &[])]].concat()
    };
    Sheet::new(60, (0..6).flat_map(|place| block(place * 10)).collect())
}

/// Rules for atom 0 with nearly every atom in both lists. One is 63, of the same component: it keeps no rule before 62 has a
/// copy.
pub fn late() -> Sheet {
    let mut sheet = full(64, 1, 125);
    sheet.records.iter_mut().for_each(|record| record.positives.retain(|atom| ![0, 62].contains(atom)));
    sheet.records.extend([rule(63, &[62], &[]), rule(62, &[0], &[]), rule(62, &[], &[])]);
    sheet
}

/// Rules for atom 0 with every atom in both lists, but that one of them lacks its head: so the copies keep rules.
pub fn longest(atoms: u8) -> Sheet {
    let mut sheet = full(atoms, 1, 128);
    sheet.records[0].positives.remove(0);
    sheet
}

/// Families of sheets for the count.
pub fn families() -> Vec<(&'static str, Vec<Sheet>)> {
    let mut random = Random::new(SEED);
    let mut shuffled = last_decides();
    random.shuffle(&mut shuffled);
    vec![
        ("empty", vec![Sheet::default()]),
        ("random", (0..20).map(|_| random_sheet(&mut random)).collect()),
        ("8 even loops", vec![even_loops()]),
        ("chain of 64", vec![Sheet::new(64, chain())]),
        ("chain of 64, reverse", vec![Sheet::new(64, reverse(chain()))]),
        ("8 positive loops of 2", vec![positive_loops(2)]),
        ("8 positive loops of 7", vec![positive_loops(7)]),
        ("last of 16 decides", vec![Sheet::new(64, twice(last_decides()))]),
        ("first of 16 decides", vec![Sheet::new(64, twice(exchanged(last_decides(), 0, 15)))]),
        ("last of 16 decides, shuffled", vec![Sheet::new(64, twice(shuffled))]),
        ("last of 16 decides, reverse", vec![Sheet::new(64, twice(reverse(last_decides())))]),
        ("last of 16 decides, 4 cycles of 10, reverse", vec![Sheet::new(64, twice(reverse(last_decides_by_cycles())))]),
        ("last of 16 decides, 100 idle rules", vec![Sheet::new(64, last_decides_idle())]),
        ("last of 16 decides, others heavier", vec![Sheet::new(64, twice(last_decides_light()))]),
        ("last of 16 decides, others heavier, 68 idle rules", vec![Sheet::new(64, last_decides_light_idle())]),
        ("worst found", vec![Sheet::new(64, hard())]),
        ("8 free heads", vec![free_heads(8)]),
        ("12 free heads", vec![free_heads(12)]),
        ("16 free heads", vec![free_heads(16)]),
        ("16 free heads, constraints leave one state", vec![one_left()]),
    ]
}

/// Atoms that may be in or out, whatever the others are.
pub fn free_heads(number: u8) -> Sheet {
    Sheet::new(number, (0..number).map(|head| choice(head, &[], &[])).collect())
}

/// Sixteen of them, of which the first is in, and each other just when the one before it is out.
fn one_left() -> Sheet {
    let mut sheet = free_heads(16);
    sheet.records.push(constraint(&[], &[0]));
    sheet
        .records
        .extend((1..16).flat_map(|atom| [constraint(&[atom - 1, atom], &[]), constraint(&[], &[atom - 1, atom])]));
    sheet
}

fn random_sheet(random: &mut Random) -> Sheet {
    let style = Style { atoms: 64, records: 120, component: 10, negated: 10, body: 4 };
    let mut sheet = style.sheet(random);
    add_pairs(random, &mut sheet);
    sheet
}

fn even_loop(a: u8, b: u8) -> [Record; 2] {
    [rule(a, &[], &[b]), rule(b, &[], &[a])]
}

fn even_loops() -> Sheet {
    Sheet::new(16, (0..8).flat_map(|pair| even_loop(2 * pair, 2 * pair + 1)).collect())
}

fn chain() -> Vec<Record> {
    let links = (1..64).map(|atom| rule(atom, &[atom - 1], &[]));
    [rule(0, &[], &[])].into_iter().chain(links).collect()
}

/// Eight positive loops of so many atoms, each with an atom that holds if the loop does not.
fn positive_loops(size: u8) -> Sheet {
    let looped = |first: u8| {
        let atoms: Vec<u8> = (first..first + size).collect();
        cycle(&atoms).into_iter().chain(even_loop(first, first + size))
    };
    Sheet::new(8 * (size + 1), (0..8).flat_map(|place| looped(place * (size + 1))).collect())
}

/// Atoms 0 to 15 are negated, and only 15 decides anything: without it a chain holds, from 16 to 63 and on from 0 to 14.
/// Passes in sheet order would take the most turns where it is written in reverse.
fn last_decides() -> Vec<Record> {
    let others: Vec<u8> = (0..15).collect();
    let order: Vec<u8> = (16..64).chain(0..15).collect();
    let links = order.windows(2).map(|pair| rule(pair[1], &[pair[0]], &[]));
    [rule(15, &[], &others), rule(16, &[], &[15])].into_iter().chain(links).collect()
}

/// The same, where the chain goes through four cycles of ten atoms.
fn last_decides_by_cycles() -> Vec<Record> {
    let mut records = last_decides();
    records.truncate(2);
    let order: Vec<u8> = (16..56).chain(0..15).collect();
    records.extend(order.windows(2).map(|pair| rule(pair[1], &[pair[0]], &[])));
    records.extend((16..56).step_by(10).map(|first| rule(first, &[first + 9], &[])));
    records
}

/// The same with one component of ten atoms: each that is derived brings passes back to the first of many rules that never apply.
fn last_decides_idle() -> Vec<Record> {
    let component: Vec<u8> = (16..26).collect();
    let mut records = vec![rule(16, &component, &[])];
    records.extend((0..100).map(|place| rule(25, &[16 + place % 10, 26], &[])));
    records.extend((17..26).rev().map(|atom| rule(atom, &[atom - 1], &[])));
    records.extend([rule(15, &[], &(0..15).collect::<Vec<u8>>()), rule(16, &[], &[15])]);
    records.extend((0..15).map(|atom| rule(atom, &[25], &[])));
    records
}

/// Only 15 decides anything, as before, but more atoms hang on the others, by rules that never apply.
fn last_decides_light() -> Vec<Record> {
    let others: Vec<u8> = (0..15).collect();
    let mut records = vec![rule(15, &[], &others), rule(17, &[16], &others)];
    records.extend(others.iter().map(|&atom| rule(atom, &[], &[15])));
    records.extend((17..63).map(|atom| rule(atom + 1, &[atom], &[])));
    records
}

/// Both: the idle rules of the component, and more atoms that hang on the others.
fn last_decides_light_idle() -> Vec<Record> {
    let others: Vec<u8> = (0..15).collect();
    let mut records = last_decides_idle();
    records.drain(1..33);
    records.push(rule(31, &[30], &others));
    records.extend((31..63).map(|atom| rule(atom + 1, &[atom], &[])));
    records
}

/// The worst sheet found by a search: few decisions settle others. A line has a head, positive atoms and negative atoms.
fn hard() -> Vec<Record> {
    let atoms = |list: &str| list.split_whitespace().map(|atom| atom.parse().expect("an atom")).collect::<Vec<u8>>();
    let record = |line: &str| {
        let lists: Vec<Vec<u8>> = line.split(':').map(atoms).collect();
        rule(lists[0][0], &lists[1], &lists[2])
    };
    include_str!("hard.txt").lines().map(record).collect()
}

/// The records with two atoms exchanged.
fn exchanged(records: Vec<Record>, a: u8, b: u8) -> Vec<Record> {
    let other = |atom: u8| match atom {
        atom if atom == a => b,
        atom if atom == b => a,
        atom => atom,
    };
    let list = |atoms: &[u8]| {
        let mut atoms: Vec<u8> = atoms.iter().copied().map(other).collect();
        atoms.sort_unstable();
        atoms
    };
    records.iter().map(|record| rule(other(record.head), &list(&record.positives), &list(&record.negatives))).collect()
}

fn reverse(mut records: Vec<Record>) -> Vec<Record> {
    records.reverse();
    records
}

/// Each record twice in a row.
fn twice(records: Vec<Record>) -> Vec<Record> {
    records.into_iter().flat_map(|record| [record.clone(), record]).collect()
}
