//! Sheets of many shapes, and damaged ones.

use crate::limits::{HUB, MOST_RECORDS, OFFICE};
use crate::random::Random;
use crate::sheet::{choice, constraint, rule, set_length, Record, Sheet, CHOICE, RULE};

/// The atoms below n.
pub fn upto(n: u8) -> Vec<u8> {
    (0..n).collect()
}

/// The example of the service's description.
pub fn sheet_a() -> Sheet {
    Sheet::new(3, vec![rule(0, &[1], &[]), rule(1, &[0], &[]), rule(0, &[], &[2]), rule(2, &[], &[0])])
}

/// Rules over a set of atoms whose positive graph is strongly connected.
#[derive(Clone, Copy, Debug)]
pub enum Shape {
    /// Each atom has an edge to the next, the last one to the first.
    Cycle,
    /// Each atom has an edge to every other; one rule a head.
    Complete,
    /// The same, one rule an edge.
    CompleteSplit,
    /// A path with its edges both ways.
    Path,
    /// The first atom has edges to and from each other atom.
    Star,
    /// A cycle with further edges, some by rules with several positive atoms.
    Tangle,
}

impl Shape {
    pub const ALL: [Shape; 6] =
        [Shape::Cycle, Shape::Complete, Shape::CompleteSplit, Shape::Path, Shape::Star, Shape::Tangle];

    pub fn rules(self, random: &mut Random, atoms: &[u8]) -> Vec<Record> {
        match self {
            Shape::Cycle => cycle(atoms),
            Shape::Complete => complete(atoms),
            Shape::CompleteSplit => {
                let edges = |&head: &u8| others(atoms, head).into_iter().map(move |other| rule(head, &[other], &[]));
                atoms.iter().flat_map(edges).collect()
            }
            Shape::Path => atoms.windows(2).flat_map(|pair| both_ways(pair[0], pair[1])).collect(),
            Shape::Star => atoms[1..].iter().flat_map(|&atom| both_ways(atoms[0], atom)).collect(),
            Shape::Tangle => tangle(random, atoms),
        }
    }
}

pub fn cycle(atoms: &[u8]) -> Vec<Record> {
    let next = atoms.iter().cycle().skip(1);
    atoms.iter().zip(next).map(|(&atom, &next)| rule(next, &[atom], &[])).collect()
}

/// Each atom if every other.
pub fn complete(atoms: &[u8]) -> Vec<Record> {
    atoms.iter().map(|&head| rule(head, &others(atoms, head), &[])).collect()
}

/// So many complete components of a size, side by side.
pub fn complete_components(number: u8, size: u8) -> Sheet {
    let block = |place: u8| (place * size..(place + 1) * size).collect::<Vec<u8>>();
    Sheet::new(number * size, (0..number).flat_map(|place| complete(&block(place))).collect())
}

fn both_ways(a: u8, b: u8) -> [Record; 2] {
    [rule(a, &[b], &[]), rule(b, &[a], &[])]
}

fn tangle(random: &mut Random, atoms: &[u8]) -> Vec<Record> {
    let mut rules = cycle(atoms);
    for _ in 0..random.between(1, 2 * atoms.len()) {
        let head = *random.pick(atoms);
        let positives = random.some_of(atoms, 3);
        let negatives = random.some_of(atoms, 1);
        rules.push(rule(head, &positives, &negatives));
    }
    rules
}

/// The atoms without one, rising.
fn others(atoms: &[u8], without: u8) -> Vec<u8> {
    let mut others: Vec<u8> = atoms.iter().copied().filter(|&atom| atom != without).collect();
    others.sort_unstable();
    others
}

/// The atoms with one, rising.
fn with(atoms: &[u8], atom: u8) -> Vec<u8> {
    let mut list = [others(atoms, atom), vec![atom]].concat();
    list.sort_unstable();
    list
}

/// So many of the atoms below n, in random order.
pub fn choose(random: &mut Random, n: usize, number: usize) -> Vec<u8> {
    let mut atoms = upto(n as u8);
    random.shuffle(&mut atoms);
    atoms.truncate(number);
    atoms
}

/// A sheet with a component of one shape and size, and some atoms before it, behind it and beside it.
pub fn connected(random: &mut Random, shape: Shape, size: usize) -> Sheet {
    let n = size + random.between(0, 3);
    let atoms = choose(random, n, n);
    let (inside, outside) = atoms.split_at(size);
    let mut records = shape.rules(random, inside);
    for &atom in outside {
        let inner = *random.pick(inside);
        match random.below(4) {
            0 => records.push(rule(inner, &[atom], &[])),
            1 => records.push(rule(atom, &[inner], &[])),
            2 => records.push(rule(atom, &[atom], &[])),
            _ => records.push(rule(atom, &[], &[])),
        }
    }
    random.shuffle(&mut records);
    Sheet::new(n as u8, records)
}

/// A sheet with a component of one shape and few ways into it, so that many copies keep no rule, for some time or for
/// ever. Of two atoms outside, one has no rule, and one has a rule that reads itself alone.
pub fn barely_entered(random: &mut Random, shape: Shape, size: usize) -> Sheet {
    let atoms = choose(random, size + 2, size + 2);
    let (inside, outside) = atoms.split_at(size);
    let mut records = shape.rules(random, inside);
    for record in &mut records {
        if random.one_in(6) {
            record.positives = with(&record.positives, *random.pick(inside));
        }
        if random.one_in(6) {
            record.kind = CHOICE;
        }
    }
    for _ in 0..random.between(0, 3) {
        let inner = *random.pick(inside);
        records.push(match random.below(6) {
            0 => rule(inner, &[], &[]),
            1 => rule(inner, &[], &random.some_of(&atoms, 2)),
            2 => choice(inner, &[], &[]),
            // No copy of an atom outside keeps a rule, but that drops none.
            3 => rule(inner, &[*random.pick(outside)], &[]),
            // This is no way in.
            4 => rule(inner, &[inner], &[]),
            _ => choice(inner, &random.some_of(inside, 2), &random.some_of(&atoms, 1)),
        });
    }
    records.push(rule(outside[0], &[outside[0]], &[]));
    records.push(constraint(&random.some_of(&atoms, 2), &random.some_of(&atoms, 1)));
    random.shuffle(&mut records);
    Sheet::new(atoms.len() as u8, records)
}

/// Bounds for a random sheet.
#[derive(Clone, Copy, Debug)]
pub struct Style {
    pub atoms: usize,
    pub records: usize,
    /// The largest component.
    pub component: usize,
    /// How many different atoms may be negated in rules.
    pub negated: usize,
    /// The longest list in a body.
    pub body: usize,
}

impl Style {
    pub fn any(random: &mut Random) -> Style {
        match random.below(8) {
            0..=3 => Style { atoms: 6, records: 10, component: 4, negated: 6, body: 2 },
            4..=5 => Style { atoms: 12, records: 24, component: 6, negated: 8, body: 3 },
            6 => Style { atoms: 30, records: 60, component: 10, negated: 10, body: 4 },
            _ => Style { atoms: 64, records: 128, component: 10, negated: 20, body: 6 },
        }
    }

    /// A sheet whose components are within the bound: the atoms fall into groups, and the positive atoms of a rule
    /// are of its head's group or of an earlier one.
    pub fn sheet(&self, random: &mut Random) -> Sheet {
        let n = random.between(0, self.atoms);
        let atoms = choose(random, n, n);
        let groups = groups(random, &atoms, self.component);
        let negatable = choose(random, n, self.negated);
        let number = random.between(0, self.records);
        let mut records = Vec::new();
        for _ in 0..number {
            if groups.is_empty() || random.one_in(7) {
                records.push(self.constraint(random, n));
            } else {
                let place = random.below(groups.len());
                records.push(self.rule(random, &groups[..=place], &negatable));
            }
        }
        Sheet::new(n as u8, records)
    }

    fn constraint(&self, random: &mut Random, n: usize) -> Record {
        let atoms = upto(n as u8);
        constraint(&random.some_of(&atoms, self.body), &random.some_of(&atoms, self.body))
    }

    /// A rule with its head in the last group.
    fn rule(&self, random: &mut Random, groups: &[Vec<u8>], negatable: &[u8]) -> Record {
        let (group, earlier) = groups.split_last().expect("a group");
        let own = random.some_of(group, self.body.div_ceil(2));
        let other = random.some_of(&earlier.concat(), self.body / 2);
        let mut positives = [own, other].concat();
        positives.sort_unstable();
        rule(*random.pick(group), &positives, &random.some_of(negatable, self.body))
    }
}

/// The atoms in groups of at most `largest`.
fn groups(random: &mut Random, atoms: &[u8], largest: usize) -> Vec<Vec<u8>> {
    let mut groups = Vec::new();
    let mut rest = atoms;
    while !rest.is_empty() {
        let (group, after) = rest.split_at(random.between(1, largest.min(rest.len())));
        groups.push(group.to_vec());
        rest = after;
    }
    groups
}

/// A sheet of any shape.
pub fn any_sheet(random: &mut Random) -> Sheet {
    let shape = *random.pick(&Shape::ALL);
    let size = random.between(2, 11);
    let mut sheet = match random.below(8) {
        0..=1 => connected(random, shape, size),
        2..=3 => barely_entered(random, shape, size),
        _ => Style::any(random).sheet(random),
    };
    if random.one_in(3) {
        add_pairs(random, &mut sheet);
    }
    if random.one_in(2) {
        add_choices(random, &mut sheet);
    }
    if random.one_in(8) {
        fill_with_atoms(random, &mut sheet, OFFICE.atoms);
    }
    if random.one_in(100) {
        sheet = with_decided(random, 17);
    }
    sheet
}

/// A sheet about as large as the hub takes.
pub fn hub_sheet(random: &mut Random) -> Sheet {
    let shape = *random.pick(&Shape::ALL);
    let size = random.between(2, HUB.component + 1);
    let mut sheet = match random.below(5) {
        0 => connected(random, shape, size),
        1 => barely_entered(random, shape, size),
        2 => side_by_side(random),
        _ => {
            let negated = if random.one_in(10) { 20 } else { 8 };
            Style { atoms: HUB.atoms, records: 40, component: HUB.component, negated, body: 3 }.sheet(random)
        }
    };
    if random.one_in(3) {
        add_pairs(random, &mut sheet);
    }
    if random.one_in(2) {
        add_choices(random, &mut sheet);
    }
    if random.one_in(2) {
        fill_with_atoms(random, &mut sheet, HUB.atoms);
    }
    sheet
}

/// A sheet of at most ten atoms in all, with components of at most so many.
pub fn small_sheet(random: &mut Random, component: usize) -> Sheet {
    let size = random.between(component / 2, component);
    loop {
        let sheet = with_ways_in(random, size);
        if sheet.all_atoms() <= 10 {
            return sheet;
        }
    }
}

/// A sheet with components of at most so many atoms, and with facts and choice rules that lead into them.
fn with_ways_in(random: &mut Random, size: usize) -> Sheet {
    let shape = *random.pick(&Shape::ALL);
    let mut sheet = match random.below(4) {
        0 => connected(random, shape, size),
        1..=2 => barely_entered(random, shape, size),
        _ => Style { atoms: 8, records: 14, component: size, negated: 6, body: 2 }.sheet(random),
    };
    for head in random.some_of(&upto(sheet.atoms), 2) {
        let way_in = if random.one_in(3) { rule(head, &[], &[]) } else { choice(head, &[], &[]) };
        sheet.records.push(way_in);
    }
    if random.one_in(3) {
        add_pairs(random, &mut sheet);
    }
    if random.one_in(2) {
        add_choices(random, &mut sheet);
    }
    sheet
}

/// Five or six components of four atoms, of which one may have five. With six the default sequence has 96 entries or a few more.
fn side_by_side(random: &mut Random) -> Sheet {
    let number = random.between(5, 6);
    let mut sizes = vec![HUB.component; number];
    sizes[random.below(number)] += usize::from(random.one_in(4));
    let n = sizes.iter().sum();
    let atoms = choose(random, n, n);
    let mut rest = &atoms[..];
    let mut records = Vec::new();
    for size in sizes {
        let (inside, after) = rest.split_at(size);
        records.extend(random.pick(&Shape::ALL).rules(random, inside));
        // A way in, or none.
        records.extend(random.some_of(inside, 1).iter().map(|&head| rule(head, &[], &random.some_of(&atoms, 2))));
        rest = after;
    }
    random.shuffle(&mut records);
    Sheet::new(n as u8, records)
}

/// Pairs of atoms, each of which holds if the other does not.
pub fn add_pairs(random: &mut Random, sheet: &mut Sheet) {
    let pairs = random.between(1, 3);
    for pair in choose(random, sheet.atoms.into(), 2 * pairs).chunks_exact(2) {
        if sheet.records.len() + 2 <= MOST_RECORDS {
            sheet.records.push(rule(pair[0], &[], &[pair[1]]));
            sheet.records.push(rule(pair[1], &[], &[pair[0]]));
        }
    }
    random.shuffle(&mut sheet.records);
}

/// Some rules become choice rules, which leaves the components as they are, and choice rules of certain forms are added.
pub fn add_choices(random: &mut Random, sheet: &mut Sheet) {
    let most = *random.pick(&[1, 2, 4, 8]);
    for _ in 0..random.between(1, most) {
        if let Some(record) = any_record(random, sheet).filter(|record| record.kind == RULE) {
            record.kind = CHOICE;
        }
    }
    for _ in 0..random.between(0, 2) {
        if sheet.atoms > 0 && sheet.records.len() < MOST_RECORDS {
            let added = any_choice(random, sheet);
            sheet.records.insert(random.below(sheet.records.len() + 1), added);
        }
    }
}

/// A choice rule with a form of its own.
fn any_choice(random: &mut Random, sheet: &Sheet) -> Record {
    let atoms = upto(sheet.atoms);
    let head = *random.pick(&atoms);
    let some = random.some_of(&atoms, 2);
    match random.below(6) {
        0 => choice(head, &[], &[]),
        1 => choice(head, &[], &some),
        // The head is in its own negative list, in its own positive list, in both.
        2 => choice(head, &[], &with(&some, head)),
        3 => choice(head, &[head], &some),
        4 => choice(head, &[head], &with(&some, head)),
        // A second choice rule for a head.
        _ => choice(sheet.choices().next().map_or(head, |other| other.head), &[], &some),
    }
}

/// So many atoms without rules that there are as many as are taken with the fresh ones, one less or one more, if there are not too
/// many already.
fn fill_with_atoms(random: &mut Random, sheet: &mut Sheet, most: usize) {
    let total = random.between(most - 1, most + 1);
    let atoms = total.saturating_sub(sheet.choices().count()).clamp(sheet.atoms.into(), OFFICE.atoms);
    sheet.atoms = atoms as u8;
}

/// A sheet with about so many atoms that question 11 counts: some are negated in rules or in choice rules, some are heads of
/// choice rules, some are both.
pub fn with_decided(random: &mut Random, number: usize) -> Sheet {
    let n = number + random.between(1, 4);
    let atoms = choose(random, n, n);
    let counted = &atoms[..random.between(number - 2, number)];
    let mut records = Vec::new();
    for &atom in counted {
        let head = *random.pick(&atoms);
        let other = *random.pick(counted);
        records.push(match random.below(5) {
            0 => choice(atom, &[], &[]),
            1 => choice(atom, &[], &[other]),
            2 => choice(other, &[], &[atom]),
            3 => rule(head, &[], &[atom]),
            _ => choice(atom, &[], &[atom]),
        });
    }
    for _ in 0..random.between(0, 12) {
        // Neither of these counts.
        let (positives, negatives) = (random.some_of(&atoms, 2), random.some_of(&atoms, 2));
        records.push(constraint(&positives, &negatives));
    }
    random.shuffle(&mut records);
    Sheet::new(n as u8, records)
}

fn any_record<'a>(random: &mut Random, sheet: &'a mut Sheet) -> Option<&'a mut Record> {
    let number = random.below(sheet.records.len().max(1));
    sheet.records.get_mut(number)
}

/// The bytes of a sheet with one thing changed, which may leave them valid.
pub fn damaged(random: &mut Random, sheet: &Sheet) -> Vec<u8> {
    let mut bytes = sheet.bytes();
    match random.below(9) {
        0 => flip_bit(random, &mut bytes),
        1 => *any_of(random, &mut bytes) = random.byte(),
        2 => truncate(random, &mut bytes),
        3 => {
            truncate(random, &mut bytes);
            set_length(&mut bytes);
        }
        4 => {
            bytes.push(random.byte());
            set_length(&mut bytes);
        }
        5 => bytes[random.between(0, 4)] = *random.pick(&[0, 1, 2, 3, 64, 65, 128, 129, 255]),
        6 => bytes = damaged_record(random, sheet),
        7 => bytes[2] = *random.pick(&[bytes[2].wrapping_add(1), bytes[2].wrapping_sub(1)]),
        _ => bytes = noise(random),
    }
    bytes
}

/// One field of one record changed by a little, or to a limit.
fn damaged_record(random: &mut Random, sheet: &Sheet) -> Vec<u8> {
    let mut bytes = sheet.bytes();
    if sheet.records.is_empty() {
        return bytes;
    }
    let number = random.below(sheet.records.len());
    let at = sheet.record_at(number) + random.below(sheet.records[number].length());
    let old = bytes[at];
    bytes[at] = *random.pick(&[0, 1, 2, 3, 255, sheet.atoms, old.wrapping_add(1), old.wrapping_sub(1)]);
    bytes
}

/// Random bytes, with a right header or not.
fn noise(random: &mut Random) -> Vec<u8> {
    let mut bytes: Vec<u8> = (0..random.between(0, 30)).map(|_| random.byte()).collect();
    if random.one_in(2) && bytes.len() >= 5 {
        bytes[0] = 1;
        set_length(&mut bytes);
        bytes[3] %= 66;
        bytes[4] %= 4;
    }
    bytes
}

pub fn flip_bit(random: &mut Random, bytes: &mut [u8]) {
    *any_of(random, bytes) ^= 1 << random.below(8);
}

pub fn truncate(random: &mut Random, bytes: &mut Vec<u8>) {
    let length = random.below(bytes.len() + 1);
    bytes.truncate(length);
}

fn any_of<'a>(random: &mut Random, bytes: &'a mut [u8]) -> &'a mut u8 {
    let place = random.below(bytes.len());
    &mut bytes[place]
}
