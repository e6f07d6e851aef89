//! Sequences for a sheet: passing ones, nearly passing ones, malformed ones.

use crate::inputs::{flip_bit, truncate};
use crate::limits::{HUB, OFFICE};
use crate::random::Random;
use crate::reference::{all_found, Graph};
use crate::sheet::{sequence_bytes, Sheet};

/// The components' parts of the default sequence, mixed at random; each part keeps its order.
pub fn mixed(random: &mut Random, graph: &Graph) -> Vec<u8> {
    let mut places: Vec<u8> = graph.default_sequence();
    let entries = places.clone();
    random.shuffle(&mut places);
    let mut parts: Vec<Vec<u8>> = vec![Vec::new(); graph.atoms().count()];
    for &entry in entries.iter().rev() {
        parts[usize::from(graph.smallest(entry))].push(entry);
    }
    places
        .iter()
        .map(|&atom| parts[usize::from(graph.smallest(atom))].pop().expect("as many entries as places"))
        .collect()
}

/// Every component of k atoms k times over, each time in another order.
pub fn reordered(random: &mut Random, graph: &Graph) -> Vec<u8> {
    let mut entries = Vec::new();
    for component in graph.components() {
        let mut round: Vec<u8> = component.iter().copied().collect();
        for _ in 0..component.len() {
            random.shuffle(&mut round);
            entries.extend(&round);
        }
    }
    entries
}

/// A passing sequence with every component of k atoms k times over.
fn whole(random: &mut Random, graph: &Graph) -> Vec<u8> {
    match random.below(4) {
        0..=1 => graph.default_sequence(),
        2 => mixed(random, graph),
        _ => reordered(random, graph),
    }
}

/// A passing sequence, often one from which no entry can be left out.
pub fn passing(random: &mut Random, graph: &Graph) -> Vec<u8> {
    let entries = whole(random, graph);
    if random.one_in(2) {
        minimal(random, graph, &entries)
    } else {
        entries
    }
}

/// A passing sequence from which no entry can be left out.
pub fn minimal(random: &mut Random, graph: &Graph, entries: &[u8]) -> Vec<u8> {
    let mut order: Vec<usize> = (0..entries.len()).collect();
    random.shuffle(&mut order);
    let mut kept = vec![true; entries.len()];
    for place in order {
        kept[place] = false;
        kept[place] = !all_found(graph, &select(entries, &kept));
    }
    select(entries, &kept)
}

fn select(entries: &[u8], kept: &[bool]) -> Vec<u8> {
    entries.iter().zip(kept).filter(|(_, &kept)| kept).map(|(&entry, _)| entry).collect()
}

/// The entries with one left out.
pub fn without(entries: &[u8], place: usize) -> Vec<u8> {
    [&entries[..place], &entries[place + 1..]].concat()
}

/// A passing sequence without up to half of its entries, in which every atom still stands.
pub fn thinned(random: &mut Random, graph: &Graph) -> Vec<u8> {
    let mut entries = if random.one_in(2) { mixed(random, graph) } else { reordered(random, graph) };
    for _ in 0..random.between(0, entries.len() / 2) {
        let shorter = without(&entries, random.below(entries.len()));
        if graph.atoms().all(|atom| shorter.contains(&atom)) {
            entries = shorter;
        }
    }
    entries
}

/// So many entries inserted at random places, fresh atoms among them, but no more than make the most entries in all.
pub fn lengthened(random: &mut Random, graph: &Graph, entries: &[u8], number: usize, most: usize) -> Vec<u8> {
    let atoms: Vec<u8> = graph.atoms().collect();
    let mut longer = entries.to_vec();
    for _ in 0..number.min(most - entries.len()) {
        if !atoms.is_empty() {
            longer.insert(random.between(0, longer.len()), *random.pick(&atoms));
        }
    }
    longer
}

/// The first entry repeated in front until there are so many entries; this adds no chain.
pub fn padded(entries: &[u8], number: usize) -> Vec<u8> {
    [vec![entries[0]; number - entries.len()], entries.to_vec()].concat()
}

/// A few atoms over and over in front of the entries: as they lack the others, many of their copies keep no rule.
pub fn delayed(random: &mut Random, graph: &Graph, entries: &[u8], number: usize) -> Vec<u8> {
    let mut few = random.some_of(&graph.atoms().collect::<Vec<_>>(), 4);
    random.shuffle(&mut few);
    let front = few.iter().cycle().take(number.min(OFFICE.entries - entries.len()));
    front.chain(entries).copied().collect()
}

/// Every way to be malformed, for entries that are well formed.
pub fn malformed(atoms: u8, entries: &[u8]) -> Vec<Vec<u8>> {
    let bytes = sequence_bytes(entries);
    let changed = |place: usize, value: u8| {
        let mut changed = bytes.clone();
        changed[place] = value;
        changed
    };
    let with_entry = |entry: u8| sequence_bytes(&[entries, &[entry]].concat());
    let mut long = sequence_bytes(&vec![0; OFFICE.entries + 1]);
    let mut all = vec![
        vec![],
        vec![1],
        vec![1, 0],
        changed(0, 0),
        changed(0, 2),
        changed(0, 255),
        changed(1, 1),
        changed(2, bytes[2].wrapping_add(1)),
        changed(2, bytes[2].wrapping_sub(1)),
        bytes[..bytes.len() - 1].to_vec(),
        [&bytes[..], &[0]].concat(),
        with_entry(atoms),
        with_entry(255),
        sequence_bytes(&[&[atoms], entries].concat()),
        vec![1, 255, 255],
        vec![1, 2, 129],
    ];
    if atoms > 0 {
        all.push(long.clone());
        long.pop();
        all.push(long);
    }
    all
}

/// The entries without the fresh atoms, or with only some of them.
pub fn without_fresh(random: &mut Random, sheet: &Sheet, entries: &[u8]) -> Vec<u8> {
    let none = random.one_in(2);
    entries.iter().copied().filter(|&entry| entry < sheet.atoms || !none && random.one_in(2)).collect()
}

/// About as many entries as the hub or the format takes, or as one byte can say. They may lack a chain, and one of them may be no
/// atom.
pub fn nearly_too_many(random: &mut Random, graph: &Graph) -> Vec<u8> {
    let most = *random.pick(&[HUB.entries, HUB.entries, 256, OFFICE.entries]);
    let number = random.between(most - 1, most + 2);
    let atoms: Vec<u8> = graph.atoms().collect();
    let mut entries = if random.one_in(4) { thinned(random, graph) } else { mixed(random, graph) };
    while !atoms.is_empty() && entries.len() < number {
        entries.insert(random.between(0, entries.len()), *random.pick(&atoms));
    }
    if !entries.is_empty() && random.one_in(5) {
        let place = random.below(entries.len());
        entries[place] = *random.pick(&[atoms.len() as u8, 255]);
    }
    entries
}

/// A sequence of any sort, as bytes.
pub fn any_sequence(random: &mut Random, sheet: &Sheet) -> Vec<u8> {
    let graph = &Graph::new(sheet);
    let mut entries = whole(random, graph);
    match random.below(12) {
        0..=2 => {}
        3 if entries.len() <= 30 => entries = minimal(random, graph, &entries),
        4 if !entries.is_empty() => entries = without(&entries, random.below(entries.len())),
        5 if !entries.is_empty() && entries.len() <= 30 => {
            entries = minimal(random, graph, &entries);
            entries = without(&entries, random.below(entries.len()));
        }
        6 => random.shuffle(&mut entries),
        7 => return random.pick(&malformed(graph.atoms().count() as u8, &entries)).clone(),
        8 => return damaged(random, &entries),
        9 => entries = without_fresh(random, sheet, &entries),
        10 => {
            let number = *random.pick(&[1, 5, 20, 100]);
            entries = delayed(random, graph, &entries, number);
        }
        _ => {
            let number = random.between(1, 20);
            entries = lengthened(random, graph, &entries, number, OFFICE.entries);
        }
    }
    sequence_bytes(&entries)
}

fn damaged(random: &mut Random, entries: &[u8]) -> Vec<u8> {
    let mut bytes = sequence_bytes(entries);
    match random.below(3) {
        0 => flip_bit(random, &mut bytes),
        1 => truncate(random, &mut bytes),
        _ => bytes.push(random.byte()),
    }
    bytes
}
