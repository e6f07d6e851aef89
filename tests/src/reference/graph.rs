//! The positive dependency graph and its strongly connected components.

use super::expanded;
use crate::sheet::Sheet;
use std::collections::BTreeSet;

pub struct Graph {
    /// For each atom b, the atoms a with an edge from b to a.
    successors: Vec<BTreeSet<u8>>,
    /// For each atom, the atoms of its component.
    components: Vec<BTreeSet<u8>>,
}

impl Graph {
    /// The graph of all atoms, fresh ones included.
    pub fn new(sheet: &Sheet) -> Graph {
        let sheet = expanded(sheet);
        let mut successors = vec![BTreeSet::new(); sheet.atoms.into()];
        for rule in sheet.rules() {
            for &positive in &rule.positives {
                successors[usize::from(positive)].insert(rule.head);
            }
        }
        let reach: Vec<_> = (0..sheet.atoms).map(|atom| reachable(&successors, atom)).collect();
        let mutual = |a: u8, b: u8| reach[usize::from(a)].contains(&b) && reach[usize::from(b)].contains(&a);
        let components = (0..sheet.atoms).map(|a| (0..sheet.atoms).filter(|&b| mutual(a, b)).collect()).collect();
        Graph { successors, components }
    }

    pub fn successors(&self, atom: u8) -> &BTreeSet<u8> {
        &self.successors[usize::from(atom)]
    }

    pub fn component(&self, atom: u8) -> &BTreeSet<u8> {
        &self.components[usize::from(atom)]
    }

    /// The smallest atom of an atom's component.
    pub fn smallest(&self, atom: u8) -> u8 {
        *self.component(atom).first().expect("an atom is in its component")
    }

    pub fn atoms(&self) -> impl Iterator<Item = u8> {
        0..self.components.len() as u8
    }

    /// Every component once, by its smallest atom.
    pub fn components(&self) -> impl Iterator<Item = &BTreeSet<u8>> {
        self.atoms().filter(|&atom| self.smallest(atom) == atom).map(|atom| self.component(atom))
    }

    /// Every component of k atoms, rising, k times over.
    pub fn default_sequence(&self) -> Vec<u8> {
        self.components()
            .flat_map(|component| component.iter().copied().collect::<Vec<_>>().repeat(component.len()))
            .collect()
    }
}

/// The atoms that can be reached over edges, the start included.
fn reachable(successors: &[BTreeSet<u8>], start: u8) -> BTreeSet<u8> {
    let mut reached = BTreeSet::from([start]);
    let mut waiting = vec![start];
    while let Some(atom) = waiting.pop() {
        for &next in &successors[usize::from(atom)] {
            if reached.insert(next) {
                waiting.push(next);
            }
        }
    }
    reached
}
