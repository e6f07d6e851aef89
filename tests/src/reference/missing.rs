//! The shortest chains that a sequence lacks, by listing chains: by their length, and those of a length by their atoms.

use super::Graph;

/// The first chain in that list that is not found in the entries.
pub fn first_missing(graph: &Graph, entries: &[u8]) -> Option<Vec<u8>> {
    shortest_missing(graph, entries, 1).pop()
}

/// All chains that are not found of the least length that has one, by their atoms, but at most so many.
pub fn shortest_missing(graph: &Graph, entries: &[u8], most: usize) -> Vec<Vec<u8>> {
    let longest = graph.components().map(|component| component.len()).max().unwrap_or(0);
    let mut lists = (1..=longest).map(|length| missing_of_length(graph, entries, length, most));
    lists.find(|chains| !chains.is_empty()).unwrap_or_default()
}

fn missing_of_length(graph: &Graph, entries: &[u8], length: usize, most: usize) -> Vec<Vec<u8>> {
    let inside = |atom| graph.successors(atom).intersection(graph.component(atom)).copied().collect();
    let successors: Vec<Vec<u8>> = graph.atoms().map(inside).collect();
    let mut list = List { successors: &successors, entries, length, most, chain: Vec::new(), missing: Vec::new() };
    graph.atoms().for_each(|atom| list.extend(atom, 0, Some(0)));
    list.missing
}

struct List<'a> {
    /// For each atom, those of its component that it has an edge to, rising.
    successors: &'a [Vec<u8>],
    entries: &'a [u8],
    length: usize,
    most: usize,
    chain: Vec<u8>,
    missing: Vec<Vec<u8>>,
}

impl List<'_> {
    /// Goes through the chains of the length that start with `chain` and `next`. The atoms of `chain` are `used`; it is found
    /// first in the entries before `start`, or not at all.
    fn extend(&mut self, next: u8, used: u64, start: Option<usize>) {
        if self.missing.len() == self.most || used >> next & 1 == 1 {
            return;
        }
        let end = start.and_then(|start| self.place_behind(next, start));
        self.chain.push(next);
        if self.chain.len() < self.length {
            let successors = self.successors;
            successors[usize::from(next)].iter().for_each(|&atom| self.extend(atom, used | 1 << next, end));
        } else if end.is_none() {
            self.missing.push(self.chain.clone());
        }
        self.chain.pop();
    }

    /// The place behind the first entry from `start` on that is the atom.
    fn place_behind(&self, atom: u8, start: usize) -> Option<usize> {
        self.entries[start..].iter().position(|&entry| entry == atom).map(|place| start + place + 1)
    }
}
