//! Question 9: a depth-first walk over the chains of every component.

use super::Graph;
use std::collections::HashMap;

/// Whether every chain is a subsequence of the entries.
pub fn all_found(graph: &Graph, entries: &[u8]) -> bool {
    let mut walk = Walk { graph, entries, found: HashMap::new() };
    graph.atoms().all(|atom| walk.found_from(atom, 0, 0))
}

struct Walk<'a> {
    graph: &'a Graph,
    entries: &'a [u8],
    /// For the last atom of a chain and the set of its atoms: the largest position from which every extension is found.
    found: HashMap<(u8, u64), usize>,
}

impl Walk<'_> {
    /// Whether `next` and every chain that goes on from it over atoms outside `used` is found from `start` on. The
    /// first place of `next` leaves most room for the rest.
    fn found_from(&mut self, next: u8, used: u64, start: usize) -> bool {
        match self.entries[start..].iter().position(|&entry| entry == next) {
            Some(place) => self.extensions_found(next, used | 1 << next, start + place + 1),
            None => false,
        }
    }

    fn extensions_found(&mut self, last: u8, used: u64, start: usize) -> bool {
        if self.found.get(&(last, used)).is_some_and(|&position| start <= position) {
            return true;
        }
        let graph = self.graph;
        let mut next =
            graph.successors(last).intersection(graph.component(last)).filter(|&&atom| used >> atom & 1 == 0);
        let all = next.all(|&atom| self.found_from(atom, used, start));
        if all {
            self.found.insert((last, used), start);
        }
        all
    }
}
