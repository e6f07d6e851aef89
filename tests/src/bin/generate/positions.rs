//! Cases of positions in long sequences: chains that only the last entry completes, and entries around the positions 256 and 512.

use crate::cases::Cases;
use rulesheet_tests::inputs::{upto, Shape};
use rulesheet_tests::random::Random;
use rulesheet_tests::reference::Graph;
use rulesheet_tests::sequences::minimal;
use rulesheet_tests::service::Host;
use rulesheet_tests::sheet::Sheet;

pub fn cases() -> Cases {
    let mut cases = Cases::default();
    let mut random = Random::new(9);
    for size in [2, 3, 4] {
        for shape in [Shape::Cycle, Shape::Complete] {
            last_entry(&mut cases, &mut random, Host::Hub, shape, size);
            last_entry(&mut cases, &mut random, Host::Office, shape, size);
        }
    }
    for (shape, size) in [(Shape::Complete, 6), (Shape::Path, 10), (Shape::Star, 10), (Shape::Cycle, 10)] {
        last_entry(&mut cases, &mut random, Host::Office, shape, size);
    }
    cases
}

/// A component and an atom alone, which fills the sequence up to the most entries and to one fewer. From the sequence that passes no
/// entry of the component can be left out, and its last one stands at the end.
fn last_entry(cases: &mut Cases, random: &mut Random, host: Host, shape: Shape, size: u8) {
    let rules = shape.rules(random, &upto(size));
    let graph = Graph::new(&Sheet::new(size, rules.clone()));
    let sheet = Sheet::new(size + 1, rules);
    let most = host.limits().entries;
    for (number, apart) in [(most - 1, true), (most, true), (most, false)] {
        let minimal = minimal(random, &graph, &graph.default_sequence());
        let places =
            if apart { places(random, minimal.len(), number) } else { (number - minimal.len()..number).collect() };
        let mut entries = vec![size; number];
        for (&place, &entry) in places.iter().zip(&minimal) {
            entries[place] = entry;
        }
        cases.add_sequence(host, &sheet, &entries);
        for place in [number - 1, *random.pick(&places)] {
            let mut lacking = entries.clone();
            lacking[place] = size;
            cases.add_sequence(host, &sheet, &lacking);
        }
    }
}

/// So many places below a number, rising: the last one, those behind which the position is 256 or 512 and their neighbours, and
/// others. Places are counted from the first entry, positions from the first byte.
fn places(random: &mut Random, size: usize, number: usize) -> Vec<usize> {
    let mut near = vec![251, 252, 253, 507, 508, 509];
    near.retain(|&place| place < number - 1);
    let mut others: Vec<usize> = (1..number - 1).filter(|place| !near.contains(place)).collect();
    random.shuffle(&mut near);
    random.shuffle(&mut others);
    let mut places: Vec<usize> = [number - 1].into_iter().chain(near).chain(others).take(size).collect();
    places.sort_unstable();
    places
}
