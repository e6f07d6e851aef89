//! Cases of sequences that pass and that are then lengthened, up to the most entries and by one more.

use crate::cases::Cases;
use crate::choices::chosen;
use rulesheet_tests::inputs::{barely_entered, cycle, sheet_a, small_sheet, Shape};
use rulesheet_tests::random::Random;
use rulesheet_tests::reference::Graph;
use rulesheet_tests::sequences::{lengthened, passing};
use rulesheet_tests::service::Host;
use rulesheet_tests::sheet::{choice, constraint, rule, Sheet};

pub fn cases() -> Cases {
    let mut cases = Cases::default();
    let mut random = Random::new(10);
    for host in Host::ALL {
        by_hand(&mut cases, host);
        for shape in Shape::ALL {
            let sheet = barely_entered(&mut random, shape, 4);
            at_random(&mut cases, &mut random, host, &sheet);
        }
        for _ in 0..5 {
            let sheet = small_sheet(&mut random, 4);
            at_random(&mut cases, &mut random, host, &sheet);
        }
    }
    for shape in [Shape::Tangle, Shape::Complete] {
        let sheet = barely_entered(&mut random, shape, 8);
        at_random(&mut cases, &mut random, Host::Office, &sheet);
    }
    cases
}

/// Of each sheet a sequence that passes, then ones with entries inserted into it: in front, between, behind and everywhere.
fn by_hand(cases: &mut Cases, host: Host) {
    let sheets: [(Sheet, &[&[u8]]); 5] = [
        (sheet_a(), &[&[0, 1, 0, 2], &[2, 0, 1, 0, 2], &[0, 1, 1, 1, 0, 2], &[1, 0, 1, 0, 1, 0, 2, 2, 1]]),
        // A loop with no way in: no copy ever comes on.
        (Sheet::new(2, cycle(&[0, 1])), &[&[0, 1, 0], &[0, 0, 1, 1, 0, 0], &[1, 0, 1, 0, 1, 0, 1]]),
        // A fresh atom before and behind its head, and fresh atoms of choice rules that make a loop.
        (
            Sheet::new(2, vec![choice(0, &[], &[]), rule(1, &[], &[0])]),
            &[&[0, 1, 2], &[2, 0, 1, 2], &[2, 2, 0, 2, 1, 2, 0]],
        ),
        (
            Sheet::new(3, [chosen(cycle(&[2, 1, 0])), vec![choice(2, &[], &[]), constraint(&[0], &[1])]].concat()),
            &[&[0, 1, 2, 1, 0, 2, 1, 3, 4, 5, 6], &[6, 0, 0, 1, 3, 2, 1, 5, 0, 2, 1, 3, 4, 5, 0, 1, 2, 6]],
        ),
        // The first copies are false, and later ones are true.
        (
            Sheet::new(3, [cycle(&[2, 1, 0]), vec![rule(2, &[], &[])]].concat()),
            &[&[0, 1, 2, 0, 1, 2, 0], &[0, 0, 1, 0, 1, 2, 0, 0, 1, 1, 2, 0, 0]],
        ),
    ];
    for (sheet, sequences) in sheets {
        sequences.iter().for_each(|entries| cases.add_sequence(host, &sheet, entries));
    }
}

/// A sequence that passes, with a few entries more, with as many as are taken, and with one more than that.
fn at_random(cases: &mut Cases, random: &mut Random, host: Host, sheet: &Sheet) {
    let graph = Graph::new(sheet);
    let most = host.limits().entries;
    let mut entries = passing(random, &graph);
    cases.add_sequence(host, sheet, &entries);
    for (number, most) in [(random.between(1, 9), most), (most, most), (1, most + 1)] {
        entries = lengthened(random, &graph, &entries, number, most);
        cases.add_sequence(host, sheet, &entries);
    }
}
