//! Choice rules as the pairs of rules that they stand for.

use crate::sheet::{rule, Record, Sheet, CHOICE};

/// The sheet with two rules in the place of each choice rule: `head` if its body and not `fresh`, and `fresh` if its
/// body and not `head`. Fresh atoms are numbered behind the written ones, in the order of the records.
pub fn expanded(sheet: &Sheet) -> Sheet {
    let mut atoms = sheet.atoms;
    let mut records = Vec::new();
    for record in &sheet.records {
        if record.kind == CHOICE {
            let fresh = atoms;
            atoms += 1;
            records.extend(pair(record, fresh));
        } else {
            records.push(record.clone());
        }
    }
    Sheet::new(atoms, records)
}

fn pair(Record { head, positives, negatives, .. }: &Record, fresh: u8) -> [Record; 2] {
    [rule(*head, positives, &adding(fresh, negatives)), rule(fresh, positives, &adding(*head, negatives))]
}

/// The list with the atom behind it, unless it is there already.
fn adding(atom: u8, list: &[u8]) -> Vec<u8> {
    if list.contains(&atom) {
        list.to_vec()
    } else {
        [list, &[atom]].concat()
    }
}
