//! A sheet as text in the format of lparse.

use crate::sheet::{Record, Sheet, CHOICE, CONSTRAINT};

/// What stands behind the table of names: nothing must be in, 1 must be out, and the number of models asked for.
const END: &str = "0\nB+\n0\nB-\n1\n0\n1\n";

pub fn text(sheet: &Sheet) -> String {
    let rules: String = sheet.records.iter().map(line).collect();
    let names: String = (0..sheet.atoms).map(|atom| format!("{} a{atom}\n", number(&atom))).collect();
    format!("{rules}0\n{names}{END}")
}

/// The type and the head, the numbers of literals and of negative ones, then these and the positive ones.
fn line(Record { kind, head, positives, negatives }: &Record) -> String {
    let start = match *kind {
        CONSTRAINT => "1 1".into(),
        CHOICE => format!("3 1 {}", number(head)),
        _ => format!("1 {}", number(head)),
    };
    let sizes = [positives.len() + negatives.len(), negatives.len()].map(|size| size.to_string());
    let literals = negatives.iter().chain(positives).map(number);
    let fields: Vec<String> = [start].into_iter().chain(sizes).chain(literals).collect();
    fields.join(" ") + "\n"
}

/// An atom's number: 1 is the head of constraints.
fn number(atom: &u8) -> String {
    (atom + 2).to_string()
}
