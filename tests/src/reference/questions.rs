//! The questions about the form of a sheet (1 to 6, 13) and of a sequence (8).

use super::Refusal;
use crate::limits::{MOST_RECORDS, OFFICE};
use crate::sheet::{Record, Sheet, CHOICE, CONSTRAINT, RULE};

/// Yes, or the refusal with this number.
pub fn ask(question: Refusal, yes: bool) -> Result<(), Refusal> {
    if yes {
        Ok(())
    } else {
        Err(question)
    }
}

/// Questions 1 to 6, then 13.
pub fn sheet(bytes: &[u8]) -> Result<Sheet, Refusal> {
    ask(1, bytes.len() >= 5 && bytes[0] == 1)?;
    ask(2, usize::from(u16::from_be_bytes([bytes[1], bytes[2]])) == bytes.len())?;
    let (atoms, number) = (bytes[3], bytes[4]);
    ask(3, usize::from(atoms) <= OFFICE.atoms && usize::from(number) <= MOST_RECORDS)?;
    let mut rest = &bytes[5..];
    let mut records = Vec::new();
    for _ in 0..number {
        let (record, after) = frame(rest)?;
        ask(5, head_is_right(&record, atoms))?;
        ask(6, is_atom_list(&record.positives, atoms) && is_atom_list(&record.negatives, atoms))?;
        records.push(record);
        rest = after;
    }
    ask(4, rest.is_empty())?;
    let sheet = Sheet { atoms, records };
    ask(13, sheet.all_atoms() <= OFFICE.atoms)?;
    Ok(sheet)
}

/// Question 4 of the record at the start of these bytes, and the bytes after it.
fn frame(bytes: &[u8]) -> Result<(Record, &[u8]), Refusal> {
    let (&length, rest) = bytes.split_first().ok_or(4u32)?;
    let length = usize::from(length);
    ask(4, 3 <= length && length <= rest.len())?;
    let (record, after) = rest.split_at(length);
    let (fields, atoms) = record.split_at(3);
    let number = usize::from(fields[2]);
    ask(4, number <= atoms.len())?;
    let (positives, negatives) = atoms.split_at(number);
    let record =
        Record { kind: fields[0], head: fields[1], positives: positives.to_vec(), negatives: negatives.to_vec() };
    Ok((record, after))
}

fn head_is_right(record: &Record, atoms: u8) -> bool {
    match record.kind {
        RULE | CHOICE => record.head < atoms,
        CONSTRAINT => record.head == 0,
        _ => false,
    }
}

fn is_atom_list(list: &[u8], atoms: u8) -> bool {
    list.iter().all(|&atom| atom < atoms) && list.windows(2).all(|pair| pair[0] < pair[1])
}

/// Question 8: the entries of a sequence; fresh atoms are among the atoms.
pub fn sequence(bytes: &[u8], atoms: u8) -> Result<Vec<u8>, Refusal> {
    ask(8, bytes.len() >= 3 && bytes[0] == 1)?;
    let number = usize::from(u16::from_be_bytes([bytes[1], bytes[2]]));
    ask(8, number <= OFFICE.entries && bytes.len() == 3 + number)?;
    let entries = bytes[3..].to_vec();
    ask(8, entries.iter().all(|&entry| entry < atoms))?;
    Ok(entries)
}
