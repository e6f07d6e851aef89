//! Sheets and sequences, and the bytes they are written as.

pub const RULE: u8 = 0;
pub const CONSTRAINT: u8 = 1;
pub const CHOICE: u8 = 2;

#[derive(Clone, Debug, PartialEq, Eq)]
pub struct Record {
    pub kind: u8,
    pub head: u8,
    pub positives: Vec<u8>,
    pub negatives: Vec<u8>,
}

impl Record {
    /// The number of bytes, the length byte included.
    pub fn length(&self) -> usize {
        4 + self.positives.len() + self.negatives.len()
    }

    pub fn bytes(&self) -> Vec<u8> {
        let mut bytes = vec![(self.length() - 1) as u8, self.kind, self.head, self.positives.len() as u8];
        bytes.extend(&self.positives);
        bytes.extend(&self.negatives);
        bytes
    }
}

/// `head` if all positives and no negatives.
pub fn rule(head: u8, positives: &[u8], negatives: &[u8]) -> Record {
    Record { kind: RULE, head, positives: positives.to_vec(), negatives: negatives.to_vec() }
}

pub fn constraint(positives: &[u8], negatives: &[u8]) -> Record {
    Record { kind: CONSTRAINT, head: 0, positives: positives.to_vec(), negatives: negatives.to_vec() }
}

/// `head` or not, if all positives and no negatives.
pub fn choice(head: u8, positives: &[u8], negatives: &[u8]) -> Record {
    Record { kind: CHOICE, head, positives: positives.to_vec(), negatives: negatives.to_vec() }
}

#[derive(Clone, Debug, Default, PartialEq, Eq)]
pub struct Sheet {
    /// The number of written atoms, those that records may name.
    pub atoms: u8,
    pub records: Vec<Record>,
}

impl Sheet {
    pub fn new(atoms: u8, records: Vec<Record>) -> Sheet {
        Sheet { atoms, records }
    }

    pub fn rules(&self) -> impl Iterator<Item = &Record> {
        self.records.iter().filter(|record| record.kind == RULE)
    }

    pub fn constraints(&self) -> impl Iterator<Item = &Record> {
        self.records.iter().filter(|record| record.kind == CONSTRAINT)
    }

    pub fn choices(&self) -> impl Iterator<Item = &Record> {
        self.records.iter().filter(|record| record.kind == CHOICE)
    }

    /// The number of atoms, one fresh atom for each choice rule among them.
    pub fn all_atoms(&self) -> usize {
        usize::from(self.atoms) + self.choices().count()
    }

    /// Where record `number` starts in the bytes.
    pub fn record_at(&self, number: usize) -> usize {
        5 + self.records[..number].iter().map(Record::length).sum::<usize>()
    }

    pub fn bytes(&self) -> Vec<u8> {
        let mut bytes = vec![1, 0, 0, self.atoms, self.records.len() as u8];
        bytes.extend(self.records.iter().flat_map(Record::bytes));
        set_length(&mut bytes);
        bytes
    }
}

/// Makes the length field say the number of bytes.
pub fn set_length(bytes: &mut [u8]) {
    if bytes.len() >= 3 {
        let length = bytes.len() as u16;
        bytes[1..3].copy_from_slice(&length.to_be_bytes());
    }
}

pub fn sequence_bytes(entries: &[u8]) -> Vec<u8> {
    let mut bytes = vec![1];
    bytes.extend((entries.len() as u16).to_be_bytes());
    bytes.extend(entries);
    bytes
}
