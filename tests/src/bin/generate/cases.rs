//! Cases with the reference's answers, and the levels at which each answer stands.

use rulesheet_tests::reference::{self, read_sequence, read_sheet, Unfolded};
use rulesheet_tests::report::Statistics;
use rulesheet_tests::service::{Answer, Argument, Call, Host, Operation};
use rulesheet_tests::sheet::{sequence_bytes, set_length, Sheet, CHOICE};
use rulesheet_tests::vectors;
use std::collections::HashSet;
use std::{fs, path::Path};

/// The level after the last request.
const LAST: u32 = 14;

#[derive(Default)]
pub struct Cases {
    lines: Vec<String>,
    seen: HashSet<String>,
    statistics: Statistics,
    /// The calls with an answer that W2 changed.
    shortened: usize,
}

impl Cases {
    /// Adds a case, once, and hands its answer back. Of reading, also the refusal that W1 took away; of unfolding, also the
    /// answer that W2 changed.
    pub fn add(&mut self, call: Call) -> Answer {
        let answer = reference::answer(&call);
        let mut from = from(&call);
        if from == 1 && call.operation == Operation::Read {
            self.add_line(0, 0, &call, &Answer::Refused(5));
        }
        if let Some(before) = before_w2(&call).filter(|before| *before != answer) {
            self.shortened += usize::from(self.add_line(from, 1, &call, &before));
            from = 2;
        }
        self.add_line(from, until(&call, &answer), &call, &answer);
        answer
    }

    /// Adds a case of each operation that takes a sequence.
    pub fn add_sequence(&mut self, host: Host, sheet: &Sheet, entries: &[u8]) {
        for operation in [Operation::Test, Operation::Missing, Operation::Unfolded, Operation::Clauses] {
            self.add(Call::new(operation, &sheet.bytes()).sequence(&sequence_bytes(entries)).at(host));
        }
    }

    /// Whether the line is new.
    fn add_line(&mut self, from: u32, until: u32, call: &Call, answer: &Answer) -> bool {
        let line = vectors::format(from, until, call, answer);
        let new = self.seen.insert(line.clone());
        if new {
            self.lines.push(line);
            self.statistics.add(call, answer);
        }
        new
    }

    /// Writes the file and prints how often each kind of answer came up.
    pub fn write(&self, folder: &Path, name: &str) {
        fs::write(folder.join(name), self.lines.join("\n") + "\n").unwrap_or_else(|error| panic!("{name}: {error}"));
        println!("{name}: {} cases, {} calls with an answer that W2 changed", self.lines.len(), self.shortened);
        print!("{}", self.statistics);
    }
}

/// The answer before W2 of an operation of the office that unfolds.
fn before_w2(call: &Call) -> Option<Answer> {
    let unfolds = matches!(call.operation, Operation::Unfolded | Operation::Clauses | Operation::Program);
    (unfolds && call.host == Host::Office).then(|| reference::answer_by(Unfolded::unshortened, call))
}

/// The first level at which the answer stands, if W2 left it as it was: W1 admits choice rules, where there was a refusal by 5,
/// W3 brings the lparse text, W4 the missing chain, and W5 the hub.
fn from(call: &Call) -> u32 {
    match call.operation {
        _ if call.host == Host::Hub => 5,
        Operation::Program => from(&reference::program_call(call)),
        Operation::Lparse | Operation::LparseProgram => 3,
        Operation::Missing => 4,
        _ => u32::from(reaches_choice(&call.sheet)),
    }
}

/// Whether questions 1 to 3 pass, and record by record 4, 5 and 6 too, up to a record of kind 2 with an atom as its head:
/// the records before it are a sheet that passes, and it passes 4.
fn reaches_choice(bytes: &[u8]) -> bool {
    let mut rest = match bytes {
        [1, high, low, 0..=64, 0..=128, rest @ ..] if usize::from(u16::from_be_bytes([*high, *low])) == bytes.len() => {
            rest
        }
        _ => return false,
    };
    for before in 0..bytes[4] {
        let Some((&length, record)) = rest.split_first() else { return false };
        let complete = 3 <= length && usize::from(length) <= record.len() && record[2] <= length - 3;
        if complete && record[0] == CHOICE {
            return record[1] < bytes[3] && passes(bytes, before, bytes.len() - rest.len());
        }
        if !complete {
            return false;
        }
        rest = &record[usize::from(length)..];
    }
    false
}

/// Whether the sheet that ends after so many records and bytes passes questions 1 to 6.
fn passes(bytes: &[u8], records: u8, length: usize) -> bool {
    let mut bytes = bytes[..length].to_vec();
    bytes[4] = records;
    set_length(&mut bytes);
    read_sheet(&bytes).is_ok()
}

/// The last level at which the answer stands.
fn until(call: &Call, answer: &Answer) -> u32 {
    match answer {
        // W8 admits version 2 with at least 13 bytes.
        Answer::Refused(1) if call.sheet.len() >= 13 && call.sheet[0] == 2 => 7,
        // W10 judges the form of the sequence before the components.
        Answer::Refused(7 | 15) if call.operation.takes(Argument::Sequence) && malformed(call) => 9,
        // W8 answers with a second number.
        Answer::Count { .. } => 7,
        Answer::Text(_) => {
            let call = reference::program_call(call);
            until(&call, &reference::answer(&call))
        }
        _ => LAST,
    }
}

fn malformed(call: &Call) -> bool {
    let atoms = read_sheet(&call.sheet).expect("7 and 15 are asked of sheets that pass 1 to 6 and 13").all_atoms();
    read_sequence(&call.sequence, atoms as u8).is_err()
}
