//! A plain implementation of every operation of both services, from the description of the format alone.

mod chains;
mod choices;
mod graph;
mod lparse;
mod missing;
mod questions;
mod states;
mod unfolded;

pub use chains::all_found;
pub use choices::expanded;
pub use graph::Graph;
pub use lparse::text as lparse_text;
pub use missing::{first_missing, shortest_missing};
pub use questions::{sequence as read_sequence, sheet as read_sheet};
pub use unfolded::Unfolded;

use crate::limits::OFFICE;
use crate::service::{Answer, Call, Operation, Service};
use crate::sheet::{sequence_bytes, Sheet};
use questions::ask;
use states::{answer_sets, decided};

/// A refusal: the number of the first question whose answer is no.
pub type Refusal = u32;

const MOST_DECIDED: usize = 16;
/// What a program reads, in bytes.
const PROGRAM_INPUT: usize = 65_536;
/// What the clause program lends, in words.
const CLAUSE_ROOM: usize = 16_384;
/// What the program lparse lends, in bytes.
const LPARSE_ROOM: usize = 65_536;

pub struct Reference;

impl Service for Reference {
    fn offers(&self, _: Operation) -> bool {
        true
    }

    fn answer(&self, call: &Call) -> Result<Answer, String> {
        Ok(answer(call))
    }
}

pub fn answer(call: &Call) -> Answer {
    answer_by(Unfolded::new, call)
}

/// How the rules of a sheet are derived for the entries of a sequence.
pub type Derivation = fn(&Sheet, &Graph, &[u8]) -> Unfolded;

/// The answer by another derivation: `Unfolded::unshortened` gives that before W2.
pub fn answer_by(derivation: Derivation, call: &Call) -> Answer {
    let answer = match call.operation {
        Operation::Read => read(call),
        Operation::Body => body(call),
        Operation::Components => components(call),
        Operation::Default => default(call),
        Operation::Test => test(call),
        Operation::Unfolded => unfold(derivation, call).map(unfolded),
        Operation::Clauses => unfold(derivation, call).map(clauses),
        Operation::Count => count(call),
        Operation::Lparse => lparse(call),
        Operation::Missing => missing(call),
        Operation::Program | Operation::LparseProgram => Ok(Answer::Text(printed(derivation, call))),
    };
    within(answer.unwrap_or_else(Answer::Refused), call.room)
}

/// Question 10: the answer in that room; with no room given, every output fits.
pub fn within(answer: Answer, room: Option<usize>) -> Answer {
    match room {
        Some(room) if answer.length() > room => Answer::Refused(10),
        _ => answer,
    }
}

/// Questions 1 to 6, 13, 7 and 15. As 16, 15 gets a yes of the office wherever it is asked.
fn accepted(call: &Call) -> Result<(Sheet, Graph), Refusal> {
    let sheet = questions::sheet(&call.sheet)?;
    let graph = Graph::new(&sheet);
    let largest = graph.components().map(|component| component.len()).max().unwrap_or(0);
    let limits = call.host.limits();
    ask(7, largest <= OFFICE.component)?;
    ask(15, sheet.all_atoms() <= limits.atoms && largest <= limits.component)?;
    Ok((sheet, graph))
}

/// Questions 1 to 6, 13, 7, 15, 8 and 16.
fn well_formed(call: &Call) -> Result<(Sheet, Graph, Vec<u8>), Refusal> {
    let (sheet, graph) = accepted(call)?;
    let entries = questions::sequence(&call.sequence, sheet.all_atoms() as u8)?;
    ask(16, entries.len() <= call.host.limits().entries)?;
    Ok((sheet, graph, entries))
}

/// Questions 1 to 6, 13, 7, 15, 8, 16 and 9.
fn accepted_together(call: &Call) -> Result<(Sheet, Graph, Vec<u8>), Refusal> {
    let (sheet, graph, entries) = well_formed(call)?;
    ask(9, all_found(&graph, &entries))?;
    Ok((sheet, graph, entries))
}

fn read(call: &Call) -> Result<Answer, Refusal> {
    let (sheet, _) = accepted(call)?;
    Ok(Answer::Read { atoms: sheet.atoms.into(), records: sheet.records.len() as u64 })
}

fn body(call: &Call) -> Result<Answer, Refusal> {
    let (sheet, _) = accepted(call)?;
    ask(12, call.number < sheet.records.len() as u64)?;
    let number = call.number as usize;
    let record = &sheet.records[number];
    let start = sheet.record_at(number) + 4;
    let slice = [&record.positives[..], &record.negatives[..]].concat();
    Ok(Answer::Body { positives: record.positives.len() as u64, slice, offset: start as u64 })
}

fn components(call: &Call) -> Result<Answer, Refusal> {
    let (_, graph) = accepted(call)?;
    Ok(Answer::Bytes(graph.atoms().map(|atom| graph.smallest(atom)).collect()))
}

fn default(call: &Call) -> Result<Answer, Refusal> {
    let (_, graph) = accepted(call)?;
    Ok(Answer::Bytes(sequence_bytes(&graph.default_sequence())))
}

fn test(call: &Call) -> Result<Answer, Refusal> {
    accepted_together(call).map(|_| Answer::Passed)
}

/// Question 14 is answered as 9 is, so that the chains are listed only where one is missing: a complete component of ten has ten
/// million.
fn missing(call: &Call) -> Result<Answer, Refusal> {
    let (_, graph, entries) = well_formed(call)?;
    ask(14, !all_found(&graph, &entries))?;
    Ok(Answer::Missing(first_missing(&graph, &entries).expect("a chain is missing")))
}

/// The unfolded program of a sheet and a sequence that are accepted together.
pub fn unfold(derivation: Derivation, call: &Call) -> Result<Unfolded, Refusal> {
    let (sheet, graph, entries) = accepted_together(call)?;
    Ok(derivation(&sheet, &graph, &entries))
}

fn unfolded(unfolded: Unfolded) -> Answer {
    Answer::Unfolded(unfolded.words())
}

fn clauses(unfolded: Unfolded) -> Answer {
    let clauses = unfolded.clauses();
    let number = clauses.len() as u64;
    let words = clauses.into_iter().flat_map(|clause| [clause, vec![0]].concat()).collect();
    Answer::Clauses { words, variables: unfolded.variables().into(), clauses: number }
}

fn count(call: &Call) -> Result<Answer, Refusal> {
    let (sheet, _) = accepted(call)?;
    ask(11, decided(&sheet).len() <= MOST_DECIDED)?;
    let count = answer_sets(&sheet).len() as u64;
    Ok(Answer::Count { count, verdict: count.min(2) })
}

fn lparse(call: &Call) -> Result<Answer, Refusal> {
    let (sheet, _) = accepted(call)?;
    Ok(Answer::Lparse(lparse_text(&sheet).into_bytes()))
}

/// The call that a program makes, to the office. To the clause program the length field divides the sheet from the sequence.
pub fn program_call(program: &Call) -> Call {
    let input = &program.sheet[..program.sheet.len().min(PROGRAM_INPUT)];
    if program.operation == Operation::LparseProgram {
        return Call::new(Operation::Lparse, input).room(LPARSE_ROOM);
    }
    let length = input.get(1..3).map(|field| usize::from(u16::from_be_bytes([field[0], field[1]])));
    let (sheet, sequence) = match length {
        Some(length) if length <= input.len() => input.split_at(length),
        _ => (input, &[][..]),
    };
    Call::new(Operation::Clauses, sheet).sequence(sequence).room(CLAUSE_ROOM)
}

/// What a program prints.
fn printed(derivation: Derivation, program: &Call) -> String {
    match answer_by(derivation, &program_call(program)) {
        Answer::Refused(number) => format!("refused {number}\n"),
        Answer::Lparse(text) => String::from_utf8(text).expect("it is ASCII"),
        Answer::Clauses { words, variables, clauses } => dimacs(&words, variables, clauses),
        other => unreachable!("{other}"),
    }
}

fn dimacs(words: &[i32], variables: u64, clauses: u64) -> String {
    let mut text = format!("p cnf {variables} {clauses}\n");
    for word in words {
        text += &word.to_string();
        text += if *word == 0 { "\n" } else { " " };
    }
    text
}
