//! The operations of both services, the calls to them and their answers.

use crate::limits::{Limits, HUB, OFFICE};
use std::fmt;

/// Where a service runs.
#[derive(Clone, Copy, Debug, PartialEq, Eq, PartialOrd, Ord)]
pub enum Host {
    Office,
    Hub,
}

impl Host {
    pub const ALL: [Host; 2] = [Host::Office, Host::Hub];

    pub fn limits(self) -> Limits {
        match self {
            Host::Office => OFFICE,
            Host::Hub => HUB,
        }
    }

    /// The programs call the office.
    pub fn offers(self, operation: Operation) -> bool {
        self == Host::Office || !operation.is_program()
    }

    /// The name of its operation in vector files.
    pub fn name_of(self, operation: Operation) -> String {
        format!("{}{}", self.prefix(), operation.name())
    }

    fn prefix(self) -> &'static str {
        match self {
            Host::Office => "",
            Host::Hub => "hub.",
        }
    }
}

#[derive(Clone, Copy, Debug, PartialEq, Eq, PartialOrd, Ord)]
pub enum Operation {
    Read,
    Body,
    Components,
    Default,
    Test,
    Unfolded,
    Clauses,
    Count,
    Program,
    Lparse,
    LparseProgram,
    Missing,
}

/// An argument of a call, as vector files write it.
#[derive(Clone, Copy, Debug, PartialEq, Eq)]
pub enum Argument {
    Sheet,
    Number,
    Sequence,
    Room,
}

impl Operation {
    pub const ALL: [Operation; 12] = [
        Operation::Read,
        Operation::Body,
        Operation::Components,
        Operation::Default,
        Operation::Test,
        Operation::Unfolded,
        Operation::Clauses,
        Operation::Count,
        Operation::Program,
        Operation::Lparse,
        Operation::LparseProgram,
        Operation::Missing,
    ];

    pub fn name(self) -> &'static str {
        match self {
            Operation::Read => "read",
            Operation::Body => "body",
            Operation::Components => "components",
            Operation::Default => "default",
            Operation::Test => "test",
            Operation::Unfolded => "unfolded",
            Operation::Clauses => "clauses",
            Operation::Count => "count",
            Operation::Program => "program",
            Operation::Lparse => "lparse",
            Operation::LparseProgram => "lparse-program",
            Operation::Missing => "missing",
        }
    }

    pub fn named(name: &str) -> Option<Operation> {
        Operation::ALL.into_iter().find(|operation| operation.name() == name)
    }

    /// Whether it is a run of a program.
    pub fn is_program(self) -> bool {
        matches!(self, Operation::Program | Operation::LparseProgram)
    }

    pub fn arguments(self) -> &'static [Argument] {
        use Argument::*;
        match self {
            Operation::Read | Operation::Count | Operation::Program | Operation::LparseProgram => &[Sheet],
            Operation::Body => &[Sheet, Number],
            Operation::Components | Operation::Default | Operation::Lparse => &[Sheet, Room],
            Operation::Test => &[Sheet, Sequence],
            Operation::Unfolded | Operation::Clauses | Operation::Missing => &[Sheet, Sequence, Room],
        }
    }

    pub fn takes(self, argument: Argument) -> bool {
        self.arguments().contains(&argument)
    }
}

/// One call; arguments that the operation does not take are empty.
#[derive(Clone, Debug, PartialEq, Eq)]
pub struct Call {
    pub host: Host,
    pub operation: Operation,
    /// For a program: its whole input.
    pub sheet: Vec<u8>,
    pub number: u64,
    pub sequence: Vec<u8>,
    /// The bytes or words lent; none: as many as are needed.
    pub room: Option<usize>,
}

impl Call {
    /// A call to the office.
    pub fn new(operation: Operation, sheet: &[u8]) -> Call {
        Call { host: Host::Office, operation, sheet: sheet.to_vec(), number: 0, sequence: Vec::new(), room: None }
    }

    /// A call of the operation that has this name in vector files, with no arguments yet.
    pub fn named(name: &str) -> Option<Call> {
        let host = if name.starts_with(Host::Hub.prefix()) { Host::Hub } else { Host::Office };
        let operation = Operation::named(name.strip_prefix(host.prefix())?)?;
        host.offers(operation).then(|| Call::new(operation, &[]).at(host))
    }

    pub fn at(mut self, host: Host) -> Call {
        self.host = host;
        self
    }

    pub fn number(mut self, number: u64) -> Call {
        self.number = number;
        self
    }

    pub fn sequence(mut self, sequence: &[u8]) -> Call {
        self.sequence = sequence.to_vec();
        self
    }

    pub fn room(mut self, room: usize) -> Call {
        self.room = Some(room);
        self
    }
}

#[derive(Clone, Debug, PartialEq, Eq)]
pub enum Answer {
    Refused(u32),
    Read { atoms: u64, records: u64 },
    Body { positives: u64, slice: Vec<u8>, offset: u64 },
    Bytes(Vec<u8>),
    Passed,
    Unfolded(Vec<u32>),
    Clauses { words: Vec<i32>, variables: u64, clauses: u64 },
    Count { count: u64, verdict: u64 },
    Text(String),
    Lparse(Vec<u8>),
    Missing(Vec<u8>),
}

impl Answer {
    /// The bytes or words written.
    pub fn length(&self) -> usize {
        match self {
            Answer::Bytes(bytes) | Answer::Lparse(bytes) | Answer::Missing(bytes) => bytes.len(),
            Answer::Unfolded(words) => words.len(),
            Answer::Clauses { words, .. } => words.len(),
            _ => 0,
        }
    }

    /// What sort of answer it is, for statistics.
    pub fn kind(&self) -> String {
        match self {
            Answer::Refused(number) => format!("refused {number}"),
            Answer::Count { verdict, .. } => format!("ok {}", verdict_name(*verdict)),
            Answer::Body { slice, .. } if slice.is_empty() => "ok empty".into(),
            Answer::Bytes(bytes) if bytes.is_empty() => "ok empty".into(),
            Answer::Text(text) if text.starts_with("refused ") => text.trim_end().into(),
            Answer::Missing(chain) => format!("ok of length {}", chain.len()),
            _ => "ok".into(),
        }
    }
}

fn verdict_name(verdict: u64) -> String {
    match verdict {
        0 => "none".into(),
        1 => "clear".into(),
        2 => "split".into(),
        other => format!("verdict-{other}"),
    }
}

/// The answer as vector files write it.
impl fmt::Display for Answer {
    fn fmt(&self, f: &mut fmt::Formatter) -> fmt::Result {
        match self {
            Answer::Refused(number) => write!(f, "refused {number}"),
            Answer::Read { atoms, records } => write!(f, "ok {atoms} {records}"),
            Answer::Body { positives, slice, offset } => write!(f, "ok {positives} {} {offset}", hex(slice)),
            Answer::Bytes(bytes) | Answer::Missing(bytes) => write!(f, "ok {}", hex(bytes)),
            Answer::Passed => write!(f, "ok"),
            Answer::Unfolded(words) => write!(f, "ok {} {}", words.len(), word_list(words, |word| word.to_be_bytes())),
            Answer::Clauses { words, variables, clauses } => {
                let list = word_list(words, |word| word.to_be_bytes());
                write!(f, "ok {} {variables} {clauses} {list}", words.len())
            }
            Answer::Count { count, verdict } => write!(f, "ok {count} {}", verdict_name(*verdict)),
            Answer::Text(text) => write!(f, "{}", one_field(text.as_bytes())),
            Answer::Lparse(text) => write!(f, "ok {} {}", text.len(), one_field(text)),
        }
    }
}

pub fn hex(bytes: &[u8]) -> String {
    if bytes.is_empty() {
        return "-".into();
    }
    bytes.iter().map(|byte| format!("{byte:02x}")).collect()
}

fn word_list<T: Copy + ToString>(words: &[T], bytes: impl Fn(T) -> [u8; 4]) -> String {
    if words.is_empty() {
        return "-".into();
    }
    if words.len() > 160 {
        return hashed(words.len(), words.iter().flat_map(|&word| bytes(word)));
    }
    words.iter().map(T::to_string).collect::<Vec<_>>().join(",")
}

/// A text with `_` for a space and `/` for a line end, so that it is one field. A text that has those, or bytes that are none,
/// stands in quotes and so equals no vector's.
fn one_field(text: &[u8]) -> String {
    if text.len() > 900 {
        return hashed(text.len(), text.iter().copied());
    }
    let shown = String::from_utf8_lossy(text);
    if shown.contains(['_', '/', char::REPLACEMENT_CHARACTER]) {
        return format!("{shown:?}");
    }
    shown.replace(' ', "_").replace('\n', "/")
}

/// A long list as its length and its FNV-1a hash.
fn hashed(length: usize, bytes: impl Iterator<Item = u8>) -> String {
    let hash = bytes.fold(0xcbf29ce484222325u64, |hash, byte| (hash ^ u64::from(byte)).wrapping_mul(0x100000001b3));
    format!("#{length}:{hash:016x}")
}

/// Something that answers calls: the libraries or the reference.
pub trait Service {
    fn offers(&self, operation: Operation) -> bool;

    /// The answer, or what the call did that no answer allows.
    fn answer(&self, call: &Call) -> Result<Answer, String>;

    /// Compares the answer with the expected one: what came instead, if something did.
    fn check(&self, call: &Call, expected: &str) -> Result<(), String> {
        let answer = self.answer(call)?.to_string();
        if answer == expected {
            Ok(())
        } else {
            Err(answer)
        }
    }
}
