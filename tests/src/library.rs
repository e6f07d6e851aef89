//! The libraries behind include/rulesheet.h and include/rulehub.h. Every call checks that memory which the answer leaves alone is
//! untouched.

use crate::lent::{Element, Lent, Unchanged};
use crate::service::{Answer, Call, Host, Operation, Service};
use crate::{rulehub, rulesheet};
use std::io::Write;
use std::path::{Path, PathBuf};
use std::process::{Command, Stdio};
use std::thread;

type Numbers = unsafe extern "C" fn(*const u8, usize, *mut u64, *mut u64) -> u32;
type Body = unsafe extern "C" fn(*const u8, usize, u64, *mut u64, *mut u64, *mut u64) -> u32;
type Test = unsafe extern "C" fn(*const u8, usize, *const u8, usize) -> u32;
type Writer = unsafe extern "C" fn(*const u8, usize, *mut u8, usize, *mut u64) -> u32;
type SequenceWriter<T> = unsafe extern "C" fn(*const u8, usize, *const u8, usize, *mut T, usize, *mut u64) -> u32;
type Clauses =
    unsafe extern "C" fn(*const u8, usize, *const u8, usize, *mut i32, usize, *mut u64, *mut u64, *mut u64) -> u32;

/// The functions of a library.
struct Functions {
    read: Numbers,
    body: Body,
    components: Writer,
    default: Writer,
    test: Test,
    missing: SequenceWriter<u8>,
    unfolded: SequenceWriter<u32>,
    clauses: Clauses,
    lparse: Writer,
    count: Numbers,
}

macro_rules! functions {
    ($binding:ident) => {{
        use $binding::raw::*;
        Functions { read, body, components, default, test, missing, unfolded, clauses, lparse, count }
    }};
}

const OFFICE: Functions = functions!(rulesheet);
const HUB: Functions = functions!(rulehub);

/// What is lent where a vector names no room and the answer needs none.
const SPARE: usize = 1_000;

pub struct Libraries {
    /// The folder of the programs.
    programs: PathBuf,
}

impl Libraries {
    pub fn new() -> Libraries {
        Libraries { programs: PathBuf::from(concat!(env!("CARGO_MANIFEST_DIR"), "/../target/bin")) }
    }

    /// The program behind an operation that runs one.
    fn program(&self, operation: Operation) -> Option<PathBuf> {
        match operation {
            Operation::Program => Some(self.programs.join("clauses")),
            Operation::LparseProgram => Some(self.programs.join("lparse")),
            _ => None,
        }
    }
}

impl Default for Libraries {
    fn default() -> Libraries {
        Libraries::new()
    }
}

impl Service for Libraries {
    fn offers(&self, operation: Operation) -> bool {
        self.program(operation).is_none_or(|program| program.exists())
    }

    fn answer(&self, call: &Call) -> Result<Answer, String> {
        if let Some(program) = self.program(call.operation) {
            return run(&program, &call.sheet);
        }
        let sheet = Input::new(&call.sheet);
        let sequence = Input::new(&call.sequence);
        let room = call.room.unwrap_or(SPARE);
        let functions = match call.host {
            Host::Office => OFFICE,
            Host::Hub => HUB,
        };
        let answer = match call.operation {
            Operation::Read => numbers(functions.read, |[atoms, records]| Answer::Read { atoms, records }, &sheet),
            Operation::Body => body(functions.body, &sheet, call.number),
            Operation::Components => bytes(functions.components, Answer::Bytes, &sheet, room),
            Operation::Default => bytes(functions.default, Answer::Bytes, &sheet, room),
            Operation::Test => test(functions.test, &sheet, &sequence),
            Operation::Unfolded => elements(functions.unfolded, Answer::Unfolded, &sheet, &sequence, room),
            Operation::Clauses => clauses(functions.clauses, &sheet, &sequence, room),
            Operation::Count => numbers(functions.count, |[count, verdict]| Answer::Count { count, verdict }, &sheet),
            Operation::Lparse => bytes(functions.lparse, Answer::Lparse, &sheet, room),
            Operation::Missing => elements(functions.missing, Answer::Missing, &sheet, &sequence, room),
            Operation::Program | Operation::LparseProgram => unreachable!("it runs a program"),
        }?;
        if sheet.read_back() != call.sheet || sequence.read_back() != call.sequence {
            return Err("the input was changed".into());
        }
        Ok(answer)
    }
}

/// Bytes that a library may read, in memory of just their length.
struct Input {
    start: *mut [u8],
}

impl Input {
    fn new(bytes: &[u8]) -> Input {
        Input { start: Box::into_raw(Box::from(bytes)) }
    }

    fn pointer(&self) -> *const u8 {
        self.start as *const u8
    }

    fn length(&self) -> usize {
        self.start.len()
    }

    fn read_back(&self) -> &[u8] {
        unsafe { &*self.start }
    }
}

impl Drop for Input {
    fn drop(&mut self) {
        drop(unsafe { Box::from_raw(self.start) });
    }
}

/// A refusal leaves everything lent as it was.
fn refused(status: u32, lent: &[&dyn Unchanged]) -> Result<Answer, String> {
    for memory in lent {
        memory.unchanged().map_err(|fault| format!("refused {status}, but {fault}"))?;
    }
    Ok(Answer::Refused(status))
}

fn numbers(function: Numbers, answer: fn([u64; 2]) -> Answer, sheet: &Input) -> Result<Answer, String> {
    let (mut first, mut second) = (Lent::one(), Lent::one());
    match unsafe { function(sheet.pointer(), sheet.length(), first.pointer(), second.pointer()) } {
        0 => Ok(answer([first.value()?, second.value()?])),
        status => refused(status, &[&first, &second]),
    }
}

fn body(function: Body, sheet: &Input, number: u64) -> Result<Answer, String> {
    let (mut positives, mut offset, mut length) = (Lent::one(), Lent::one(), Lent::one());
    let status = unsafe {
        let (p, o, l) = (positives.pointer(), offset.pointer(), length.pointer());
        function(sheet.pointer(), sheet.length(), number, p, o, l)
    };
    if status != 0 {
        return refused(status, &[&positives, &offset, &length]);
    }
    let (offset, length): (u64, u64) = (offset.value()?, length.value()?);
    let end = offset.checked_add(length).filter(|&end| end <= sheet.length() as u64);
    let end = end.ok_or(format!("the slice of {length} bytes at {offset} is not in the sheet"))?;
    let slice = sheet.read_back()[offset as usize..end as usize].to_vec();
    Ok(Answer::Body { positives: positives.value()?, slice, offset })
}

fn bytes(function: Writer, answer: fn(Vec<u8>) -> Answer, sheet: &Input, room: usize) -> Result<Answer, String> {
    let (mut out, mut written) = (Lent::new(room), Lent::one());
    match unsafe { function(sheet.pointer(), sheet.length(), out.pointer(), out.room(), written.pointer()) } {
        0 => Ok(answer(out.output(written.value()?)?)),
        status => refused(status, &[&out, &written]),
    }
}

fn test(function: Test, sheet: &Input, sequence: &Input) -> Result<Answer, String> {
    match unsafe { function(sheet.pointer(), sheet.length(), sequence.pointer(), sequence.length()) } {
        0 => Ok(Answer::Passed),
        status => Ok(Answer::Refused(status)),
    }
}

fn elements<T: Element>(
    function: SequenceWriter<T>,
    answer: fn(Vec<T>) -> Answer,
    sheet: &Input,
    sequence: &Input,
    room: usize,
) -> Result<Answer, String> {
    let (mut out, mut written) = (Lent::new(room), Lent::one());
    let status = unsafe {
        let (o, w) = (out.pointer(), written.pointer());
        function(sheet.pointer(), sheet.length(), sequence.pointer(), sequence.length(), o, out.room(), w)
    };
    match status {
        0 => Ok(answer(out.output(written.value()?)?)),
        status => refused(status, &[&out, &written]),
    }
}

fn clauses(function: Clauses, sheet: &Input, sequence: &Input, room: usize) -> Result<Answer, String> {
    let (mut out, mut written) = (Lent::new(room), Lent::one());
    let (mut variables, mut number) = (Lent::one(), Lent::one());
    let status = unsafe {
        let (o, w, v, n) = (out.pointer(), written.pointer(), variables.pointer(), number.pointer());
        function(sheet.pointer(), sheet.length(), sequence.pointer(), sequence.length(), o, out.room(), w, v, n)
    };
    if status != 0 {
        return refused(status, &[&out, &written, &variables, &number]);
    }
    let words = out.output(written.value()?)?;
    Ok(Answer::Clauses { words, variables: variables.value()?, clauses: number.value()? })
}

fn run(program: &Path, input: &[u8]) -> Result<Answer, String> {
    let failed = |error: std::io::Error| format!("{}: {error}", program.display());
    let mut child = Command::new(program).stdin(Stdio::piped()).stdout(Stdio::piped()).spawn().map_err(failed)?;
    let mut pipe = child.stdin.take().expect("standard input is a pipe");
    // The program may end before it has read everything.
    let output = thread::scope(|scope| {
        scope.spawn(move || pipe.write_all(input).ok());
        child.wait_with_output().map_err(failed)
    })?;
    Ok(Answer::Text(String::from_utf8_lossy(&output.stdout).into_owned()))
}
