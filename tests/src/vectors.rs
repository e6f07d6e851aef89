//! Vector files: one case a line, `FROM-UNTIL OPERATION ARGUMENTS = ANSWER`.

use crate::service::{hex, Answer, Argument, Call, Operation, Service};

/// The level of the service: 0 is the base, k the service after requests W1 to Wk.
pub fn level() -> u32 {
    include_str!("../level").trim().parse().expect("tests/level holds a number")
}

/// A case whose operation is known here.
pub struct Case {
    pub from: u32,
    pub until: u32,
    pub call: Call,
    pub answer: String,
}

pub enum Line {
    Case(Case),
    /// A case of an operation that this program does not know.
    Unknown,
}

pub fn parse(line: &str) -> Option<Line> {
    let (question, answer) = line.split_once(" = ")?;
    let mut fields = question.split(' ');
    let (from, until) = fields.next()?.split_once('-')?;
    let (from, until) = (from.parse().ok()?, until.parse().ok()?);
    let Some(mut call) = Call::named(fields.next()?) else {
        return Some(Line::Unknown);
    };
    for argument in call.operation.arguments() {
        let field = fields.next()?;
        match argument {
            Argument::Sheet => call.sheet = unhex(field)?,
            Argument::Number => call.number = field.parse().ok()?,
            Argument::Sequence => call.sequence = unhex(field)?,
            Argument::Room if field == "-" => call.room = None,
            Argument::Room => call.room = Some(field.parse().ok()?),
        }
    }
    fields.next().is_none().then(|| Line::Case(Case { from, until, call, answer: answer.into() }))
}

fn unhex(field: &str) -> Option<Vec<u8>> {
    if field == "-" {
        return Some(Vec::new());
    }
    let digits = field.as_bytes();
    if digits.len() % 2 == 1 || !digits.iter().all(u8::is_ascii_hexdigit) {
        return None;
    }
    (0..digits.len()).step_by(2).map(|at| u8::from_str_radix(&field[at..at + 2], 16).ok()).collect()
}

/// A case that stands from one level to another, as a line.
pub fn format(from: u32, until: u32, call: &Call, answer: &Answer) -> String {
    let mut line = format!("{from}-{until} {}", call.host.name_of(call.operation));
    for argument in call.operation.arguments() {
        line.push(' ');
        line += &match argument {
            Argument::Sheet => hex(&call.sheet),
            Argument::Number => call.number.to_string(),
            Argument::Sequence => hex(&call.sequence),
            Argument::Room => call.room.map_or("-".into(), |room| room.to_string()),
        };
    }
    format!("{line} = {answer}")
}

impl Case {
    pub fn stands_at(&self, level: u32) -> bool {
        self.from <= level && level <= self.until
    }

    /// Runs the case: what came instead of the answer, if something did.
    pub fn run(&self, service: &dyn Service) -> Result<(), String> {
        let mut call = self.call.clone();
        call.room = call.room.or(self.needed());
        service.check(&call, &self.answer)
    }

    /// The length of the output that the answer names.
    fn needed(&self) -> Option<usize> {
        let output = self.answer.strip_prefix("ok ")?.split(' ').next()?;
        match self.call.operation {
            Operation::Components | Operation::Default | Operation::Missing => Some(unhex(output)?.len()),
            Operation::Unfolded | Operation::Clauses | Operation::Lparse => output.parse().ok(),
            _ => None,
        }
    }
}
