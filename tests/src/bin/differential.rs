//! differential [INPUTS [SEED]]: compares both libraries with the reference, and with each other, on generated inputs.

use rulesheet_tests::inputs::{any_sheet, damaged, hub_sheet};
use rulesheet_tests::library::Libraries;
use rulesheet_tests::random::Random;
use rulesheet_tests::reference::{answer, read_sheet, unfold, within, Graph, Unfolded};
use rulesheet_tests::report::{Statistics, Tally};
use rulesheet_tests::rulesheet::MISSING_ROOM;
use rulesheet_tests::sequences::{any_sequence, nearly_too_many, thinned};
use rulesheet_tests::service::{hex, Answer, Argument, Call, Host, Operation, Service};
use rulesheet_tests::sheet::{sequence_bytes, Sheet};
use rulesheet_tests::vectors::{format, level};
use std::env;

const INPUTS: u64 = 20_000;
const SEED: u64 = 1;
/// The reference lists all chains up to the one that is missing: a complete component of ten has ten million, one of seven 13,699.
/// Sequences that lack long chains are made on purpose only for components of up to so many atoms; for larger ones they are few.
const LISTED: usize = 7;

fn main() {
    let mut arguments =
        env::args().skip(1).map(|argument| argument.parse().expect("usage: differential [INPUTS [SEED]]"));
    let inputs = arguments.next().unwrap_or(INPUTS);
    let mut random = Random::new(arguments.next().unwrap_or(SEED));
    let mut comparison = Comparison::default();
    let offered: Vec<Operation> =
        Operation::ALL.into_iter().filter(|&operation| comparison.libraries.offers(operation)).collect();
    for _ in 0..inputs {
        let (sheet, sequence) = input(&mut random);
        comparison.count(&sheet, &sequence);
        Host::ALL.into_iter().for_each(|host| comparison.relate(host, &sheet, &sequence));
        for &operation in &offered {
            for asked in calls(&mut random, operation, &sheet, &sequence) {
                comparison.compare(&asked);
            }
        }
    }
    comparison.finish(inputs);
}

/// A sheet and a sequence, valid or not.
fn input(random: &mut Random) -> (Vec<u8>, Vec<u8>) {
    let for_hub = random.one_in(2);
    let sheet = if for_hub { hub_sheet(random) } else { any_sheet(random) };
    let graph = Graph::new(&sheet);
    let small = graph.components().all(|component| component.len() <= LISTED);
    let sequence = match random.below(8) {
        0..=1 if small => sequence_bytes(&thinned(random, &graph)),
        2..=3 if for_hub => sequence_bytes(&nearly_too_many(random, &graph)),
        _ => any_sequence(random, &sheet),
    };
    let is_damaged = random.one_in(if for_hub { 4 } else { 2 });
    (if is_damaged { damaged(random, &sheet) } else { sheet.bytes() }, sequence)
}

/// The calls of an operation on one input, each to all services that offer it, with the reference's answers.
fn calls(random: &mut Random, operation: Operation, sheet: &[u8], sequence: &[u8]) -> Vec<Vec<(Call, Answer)>> {
    let call = match operation {
        // Each run is a process.
        Operation::Program | Operation::LparseProgram if !random.one_in(20) => return Vec::new(),
        Operation::Program => Call::new(operation, &[sheet, sequence].concat()),
        _ if operation.takes(Argument::Sequence) => Call::new(operation, sheet).sequence(sequence),
        _ => Call::new(operation, sheet),
    };
    let answered = |call: Call| -> Vec<(Call, Answer)> {
        let hosts = Host::ALL.into_iter().filter(|host| host.offers(operation));
        hosts.map(|host| call.clone().at(host)).map(|call| (call.clone(), answer(&call))).collect()
    };
    if operation.takes(Argument::Number) {
        return numbers(random, sheet).into_iter().map(|number| answered(call.clone().number(number))).collect();
    }
    let whole = answered(call);
    if operation.takes(Argument::Room) {
        let fitted =
            |(call, answer): &(Call, Answer), room| (call.clone().room(room), within(answer.clone(), Some(room)));
        let rooms = rooms(random, whole[0].1.length()).into_iter();
        return rooms.map(|room| whole.iter().map(|asked| fitted(asked, room)).collect()).collect();
    }
    vec![whole]
}

/// Record numbers inside the sheet, at its end and far beyond.
fn numbers(random: &mut Random, sheet: &[u8]) -> Vec<u64> {
    let records = read_sheet(sheet).map_or(0, |sheet: Sheet| sheet.records.len() as u64);
    let within = random.below(records.max(1) as usize) as u64;
    vec![
        within,
        records.saturating_sub(1),
        records,
        *random.pick(&[records + 256, records + (1 << 32), u64::MAX, 1 << 63]),
    ]
}

/// Every size near the need, and two further off.
fn rooms(random: &mut Random, need: usize) -> Vec<usize> {
    let near = need.saturating_sub(2)..=need + 2;
    near.chain([random.between(0, need), need + random.below(50)]).collect()
}

#[derive(Default)]
struct Comparison {
    libraries: Libraries,
    tally: Tally,
    statistics: Statistics,
    /// Inputs that are accepted for unfolding, and those of which W2 drops a rule.
    unfolded: usize,
    shortened: usize,
    /// Inputs that pass the hub's test, and those that it refuses by 15 and by 16.
    passed: usize,
    too_large: usize,
    too_long: usize,
}

impl Comparison {
    fn count(&mut self, sheet: &[u8], sequence: &[u8]) {
        let call = Call::new(Operation::Unfolded, sheet).sequence(sequence);
        if let Ok(unfolded) = unfold(Unfolded::new, &call) {
            let before = unfold(Unfolded::unshortened, &call).expect("they are accepted");
            self.unfolded += 1;
            self.shortened += usize::from(unfolded.kept() < before.kept());
        }
        match answer(&Call::new(Operation::Test, sheet).sequence(sequence).at(Host::Hub)) {
            Answer::Passed => self.passed += 1,
            Answer::Refused(15) => self.too_large += 1,
            Answer::Refused(16) => self.too_long += 1,
            _ => {}
        }
    }

    /// A chain is missing just where testing refuses by 9, and none is, which is refused by 14, just where it passes. Before
    /// that both refuse alike.
    fn relate(&mut self, host: Host, sheet: &[u8], sequence: &[u8]) {
        let call = |operation| Call::new(operation, sheet).sequence(sequence).room(MISSING_ROOM).at(host);
        let [test, missing] =
            [Operation::Test, Operation::Missing].map(|operation| self.libraries.answer(&call(operation)));
        let related = match (&test, &missing) {
            (Ok(Answer::Passed), missing) => *missing == Ok(Answer::Refused(14)),
            (Ok(Answer::Refused(9)), missing) => matches!(missing, Ok(Answer::Missing(_))),
            (test, missing) => test == missing,
        };
        self.judge(related, || {
            format!("{} {}\n    instead: {host:?}, test {test:?}, missing {missing:?}", hex(sheet), hex(sequence))
        });
    }

    /// One call to all services that offer it: each library answers what the reference does, and the hub answers what the office
    /// does. Where the hub refuses by 15 or 16, the office refuses by no question that comes before it.
    fn compare(&mut self, asked: &[(Call, Answer)]) {
        let answers: Vec<_> = asked.iter().map(|(call, _)| self.libraries.answer(call)).collect();
        for ((call, expected), came) in asked.iter().zip(&answers) {
            self.statistics.add(call, expected);
            self.judge(came.as_ref() == Ok(expected), || fault(call, expected, came));
        }
        if let [office, hub] = &answers[..] {
            let alike = match hub {
                Ok(Answer::Refused(15)) => !matches!(office, Ok(Answer::Refused(1..=7 | 13))),
                Ok(Answer::Refused(16)) => !matches!(office, Ok(Answer::Refused(1..=8 | 13))),
                _ => hub == office,
            };
            let (call, expected) = &asked[1];
            self.judge(alike, || format!("{}, office: {}", fault(call, expected, hub), shown(office)));
        }
    }

    fn judge(&mut self, right: bool, fault: impl FnOnce() -> String) {
        let result = if right { Ok(()) } else { Err(fault()) };
        self.tally.add(&result);
        if let Err(fault) = result {
            println!("{fault}");
        }
    }

    fn finish(&self, inputs: u64) -> ! {
        print!("{}", self.statistics);
        println!("    {} of {} inputs that are unfolded are shortened by W2", self.shortened, self.unfolded);
        let Comparison { passed, too_large, too_long, .. } = self;
        println!(
            "    of {inputs} inputs {passed} pass the hub's test, {too_large} are refused by 15 and {too_long} by 16"
        );
        self.tally.finish()
    }
}

fn fault(call: &Call, expected: &Answer, came: &Result<Answer, String>) -> String {
    format!("{}\n    instead: {}", format(level(), level(), call, expected), shown(came))
}

fn shown(came: &Result<Answer, String>) -> String {
    came.as_ref().map_or_else(String::clone, Answer::to_string)
}
