//! lengthened [INPUTS [SEED]]: inserts entries into sequences that pass, and compares the models of the clauses before and after, by both
//! libraries and by the reference.

use rulesheet_tests::inputs::small_sheet;
use rulesheet_tests::library::Libraries;
use rulesheet_tests::limits::Limits;
use rulesheet_tests::models::{are_clauses, models, Model};
use rulesheet_tests::random::Random;
use rulesheet_tests::reference::{answer, Graph, Reference};
use rulesheet_tests::report::Tally;
use rulesheet_tests::sequences::{lengthened, passing};
use rulesheet_tests::service::{hex, Answer, Argument, Call, Host, Operation, Service};
use rulesheet_tests::sheet::{sequence_bytes, Sheet};
use std::collections::{BTreeMap, BTreeSet};
use std::env;

const INPUTS: u64 = 2_000;
const SEED: u64 = 1;
/// The largest component of a sheet that is not made for the hub.
const COMPONENT: usize = 7;
/// The most steps that finding all models of some clauses may take.
const STEPS: usize = 1_000_000;

fn main() {
    let mut arguments =
        env::args().skip(1).map(|argument| argument.parse().expect("usage: lengthened [INPUTS [SEED]]"));
    let inputs = arguments.next().unwrap_or(INPUTS);
    let mut random = Random::new(arguments.next().unwrap_or(SEED));
    let services: [(&str, &dyn Service); 2] = [("reference", &Reference), ("library", &Libraries::new())];
    let mut comparison = Comparison::default();
    for _ in 0..inputs {
        let input = Input::any(&mut random);
        comparison.count(&input);
        for host in Host::ALL.into_iter().filter(|&host| input.is_for(host)) {
            let beyond = input.beyond(&mut random, host);
            for (name, service) in services {
                let judged = input.refused(service, host, &beyond).and_then(|()| input.judged(service, host));
                comparison.add(&input, host, name, judged);
            }
        }
    }
    comparison.finish(inputs);
}

/// A sheet, a sequence that passes, and that sequence with entries inserted.
struct Input {
    sheet: Sheet,
    graph: Graph,
    shorter: Vec<u8>,
    longer: Vec<u8>,
}

impl Input {
    /// Half of the inputs are within the hub's limits. Now and then there are as many entries as are taken.
    fn any(random: &mut Random) -> Input {
        let Limits { component, entries: most, .. } = random.pick(&Host::ALL).limits();
        let sheet = small_sheet(random, component.min(COMPONENT));
        let graph = Graph::new(&sheet);
        let shorter = passing(random, &graph);
        let number = if random.one_in(20) { most } else { random.between(1, 20) };
        let longer = lengthened(random, &graph, &shorter, number, most);
        Input { sheet, graph, shorter, longer }
    }

    /// Whether it is asked of the service: of the office always, of the hub where that accepts the shorter sequence and takes as many
    /// entries as the longer one has.
    fn is_for(&self, host: Host) -> bool {
        let test = self.call(Operation::Test, host, &self.shorter);
        host == Host::Office || answer(&test) == Answer::Passed && self.longer.len() <= host.limits().entries
    }

    /// The longer sequence with so many entries more that there is one too many; a sheet without atoms has no such.
    fn beyond(&self, random: &mut Random, host: Host) -> Vec<u8> {
        let too_many = host.limits().entries + 1;
        lengthened(random, &self.graph, &self.longer, too_many, too_many)
    }

    fn has_loop(&self) -> bool {
        self.graph.atoms().any(|atom| self.graph.successors(atom).intersection(self.graph.component(atom)).count() > 0)
    }

    /// A call with just the room that the reference needs.
    fn call(&self, operation: Operation, host: Host, entries: &[u8]) -> Call {
        let mut call = Call::new(operation, &self.sheet.bytes()).at(host);
        if operation.takes(Argument::Sequence) {
            call = call.sequence(&sequence_bytes(entries));
        }
        let need = answer(&call).length();
        call.room(need)
    }

    /// Whether one entry too many is refused, by the hub where the office still accepts.
    fn refused(&self, service: &dyn Service, host: Host, beyond: &[u8]) -> Result<(), String> {
        let wanted = match host {
            _ if self.graph.atoms().count() == 0 => vec![],
            Host::Office => vec![(Host::Office, Answer::Refused(8))],
            Host::Hub => vec![(Host::Hub, Answer::Refused(16)), (Host::Office, Answer::Passed)],
        };
        for (host, wanted) in wanted {
            let came = service.answer(&self.call(Operation::Test, host, beyond))?;
            if came != wanted {
                return Err(format!("{host:?} answers {came} and not {wanted} to {}", hex(&sequence_bytes(beyond))));
            }
        }
        Ok(())
    }

    /// What the longer sequence means, provided that the shorter one means the same and the count agrees; none where there are too many
    /// models to list.
    fn judged(&self, service: &dyn Service, host: Host) -> Result<Option<Meaning>, String> {
        let [before, after] = [&self.shorter, &self.longer].map(|entries| {
            let meaning = self.meaning(service, host, entries);
            meaning.map_err(|fault| format!("with {} entries {fault}", entries.len()))
        });
        let (Some(before), Some(after)) = (before?, after?) else { return Ok(None) };
        if before.cuts != after.cuts {
            return Err(format!("the cuts are {:?} before and {:?} after", before.cuts, after.cuts));
        }
        match service.answer(&self.call(Operation::Count, host, &[]))? {
            Answer::Count { count, .. } if count == after.cuts.len() as u64 => Ok(Some(after)),
            other => Err(format!("the count answers {other}, and there are {} models", after.cuts.len())),
        }
    }

    fn meaning(&self, service: &dyn Service, host: Host, entries: &[u8]) -> Result<Option<Meaning>, String> {
        let ask = |operation| service.answer(&self.call(operation, host, entries));
        match (ask(Operation::Test)?, ask(Operation::Unfolded)?, ask(Operation::Clauses)?) {
            (Answer::Passed, Answer::Unfolded(unfolded), Answer::Clauses { words, variables, .. }) => {
                let copies = copy_variables(&unfolded).unwrap_or_default();
                let known = copies.iter().all(|&copy| copy as u64 <= variables) && variables >= self.sheet.atoms.into();
                if copies.len() != entries.len() || !known || !are_clauses(&words, variables) {
                    return Err(format!("{unfolded:?} and {words:?} are no program and clauses"));
                }
                let models = models(&words, variables, STEPS);
                models.map(|models| Meaning::new(self.sheet.atoms, entries, &copies, &models)).transpose()
            }
            (test, unfolded, clauses) => {
                Err(format!("the answers are: test {test}, unfolded {unfolded}, clauses {clauses}"))
            }
        }
    }
}

/// The variable of each copy in the words of an unfolded program.
fn copy_variables(words: &[u32]) -> Option<Vec<usize>> {
    let (&number, mut rest) = words.split_first()?;
    let mut variables = Vec::new();
    for _ in 0..number {
        let [variable, rules, after @ ..] = rest else { return None };
        variables.push(*variable as usize);
        rest = after;
        for _ in 0..*rules {
            let [positives, negatives, after @ ..] = rest else { return None };
            rest = after.get(*positives as usize + *negatives as usize..)?;
        }
    }
    Some(variables)
}

/// What the models of a sequence's clauses say.
#[derive(Default)]
struct Meaning {
    /// The models, cut to the written atoms.
    cuts: BTreeSet<Vec<u8>>,
    /// The number of models in which an atom has a false copy before a true one.
    late: usize,
}

impl Meaning {
    /// Provided that no two models have one cut, and that every copy behind a true one of its atom is true.
    fn new(written: u8, entries: &[u8], copies: &[usize], models: &[Model]) -> Result<Meaning, String> {
        let mut meaning = Meaning::default();
        for model in models {
            meaning.late += usize::from(has_late_copy(entries, copies, model)?);
            let cut: Vec<u8> = (0..written).filter(|&atom| model[usize::from(atom) + 1]).collect();
            if !meaning.cuts.insert(cut.clone()) {
                return Err(format!("two models have the cut {cut:?}"));
            }
        }
        Ok(meaning)
    }
}

/// Whether a copy is true in the model behind a false one of its atom. None may be false behind a true one.
fn has_late_copy(entries: &[u8], copies: &[usize], model: &Model) -> Result<bool, String> {
    let mut latest = BTreeMap::new();
    let mut late = false;
    for (&atom, &copy) in entries.iter().zip(copies) {
        match (latest.insert(atom, model[copy]), model[copy]) {
            (Some(true), false) => return Err(format!("copy {copy} of atom {atom} is false behind a true one")),
            (Some(false), true) => late = true,
            _ => {}
        }
    }
    Ok(late)
}

#[derive(Default)]
struct Comparison {
    tally: Tally,
    /// Inputs with fresh atoms, with positive loops, that the hub takes, and with as many entries as are taken.
    fresh: usize,
    loops: usize,
    hub: usize,
    full: usize,
    /// Models of the longer sequences, and those of them that have a late copy; each counted once.
    models: usize,
    late: usize,
}

impl Comparison {
    fn count(&mut self, input: &Input) {
        self.fresh += usize::from(input.sheet.choices().count() > 0);
        self.loops += usize::from(input.has_loop());
        self.hub += usize::from(input.is_for(Host::Hub));
        self.full += usize::from(Host::ALL.iter().any(|host| host.limits().entries == input.longer.len()));
    }

    fn add(&mut self, input: &Input, host: Host, name: &str, judged: Result<Option<Meaning>, String>) {
        match judged {
            Ok(Some(meaning)) => {
                self.tally.passed += 1;
                if host == Host::Office && name == "library" {
                    self.models += meaning.cuts.len();
                    self.late += meaning.late;
                }
            }
            Ok(None) => self.tally.skipped += 1,
            Err(fault) => {
                self.tally.failed += 1;
                let [shorter, longer] = [&input.shorter, &input.longer].map(|entries| hex(&sequence_bytes(entries)));
                println!("{} {shorter} {longer}\n    {host:?}, {name}: {fault}", hex(&input.sheet.bytes()));
            }
        }
    }

    fn finish(&self, inputs: u64) -> ! {
        let Comparison { tally, fresh, loops, hub, full, models, late } = self;
        println!("    of {inputs} inputs {fresh} have fresh atoms, {loops} have loops, {hub} are taken by the hub");
        println!(
            "    {full} are lengthened to as many entries as are taken, {} cases have too many models",
            tally.skipped
        );
        println!(
            "    of {models} models of lengthened sequences {late} have an atom with a false copy before a true one"
        );
        tally.finish()
    }
}
