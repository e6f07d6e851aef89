//! The count beside clasp's on the same sheets.

use crate::check;
use crate::sheets::families;
use crate::timing::{median, time_in_turns, time_once};
use rulesheet_tests::reference::lparse_text;
use rulesheet_tests::report::Tally;
use rulesheet_tests::rulesheet;
use rulesheet_tests::sheet::Sheet;
use std::path::Path;
use std::process::{self, Command};
use std::{env, fs};

/// Runs of each process.
const RUNS: usize = 15;

pub fn count(sheet: &[u8]) -> u64 {
    rulesheet::count(sheet).expect("the sheet is not refused")[0]
}

pub fn measure(tally: &mut Tally) {
    println!(
        "count: milliseconds, medians; `call` is one call in a loop, `process` is bench --one, `clasp` is clasp 0 -q\n"
    );
    println!("| sheets | number | states | call | process | clasp | clasp / call | clasp / process |");
    println!("|---|--:|--:|--:|--:|--:|--:|--:|");
    let folder = env::temp_dir().join(format!("rulesheet-bench-{}", process::id()));
    fs::create_dir(&folder).expect("a folder for the sheets");
    let mut cases = cases(&folder);
    time_calls(&mut cases);
    for _ in 0..RUNS {
        cases.iter_mut().for_each(Case::run);
    }
    fs::remove_dir_all(&folder).expect("the folder is removed");
    for family in cases.chunk_by(|one, next| one.family == next.family) {
        print_row(family);
        family.iter().for_each(|case| case.check(tally));
    }
}

/// A sheet with its counts and times: by call, process and clasp.
struct Case {
    family: &'static str,
    sheet: Vec<u8>,
    one: Command,
    clasp: Command,
    counts: [u64; 3],
    times: [Vec<f64>; 3],
}

fn cases(folder: &Path) -> Vec<Case> {
    let sheets =
        families().into_iter().flat_map(|(family, sheets)| sheets.into_iter().map(move |sheet| (family, sheet)));
    sheets
        .enumerate()
        .map(|(number, (family, sheet))| Case::new(family, &sheet, &folder.join(number.to_string())))
        .collect()
}

impl Case {
    /// With the sheet in a file, and in another for clasp.
    fn new(family: &'static str, sheet: &Sheet, file: &Path) -> Case {
        let lparse_file = file.with_extension("lparse");
        fs::write(file, sheet.bytes()).expect("the sheet is written");
        fs::write(&lparse_file, lparse_text(sheet)).expect("the sheet is written");
        let mut one = Command::new(env::current_exe().expect("this program's path"));
        one.arg("--one").arg(file);
        let mut clasp = Command::new("clasp");
        clasp.args(["0", "-q"]).arg(&lparse_file);
        Case { family, sheet: sheet.bytes(), one, clasp, counts: [0; 3], times: Default::default() }
    }

    /// Runs both processes.
    fn run(&mut self) {
        let (output, time) = time_process(&mut self.one);
        self.counts[1] = output.trim().parse().expect("a count");
        self.times[1].push(time);
        let (output, time) = time_process(&mut self.clasp);
        self.counts[2] = models(&output);
        self.times[2].push(time);
    }

    fn check(&self, tally: &mut Tally) {
        let [call, process, clasp] = self.counts;
        let name = format!("count, {}: {call}, {process}, {clasp}", self.family);
        check(tally, &name, call == clasp && process == clasp);
    }
}

fn time_calls(cases: &mut [Case]) {
    let times = time_in_turns(cases.len(), |which| cases[which].counts[0] = count(&cases[which].sheet));
    for (case, time) in cases.iter_mut().zip(times) {
        case.times[0].push(time);
    }
}

fn time_process(command: &mut Command) -> (String, f64) {
    let (output, time) = time_once(|| command.output().expect("the process runs"));
    (String::from_utf8(output.stdout).expect("text"), time)
}

/// The number in clasp's line `Models       : 2`.
fn models(output: &str) -> u64 {
    let line = output.lines().find(|line| line.starts_with("Models ")).expect("clasp's number of models");
    line.rsplit(' ').next().and_then(|number| number.parse().ok()).expect(line)
}

/// The times are means over the sheets.
fn print_row(family: &[Case]) {
    let (name, number) = (family[0].family, family.len());
    let states: u64 = family.iter().map(|case| case.counts[0]).sum();
    let mean = |of: usize| family.iter().map(|case| median(case.times[of].clone())).sum::<f64>() / number as f64;
    let [call, process, clasp] = [0, 1, 2].map(mean);
    println!(
        "| {name} | {number} | {states} | {call:.4} | {process:.2} | {clasp:.2} | {:.3} | {:.3} |",
        clasp / call,
        clasp / process
    );
}
