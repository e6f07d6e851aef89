//! vectors [--reference] FILE...: runs the cases of vector files against the libraries or the reference.

use rulesheet_tests::reference::Reference;
use rulesheet_tests::report::Tally;
use rulesheet_tests::service::Service;
use rulesheet_tests::vectors::{level, parse, Line};
use std::{env, fs, process};

fn main() {
    let mut arguments: Vec<String> = env::args().skip(1).collect();
    let reference = arguments.first().is_some_and(|argument| argument == "--reference");
    if reference {
        arguments.remove(0);
    }
    if arguments.is_empty() {
        fail("usage: vectors [--reference] FILE...");
    }
    let service = if reference { Box::new(Reference) } else { library() };
    let level = level();
    let mut tally = Tally::default();
    for name in &arguments {
        let text = fs::read_to_string(name).unwrap_or_else(|error| fail(&format!("{name}: {error}")));
        for (number, line) in (1..).zip(text.lines()).filter(|(_, line)| !line.is_empty()) {
            if let Err(instead) = run(line, level, &*service, &mut tally) {
                println!("{name}:{number}: {line}\n    instead: {instead}");
            }
        }
    }
    tally.finish();
}

fn run(line: &str, level: u32, service: &dyn Service, tally: &mut Tally) -> Result<(), String> {
    let result = match parse(line) {
        None => Err("the line is no case".into()),
        Some(Line::Case(case)) if case.stands_at(level) && service.offers(case.call.operation) => case.run(service),
        Some(_) => {
            tally.skipped += 1;
            return Ok(());
        }
    };
    tally.add(&result);
    result
}

#[cfg(feature = "library")]
fn library() -> Box<dyn Service> {
    Box::new(rulesheet_tests::library::Libraries::new())
}

#[cfg(not(feature = "library"))]
fn library() -> Box<dyn Service> {
    fail("built without the libraries: only --reference runs")
}

fn fail(message: &str) -> ! {
    eprintln!("{message}");
    process::exit(2)
}
