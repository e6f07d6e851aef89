//! bench: times every operation and prints tables: the count beside clasp, the test of a sequence and the shortest missing
//! chain beside walks over all chains, reading beside a pass over the same bytes, writing beside a fill of the same buffer, and the
//! hub beside the office. Every answer is checked.
//! bench --one FILE: prints the count of the sheet in a file.

mod count;
mod hub;
mod missing;
mod reading;
mod sheets;
mod text;
mod timing;
mod walks;
mod writing;

use rulesheet_tests::report::Tally;
use std::{env, fs};

fn main() {
    let arguments: Vec<String> = env::args().skip(1).collect();
    match &arguments[..] {
        [] => measure(),
        [one, file] if one == "--one" => println!("{}", count::count(&fs::read(file).expect(file))),
        _ => panic!("usage: bench [--one FILE]"),
    }
}

fn measure() -> ! {
    let mut tally = Tally::default();
    count::measure(&mut tally);
    walks::measure(&mut tally);
    missing::measure(&mut tally);
    reading::measure(&mut tally);
    writing::measure(&mut tally);
    text::measure(&mut tally);
    hub::measure(&mut tally);
    println!();
    tally.finish()
}

/// Counts a check, and tells of one that fails.
fn check(tally: &mut Tally, name: &str, right: bool) {
    let result = if right { Ok(()) } else { Err(format!("{name}: the answers differ")) };
    tally.add(&result);
    if let Err(fault) = result {
        eprintln!("{fault}");
    }
}
