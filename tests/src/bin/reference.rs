//! reference OPERATION: prints what a program prints by the reference: `program` or `lparse-program`, by its name in vector files.

use rulesheet_tests::reference::answer;
use rulesheet_tests::service::{Answer, Call, Operation};
use std::io::{self, Read};
use std::{env, process};

fn main() -> io::Result<()> {
    let mut input = Vec::new();
    io::stdin().read_to_end(&mut input)?;
    let operation = env::args().nth(1).and_then(|name| Operation::named(&name));
    match operation.map(|operation| answer(&Call::new(operation, &input))) {
        Some(Answer::Text(text)) => print!("{text}"),
        _ => {
            eprintln!("usage: reference program|lparse-program");
            process::exit(2)
        }
    }
    Ok(())
}
