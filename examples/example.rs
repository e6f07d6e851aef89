//! Sheet A from Rust: its default sequence, the chain that a shorter one lacks, its clauses and its settled states; and a sheet
//! with a choice rule, also as text.

#[path = "../include/rulesheet.rs"]
mod rulesheet;

fn main() -> Result<(), u32> {
    let sheet = [1, 0, 25, 3, 4, 4, 0, 0, 1, 1, 4, 0, 1, 1, 0, 4, 0, 0, 0, 2, 4, 0, 2, 0, 0];
    let mut sequence = [0; rulesheet::DEFAULT_ROOM];
    let [written] = rulesheet::default_sequence(&sheet, &mut sequence)?;
    let sequence = &sequence[..written as usize];
    println!("default sequence: {}", listed(&sequence[3..]));
    println!("test: {}", rulesheet::test(&sheet, sequence).err().unwrap_or(0));
    let shorter = [1, 0, 3, 0, 1, 2];
    let mut chain = [0; rulesheet::MISSING_ROOM];
    let [written] = rulesheet::missing(&sheet, &shorter, &mut chain)?;
    println!("missing from {}: {}", listed(&shorter[3..]), listed(&chain[..written as usize]));
    let refused = rulesheet::missing(&sheet, sequence, &mut chain).unwrap_err();
    println!("missing from the default sequence: refused {refused}");
    let mut words = [0; 16_384];
    let [written, variables, clauses] = rulesheet::clauses(&sheet, sequence, &mut words)?;
    let ended = words[..written as usize].split_inclusive(|&word| word == 0).count();
    assert_eq!(ended as u64, clauses);
    println!("clauses: {clauses} over {variables} variables");
    let [count, verdict] = rulesheet::count(&sheet)?;
    println!("settled states: {count}, verdict {verdict}");
    // Atom 0, a window's contact, may be in or not.
    let window = [1, 0, 9, 1, 1, 3, 2, 0, 0];
    let [count, verdict] = rulesheet::count(&window)?;
    println!("with a choice rule: {count}, verdict {verdict}");
    let mut text = [0; rulesheet::LPARSE_ROOM];
    let [written] = rulesheet::lparse(&window, &mut text)?;
    print!("for a solver:\n{}", String::from_utf8_lossy(&text[..written as usize]));
    println!("no bytes: refused {}", rulesheet::count(&[]).unwrap_err());
    Ok(())
}

fn listed(atoms: &[u8]) -> String {
    atoms.iter().map(u8::to_string).collect::<Vec<_>>().join(" ")
}
