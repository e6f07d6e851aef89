//! Answer sets ("settled states") by guessing the atoms of question 11.

use super::expanded;
use crate::sheet::{Record, Sheet};
use std::collections::BTreeSet;

/// A set of atoms; bit a is atom a.
pub type Atoms = u64;

struct Rule {
    head: Atoms,
    positives: Atoms,
    negatives: Atoms,
}

/// The atoms of question 11: those in the negative list of some rule or choice rule, and the heads of choice rules.
pub fn decided(sheet: &Sheet) -> BTreeSet<u8> {
    let negated = sheet.rules().chain(sheet.choices()).flat_map(|record| record.negatives.iter().copied());
    negated.chain(sheet.choices().map(|choice| choice.head)).collect()
}

/// Every answer set of the sheet in which choice rules are the pairs of rules that they stand for. There is at most one
/// that agrees with a guess on the atoms of question 11: `candidate` is the only state that can be it. Whether it is an
/// answer set is asked by the definition.
pub fn answer_sets(sheet: &Sheet) -> Vec<Atoms> {
    let rules: Vec<_> = sheet.rules().map(masks).collect();
    let choices: Vec<_> = sheet.choices().map(masks).collect();
    let program = expanded(sheet);
    let program_rules: Vec<_> = program.rules().map(masks).collect();
    let constraints: Vec<_> = program.constraints().map(masks).collect();
    let decided: Vec<u8> = decided(sheet).into_iter().collect();
    let all = set(&decided);
    guesses(&decided)
        .filter_map(|guess| Some(candidate(&rules, &choices, sheet.atoms, guess)).filter(|state| state & all == guess))
        .filter(|&state| least_model(&reduct(&program_rules, state)) == state)
        .filter(|&state| !constraints.iter().any(|constraint| holds(constraint, state)))
        .collect()
}

/// In an answer set that contains the head of a choice rule, its fresh atom is out, and the head's rule is in the reduct
/// if its negative atoms are out. In one that does not, the head's rule derives nothing. So the written atoms are the
/// least model of the rules and of the choice rules with a head that is guessed in. A fresh atom is in if the body
/// holds and the head is out.
fn candidate(rules: &[Rule], choices: &[Rule], written: u8, guess: Atoms) -> Atoms {
    let chosen = choices.iter().filter(|choice| choice.head & guess != 0);
    let kept = rules.iter().chain(chosen).filter(|rule| rule.negatives & guess == 0).collect::<Vec<_>>();
    let state = least_model(&kept);
    let fresh = choices.iter().enumerate().filter(|(_, choice)| holds(choice, state) && choice.head & state == 0);
    fresh.fold(state, |state, (place, _)| state | 1 << (usize::from(written) + place))
}

fn guesses(atoms: &[u8]) -> impl Iterator<Item = Atoms> + '_ {
    (0..1u64 << atoms.len()).map(|choice| {
        atoms
            .iter()
            .enumerate()
            .filter(|(place, _)| choice >> place & 1 == 1)
            .fold(0, |guess, (_, &atom)| guess | 1 << atom)
    })
}

/// The rules whose negative atoms are all outside the state; the least model does not look at their negative lists.
fn reduct(rules: &[Rule], state: Atoms) -> Vec<&Rule> {
    rules.iter().filter(|rule| rule.negatives & state == 0).collect()
}

fn least_model(rules: &[&Rule]) -> Atoms {
    let mut model = 0;
    loop {
        let next = rules.iter().filter(|rule| rule.positives & !model == 0).fold(model, |next, rule| next | rule.head);
        if next == model {
            return model;
        }
        model = next;
    }
}

/// Whether the body holds in the state.
fn holds(body: &Rule, state: Atoms) -> bool {
    body.positives & !state == 0 && body.negatives & state == 0
}

fn masks(record: &Record) -> Rule {
    Rule { head: 1 << record.head, positives: set(&record.positives), negatives: set(&record.negatives) }
}

fn set(atoms: &[u8]) -> Atoms {
    atoms.iter().fold(0, |set, &atom| set | 1 << atom)
}
