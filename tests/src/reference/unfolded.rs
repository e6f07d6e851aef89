//! The unfolded program and the clauses of its completion.

use super::{expanded, Graph};
use crate::sheet::{Record, Sheet};
use std::collections::BTreeMap;

pub type Variable = u32;

#[derive(Clone, Debug)]
pub struct Body {
    pub positives: Vec<Variable>,
    pub negatives: Vec<Variable>,
}

#[derive(Clone, Debug)]
pub struct AtomCopy {
    pub variable: Variable,
    /// The bodies of the rules kept for this copy.
    pub bodies: Vec<Body>,
}

pub struct Unfolded {
    pub copies: Vec<AtomCopy>,
    pub constraints: Vec<Body>,
}

impl Unfolded {
    /// When a positive atom's latest copy in the same component kept no rule, the rule that names it is dropped too, just as
    /// when there is no copy.
    pub fn new(sheet: &Sheet, graph: &Graph, entries: &[u8]) -> Unfolded {
        Unfolded::derived(sheet, graph, entries, |copy| !copy.bodies.is_empty())
    }

    /// The derivation before W2: a copy that kept no rule is read like any other.
    pub fn unshortened(sheet: &Sheet, graph: &Graph, entries: &[u8]) -> Unfolded {
        Unfolded::derived(sheet, graph, entries, |_| true)
    }

    fn derived(sheet: &Sheet, graph: &Graph, entries: &[u8], can_come_on: fn(&AtomCopy) -> bool) -> Unfolded {
        let sheet = expanded(sheet);
        // The variable of each atom's latest copy, if that can come on.
        let mut latest = BTreeMap::new();
        let mut copies = Vec::new();
        for (&atom, variable) in entries.iter().zip(copy_variables(sheet.atoms, entries)) {
            let rules = sheet.rules().filter(|rule| rule.head == atom);
            let bodies = rules.filter_map(|rule| unfold(rule, graph, &latest)).collect();
            let copy = AtomCopy { variable, bodies };
            if can_come_on(&copy) {
                latest.insert(atom, variable);
            } else {
                latest.remove(&atom);
            }
            copies.push(copy);
        }
        Unfolded { copies, constraints: sheet.constraints().map(final_body).collect() }
    }

    /// The number of rules kept.
    pub fn kept(&self) -> usize {
        self.copies.iter().map(|copy| copy.bodies.len()).sum()
    }

    /// The number of variables: one for each copy, then one for each rule kept.
    pub fn variables(&self) -> Variable {
        (self.copies.len() + self.kept()) as Variable
    }

    pub fn words(&self) -> Vec<u32> {
        let mut words = vec![self.copies.len() as u32];
        for copy in &self.copies {
            words.extend([copy.variable, copy.bodies.len() as u32]);
            words.extend(copy.bodies.iter().flat_map(Body::words));
        }
        words.push(self.constraints.len() as u32);
        words.extend(self.constraints.iter().flat_map(Body::words));
        words
    }

    /// The completion of every copy, then the constraints; without the closing zeros.
    pub fn clauses(&self) -> Vec<Vec<i32>> {
        let mut clauses = Vec::new();
        let mut last = self.copies.len() as i32;
        for copy in &self.copies {
            let head = copy.variable as i32;
            let first = last + 1;
            last += copy.bodies.len() as i32;
            clauses.push([vec![-head], (first..=last).collect()].concat());
            for (defined, body) in (first..).zip(&copy.bodies) {
                clauses.push(vec![head, -defined]);
                clauses.extend(body.literals().map(|literal| vec![-defined, literal]));
                clauses.push([vec![defined], body.denied()].concat());
            }
        }
        clauses.extend(self.constraints.iter().map(Body::denied));
        clauses
    }
}

impl Body {
    fn words(&self) -> Vec<u32> {
        let sizes = [self.positives.len() as u32, self.negatives.len() as u32];
        [&sizes[..], &self.positives, &self.negatives].concat()
    }

    fn literals(&self) -> impl Iterator<Item = i32> + '_ {
        let negatives = self.negatives.iter().map(|&variable| -(variable as i32));
        self.positives.iter().map(|&variable| variable as i32).chain(negatives)
    }

    /// Every literal negated.
    fn denied(&self) -> Vec<i32> {
        self.literals().map(|literal| -literal).collect()
    }
}

/// The variable of each entry's copy: an atom's last copy has variable atom + 1, the others n + 1, n + 2 and on.
fn copy_variables(atoms: u8, entries: &[u8]) -> Vec<Variable> {
    let mut other = Variable::from(atoms);
    let variable = |(place, &atom): (usize, &u8)| {
        if entries[place + 1..].contains(&atom) {
            other += 1;
            other
        } else {
            last_copy(atom)
        }
    };
    entries.iter().enumerate().map(variable).collect()
}

fn last_copy(atom: u8) -> Variable {
    Variable::from(atom) + 1
}

/// The rule's body for a copy of its head, or none if an atom of the head's component has no such latest copy.
fn unfold(rule: &Record, graph: &Graph, latest: &BTreeMap<u8, Variable>) -> Option<Body> {
    let component = graph.component(rule.head);
    let read = |atom: &u8| if component.contains(atom) { latest.get(atom).copied() } else { Some(last_copy(*atom)) };
    Some(Body { positives: rule.positives.iter().map(read).collect::<Option<_>>()?, ..final_body(rule) })
}

/// The body over last copies.
fn final_body(record: &Record) -> Body {
    let last = |atoms: &[u8]| atoms.iter().map(|&atom| last_copy(atom)).collect();
    Body { positives: last(&record.positives), negatives: last(&record.negatives) }
}
