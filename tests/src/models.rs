//! All models of clauses: one variable after the other is tried false and true, with unit propagation.

/// Whether each variable is true; place 0 is false and of no variable.
pub type Model = Vec<bool>;

/// Whether the words are clauses over so many variables, each ending in 0.
pub fn are_clauses(words: &[i32], variables: u64) -> bool {
    let within = words.iter().all(|word| u64::from(word.unsigned_abs()) <= variables);
    within && words.last().is_none_or(|&word| word == 0)
}

/// All models, each once, false before true; none where that takes more than so many steps. A step sets a variable, or lists it in a
/// model.
pub fn models(words: &[i32], variables: u64, steps: usize) -> Option<Vec<Model>> {
    let clauses: Vec<&[i32]> =
        words.split_inclusive(|&word| word == 0).map(|clause| &clause[..clause.len() - 1]).collect();
    let mut search = Search::new(&clauses, variables as usize, steps);
    let single = clauses.iter().filter(|clause| clause.len() == 1).map(|clause| clause[0]).collect();
    if !clauses.iter().any(|clause| clause.is_empty()) && search.set(single)? {
        search.branch()?;
    }
    Some(search.models)
}

struct Search<'a> {
    /// For each literal, the clauses in which it stands.
    holding: Vec<Vec<&'a [i32]>>,
    /// As a model, but none where a variable is open.
    values: Vec<Option<bool>>,
    /// The literals made true, in that order.
    trail: Vec<i32>,
    /// The steps that are left.
    steps: usize,
    models: Vec<Model>,
}

impl<'a> Search<'a> {
    fn new(clauses: &[&'a [i32]], variables: usize, steps: usize) -> Search<'a> {
        let mut holding = vec![Vec::new(); 2 * (variables + 1)];
        let mut values = vec![None; variables + 1];
        values[0] = Some(false);
        for &clause in clauses {
            clause.iter().for_each(|&literal| holding[place(literal)].push(clause));
        }
        Search { holding, values, trail: Vec::new(), steps, models: Vec::new() }
    }

    /// Lists the models that agree with the values; none where the steps do not suffice.
    fn branch(&mut self) -> Option<()> {
        let Some(variable) = self.values.iter().position(Option::is_none) else {
            self.steps = self.steps.checked_sub(self.values.len())?;
            self.models.push(self.values.iter().flatten().copied().collect());
            return Some(());
        };
        for literal in [-(variable as i32), variable as i32] {
            let before = self.trail.len();
            if self.set(vec![literal])? {
                self.branch()?;
            }
            for literal in self.trail.drain(before..) {
                self.values[variable_of(literal)] = None;
            }
        }
        Some(())
    }

    /// Makes literals true, and all that follow from clauses with one open literal and no true one. Whether that is possible; none
    /// where the steps do not suffice.
    fn set(&mut self, mut waiting: Vec<i32>) -> Option<bool> {
        while let Some(literal) = waiting.pop() {
            match self.value(literal) {
                Some(true) => continue,
                Some(false) => return Some(false),
                None => self.steps = self.steps.checked_sub(1)?,
            }
            self.values[variable_of(literal)] = Some(literal > 0);
            self.trail.push(literal);
            for clause in &self.holding[place(-literal)] {
                if clause.iter().any(|&other| self.value(other) == Some(true)) {
                    continue;
                }
                let mut open = clause.iter().filter(|&&other| self.value(other).is_none());
                match (open.next(), open.next()) {
                    (None, _) => return Some(false),
                    (Some(&only), None) => waiting.push(only),
                    _ => {}
                }
            }
        }
        Some(true)
    }

    /// Whether the literal is true; none where it is open.
    fn value(&self, literal: i32) -> Option<bool> {
        self.values[variable_of(literal)].map(|value| value == (literal > 0))
    }
}

fn variable_of(literal: i32) -> usize {
    literal.unsigned_abs() as usize
}

/// The place of a literal among all literals.
fn place(literal: i32) -> usize {
    2 * variable_of(literal) + usize::from(literal > 0)
}
