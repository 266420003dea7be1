//! A pair in the words of the pages' blocks, so that a page's tables can be held to the pair's.

use crate::world::Claim;
use generate::derivation::{Derivation, Step};
use generate::words::expression;
use reference::language::Statement;
use reference::states::{Relation, StateSet};

/// The whole block of a claim.
pub fn block(claim: &Claim) -> String {
    let words = Words { claim };
    let sizes = claim.handler.space.sizes().iter();
    let variables: Vec<String> = claim
        .names
        .iter()
        .zip(sizes)
        .map(|(name, size)| format!("{name} of size {size}"))
        .collect();
    let mut block = format!(
        "claim: {}\nvariables: {}; N = {}\nhandler: {}\n",
        claim.name,
        variables.join(", "),
        claim.handler.space.states(),
        words.statement(&claim.handler.statement),
    );
    words.node(&claim.derivation, 0, &mut 0, &mut block);
    block
}

struct Words<'a> {
    claim: &'a Claim,
}

impl Words<'_> {
    /// A node and its children, each with all of its tables.
    fn node(&self, node: &Derivation, depth: usize, next: &mut usize, block: &mut String) {
        let indent = "  ".repeat(depth);
        let rule = match node.step {
            Step::Skip => "skip",
            Step::Assignment => "assignment",
            Step::Sequence => "sequence",
            Step::Parallel => "parallel",
            Step::If => "if",
            Step::While { .. } => "while",
            Step::Weaken => "weaken",
        };
        *block += &format!("{indent}node {next}: {rule}\n");
        *next += 1;
        let tables = &node.tables;
        *block += &format!("{indent}  P  {}\n", self.set(tables.p));
        for (name, table) in [("R", &tables.r), ("G", &tables.g), ("Q", &tables.q)] {
            *block += &format!("{indent}  {name}  {}\n", self.relation(table));
        }
        if let Step::While { k, w } = &node.step {
            *block += &format!("{indent}  K  {}\n", self.set(*k));
            *block += &format!("{indent}  W  {}\n", self.relation(w));
        }
        for child in &node.children {
            self.node(child, depth + 1, next, block);
        }
    }

    /// The values one after the other: every size here is at most 10.
    fn state(&self, state: usize) -> String {
        let values = &self.claim.handler.space.values(state)[..self.claim.names.len()];
        values.iter().map(i64::to_string).collect()
    }

    fn states(&self, set: StateSet, between: &str) -> String {
        set.members().map(|s| self.state(s)).collect::<Vec<_>>().join(between)
    }

    fn set(&self, set: StateSet) -> String {
        if set == StateSet::NONE {
            return "none".into();
        }
        self.states(set, " ")
    }

    /// The rows that are not empty, each as its start and its ends, unless all rows are alike.
    fn relation(&self, relation: &Relation) -> String {
        let all = self.claim.handler.space.all();
        if *relation == Relation::none() {
            return "none".into();
        }
        let row = relation.row(0);
        if all.members().all(|s| relation.row(s) == row) {
            return match row == all {
                true => "every pair".into(),
                false => format!("every pair that ends in {}", self.states(row, " ")),
            };
        }
        let starts = all.members().filter(|s| relation.row(*s) != StateSet::NONE);
        let rows =
            starts.map(|s| format!("{}→{}", self.state(s), self.states(relation.row(s), ",")));
        rows.collect::<Vec<_>>().join("  ")
    }

    fn statement(&self, statement: &Statement) -> String {
        match statement {
            Statement::Nil => "nil".into(),
            Statement::Assignment(variable, value) => {
                format!(
                    "{} ← {}",
                    self.claim.names[*variable],
                    expression(&self.claim.names, value)
                )
            }
            Statement::Sequence(left, right) => {
                format!("{} ; {}", self.part(left), self.part(right))
            }
            Statement::Parallel(left, right) => {
                format!("{} ∥ {}", self.part(left), self.part(right))
            }
            Statement::If(test, body) => {
                format!("if {} then {}", expression(&self.claim.names, test), self.part(body))
            }
            Statement::While(test, body) => {
                format!("while {} do {}", expression(&self.claim.names, test), self.part(body))
            }
        }
    }

    fn part(&self, statement: &Statement) -> String {
        match statement {
            Statement::Nil | Statement::Assignment(..) => self.statement(statement),
            _ => format!("({})", self.statement(statement)),
        }
    }
}
