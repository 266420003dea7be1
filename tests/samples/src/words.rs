//! The page of a sample. It gives the handler, the tables and the derivation exactly, so that
//! both files can be rebuilt from it (tests/rebuild.rs does).

use crate::Sample;
use generate::words::expression;
use reference::language::Statement;
use reference::proof_file::{Node, Proof, Rule};
use reference::space::Space;
use reference::states::StateSet;
use reference::step_number;

/// The widest line of a table. The states that do not fit are in the next line, indented.
const WIDTH: usize = 130;

pub fn page(sample: &Sample) -> String {
    let pair = &sample.pair;
    let words = Words { names: sample.variables, space: &pair.handler.space };
    let states = words.space.states();
    let steps = step_number::of(&pair.handler.statement, states);
    let mut handler = String::new();
    words.statement(&pair.handler.statement, 0, &mut handler);
    let mut nodes = String::new();
    derivation(&pair.proof.root, 0, &mut 0, &mut nodes);
    [
        format!("# {}\n\n{}\n\n", sample.name, sample.about),
        "How to read this page: [the samples](../README.md).\n\n".into(),
        format!("Variables: {}; {states} states. ", words.variables()),
        format!("Accepted with the step number {steps}.\n\n"),
        format!("## Handler\n\n```\n{handler}```\n\n"),
        format!("## Tables\n\n```\n{}```\n\n", words.tables(&pair.proof)),
        format!("## Derivation\n\n```\n{nodes}```\n"),
    ]
    .concat()
}

/// A line for each node in file order, with its fields in file order.
fn derivation(node: &Node, depth: usize, next: &mut usize, text: &mut String) {
    let (rule, more) = match node.rule {
        Rule::Skip => ("skip", String::new()),
        Rule::Assignment => ("assignment", String::new()),
        Rule::Sequence => ("sequence", String::new()),
        Rule::Parallel => ("parallel", String::new()),
        Rule::If => ("if", String::new()),
        Rule::While { k, w } => ("while", format!(", K {k}, W {w}")),
        Rule::Weaken => ("weaken", String::new()),
    };
    let Node { p, r, g, q, .. } = node;
    let indent = "  ".repeat(depth);
    *text += &format!("{indent}node {next}: {rule}, P {p}, R {r}, G {g}, Q {q}{more}\n");
    *next += 1;
    for child in &node.children {
        derivation(child, depth + 1, next, text);
    }
}

/// The line, broken between words where it is too wide.
fn wrapped(line: &str) -> String {
    let mut text = String::new();
    let mut column = 0;
    for (index, word) in line.split(' ').enumerate() {
        let width = word.chars().count();
        if column + 1 + width > WIDTH {
            text += "\n   ";
            column = 3;
        }
        if index > 0 {
            text.push(' ');
            column += 1;
        }
        text += word;
        column += width;
    }
    text + "\n"
}

struct Words<'a> {
    names: &'a [&'a str],
    space: &'a Space,
}

impl Words<'_> {
    fn variables(&self) -> String {
        let sizes = self.space.sizes();
        let each =
            self.names.iter().zip(sizes).map(|(name, size)| format!("{name} of size {size}"));
        each.collect::<Vec<_>>().join(", ")
    }

    /// A sequence groups to the right; no sample has one whose left part is a sequence.
    fn statement(&self, statement: &Statement, depth: usize, text: &mut String) {
        let indent = "  ".repeat(depth);
        match statement {
            Statement::Nil => *text += &format!("{indent}nil\n"),
            Statement::Assignment(variable, value) => {
                let name = self.names[*variable];
                *text += &format!("{indent}{name} ← {}\n", expression(self.names, value));
            }
            Statement::Sequence(left, right) => {
                self.statement(left, depth, text);
                text.insert(text.len() - 1, ';');
                self.statement(right, depth, text);
            }
            Statement::Parallel(left, right) => {
                *text += &format!("{indent}par\n");
                self.statement(left, depth + 1, text);
                *text += &format!("{indent}beside\n");
                self.statement(right, depth + 1, text);
                *text += &format!("{indent}rap\n");
            }
            Statement::If(test, body) => {
                *text += &format!("{indent}if {} then\n", expression(self.names, test));
                self.statement(body, depth + 1, text);
                *text += &format!("{indent}fi\n");
            }
            Statement::While(test, body) => {
                *text += &format!("{indent}while {} do\n", expression(self.names, test));
                self.statement(body, depth + 1, text);
                *text += &format!("{indent}od\n");
            }
        }
    }

    fn tables(&self, proof: &Proof) -> String {
        let mut text = String::new();
        for (number, set) in proof.sets.iter().enumerate() {
            text += &wrapped(&format!("set {number}: {}", self.set(*set)));
        }
        for (number, relation) in proof.relations.iter().enumerate() {
            text += &self.relation(number, &relation.rows()[..self.space.states()]);
        }
        text
    }

    fn state(&self, state: usize) -> String {
        let values = &self.space.values(state)[..self.names.len()];
        let values: Vec<String> = values.iter().map(i64::to_string).collect();
        format!("({})", values.join(","))
    }

    fn set(&self, set: StateSet) -> String {
        if set == StateSet::NONE {
            return "no state".into();
        }
        if set == self.space.all() {
            return "every state".into();
        }
        set.members().map(|s| self.state(s)).collect::<Vec<_>>().join(" ")
    }

    fn relation(&self, number: usize, rows: &[StateSet]) -> String {
        let each = |wanted: StateSet| rows.iter().all(|row| *row == wanted);
        let pairs = if each(StateSet::NONE) {
            "no pair".into()
        } else if each(self.space.all()) {
            "every pair".into()
        } else if each(rows[0]) {
            format!("every pair that ends in: {}", self.set(rows[0]))
        } else {
            return self.rows(number, rows);
        };
        wrapped(&format!("relation {number}: {pairs}"))
    }

    /// A line for each start; starts with equal rows share a line.
    fn rows(&self, number: usize, rows: &[StateSet]) -> String {
        let mut text = wrapped(&format!("relation {number} ({}):", self.remark(rows)));
        for (s, row) in rows.iter().enumerate() {
            if *row == StateSet::NONE || rows[..s].contains(row) {
                continue;
            }
            let starts: StateSet = (s..rows.len()).filter(|other| rows[*other] == *row).collect();
            text += &wrapped(&format!("  {} → {}", self.set(starts), self.set(*row)));
        }
        text
    }

    /// How many pairs there are, and what they do to the state.
    fn remark(&self, rows: &[StateSet]) -> String {
        let pairs: Vec<(usize, usize)> =
            (0..rows.len()).flat_map(|s| rows[s].members().map(move |t| (s, t))).collect();
        let (count, change) = match pairs.len() {
            1 => ("1 pair".into(), "a change"),
            count => (format!("{count} pairs"), "each a change"),
        };
        let mut words = vec![count];
        if pairs.iter().all(|(s, t)| s != t) {
            words.push(change.into());
        }
        words.extend((0..self.names.len()).filter_map(|variable| self.change(variable, &pairs)));
        words.join(", ")
    }

    /// What the pairs do to one variable, if they do not both raise and lower it.
    fn change(&self, variable: usize, pairs: &[(usize, usize)]) -> Option<String> {
        let value = |state: usize| self.space.values(state)[variable];
        let raises = pairs.iter().any(|(s, t)| value(*s) < value(*t));
        let lowers = pairs.iter().any(|(s, t)| value(*s) > value(*t));
        let name = self.names[variable];
        match (raises, lowers) {
            (false, false) => Some(format!("leaves {name} alone")),
            (true, false) => Some(format!("only raises {name}")),
            (false, true) => Some(format!("only lowers {name}")),
            (true, true) => None,
        }
    }
}
