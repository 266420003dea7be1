//! How often each kind of file and of change was compared.

use generate::renumber::agree;
use reference::proof_file::{Node, Proof, Rule};
use std::collections::{BTreeMap, BTreeSet};

const LEAST_EACH: usize = 50;

/// The kinds that were met, by name, and the number of pairs.
#[derive(Default)]
pub struct Tally {
    counts: BTreeMap<String, usize>,
    pub total: u64,
}

impl Tally {
    pub fn add(&mut self, kind: impl ToString) {
        *self.counts.entry(kind.to_string()).or_default() += 1;
    }

    pub fn add_number(&mut self, number: u32) {
        self.add(format!("number {number}"));
    }

    /// Counts what the form changed of a file that was read.
    pub fn add_changes(&mut self, read: &Proof, form: &Proof) {
        let (sets, relations) = mentions(&read.root);
        self.add_sort("sets", &read.sets, &sets, &form.sets);
        self.add_sort("relations", &read.relations, &relations, &form.relations);
        self.add_rules(&read.root);
        if read == form {
            self.add("in form already");
        }
    }

    /// The same for the tables of one sort, with their mentions in the file.
    fn add_sort<T: PartialEq>(&mut self, sort: &str, read: &[T], mentions: &[usize], form: &[T]) {
        let mentioned = mentions.iter().collect::<BTreeSet<_>>().len();
        if mentioned < read.len() {
            self.add(format!("{sort} dropped"));
        }
        if form.len() < mentioned {
            self.add(format!("{sort} merged"));
        }
        if form.len() == read.len() && form != read {
            self.add(format!("{sort} moved"));
        }
        if form.len() == 16 {
            self.add(format!("16 {sort}"));
        }
    }

    fn add_rules(&mut self, node: &Node) {
        self.add(rule_name(node.rule));
        for child in &node.children {
            self.add_rules(child);
        }
    }

    /// Counts whether two proofs with these files agree, and fails where the files say otherwise.
    pub fn add_agreement(&mut self, (one, two): (&Proof, &Proof), same_bytes: bool) {
        let agreed = agree(one, two);
        assert_eq!(agreed, same_bytes, "{one:?} {two:?}");
        self.add(if agreed { "agree" } else { "differ" });
    }

    /// Prints the counts, and fails where one of the kinds was too rare.
    pub fn often_enough(&self, kinds: &[String]) {
        println!("{} pairs", self.total);
        for (kind, count) in &self.counts {
            println!("  {kind}: {count}");
        }
        let count = |kind: &String| self.counts.get(kind).copied().unwrap_or(0);
        let rare: Vec<&String> = kinds.iter().filter(|kind| count(kind) < LEAST_EACH).collect();
        assert!(rare.is_empty(), "less than {LEAST_EACH}: {rare:?}");
    }
}

pub const RULES: [&str; 7] =
    ["skip", "assignment", "sequence", "parallel", "if", "while", "weaken"];

fn rule_name(rule: Rule) -> &'static str {
    match rule {
        Rule::Skip => RULES[0],
        Rule::Assignment => RULES[1],
        Rule::Sequence => RULES[2],
        Rule::Parallel => RULES[3],
        Rule::If => RULES[4],
        Rule::While { .. } => RULES[5],
        Rule::Weaken => RULES[6],
    }
}

/// The sets and the relations that a node and those below it mention, in their order.
pub fn mentions(node: &Node) -> (Vec<usize>, Vec<usize>) {
    let (mut sets, mut relations) = (vec![node.p], vec![node.r, node.g, node.q]);
    if let Rule::While { k, w } = node.rule {
        sets.push(k);
        relations.push(w);
    }
    for child in &node.children {
        let below = mentions(child);
        sets.extend(below.0);
        relations.extend(below.1);
    }
    (sets, relations)
}
