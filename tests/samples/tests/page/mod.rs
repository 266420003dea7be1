//! Reads a page of examples/: the variables, the handler, the tables and the derivation. It knows
//! nothing of the program that writes the pages, and what it does not know is an error.

mod derivation;
mod lines;
mod statements;
mod tables;

use derivation::Nodes;
use lines::{Lines, Read};
use reference::language::Handler;
use reference::proof_file::Proof;
use reference::space::Space;
use statements::Statements;
use tables::Tables;

pub struct Page {
    pub handler: Handler,
    pub proof: Proof,
    pub steps: u128,
}

/// The line of the variables.
struct Head {
    names: Vec<String>,
    sizes: Vec<usize>,
    steps: u128,
}

pub fn read(text: &str) -> Read<Page> {
    let mut lines = Lines::of(text);
    while !lines.starts_with("Variables: ") {
        lines.next()?;
    }
    let line = lines.next()?;
    let head = head(&line.text).ok_or_else(|| line.error("not the line of the variables"))?;
    let space = Space::new(&head.sizes);
    lines.open("Handler")?;
    let statement = Statements { names: &head.names, lines: &mut lines }.statement(0)?;
    lines.expect("```")?;
    lines.open("Tables")?;
    let mut tables = Tables { space: &space, lines: &mut lines };
    let (sets, relations) = (tables.sets()?, tables.relations()?);
    lines.expect("```")?;
    lines.open("Derivation")?;
    let (set_count, relation_count) = (sets.len(), relations.len());
    let root = Nodes { set_count, relation_count, count: 0, lines: &mut lines }.node(0)?;
    lines.expect("```")?;
    lines.finish()?;
    let handler = Handler { space, statement };
    Ok(Page { handler, proof: Proof { sets, relations, root }, steps: head.steps })
}

/// `Variables: a of size 4, b of size 4; 16 states. Accepted with the step number 249.`
fn head(text: &str) -> Option<Head> {
    let text = text.strip_prefix("Variables: ")?.strip_suffix('.')?;
    let (variables, rest) = text.split_once("; ")?;
    let (states, steps) = rest.split_once(" states. Accepted with the step number ")?;
    let (mut names, mut sizes) = (vec![], vec![]);
    for variable in variables.split(", ") {
        let (name, size) = variable.split_once(" of size ")?;
        names.push(name.to_string());
        sizes.push(size.parse().ok()?);
    }
    let agree = sizes.iter().product::<usize>() == states.parse().ok()?;
    agree.then_some(Head { names, sizes, steps: steps.parse().ok()? })
}
