//! Reading the proof file, front to back (faults 20 to 25).

use crate::fault::Fault;
use crate::reader::Reader;
use crate::states::{Relation, StateSet};

/// The most sets, and the most relations, that a proof file has.
pub const MOST_TABLES: usize = 16;
pub const MOST_NODES: u32 = 127;
pub const NODE_LEVELS: u32 = 24;

/// The rule of a node; a while also names its K (a set) and its W (a relation).
#[derive(Clone, Copy, PartialEq, Eq, Debug)]
pub enum Rule {
    Skip,
    Assignment,
    Sequence,
    Parallel,
    If,
    While { k: usize, w: usize },
    Weaken,
}

/// A node of the derivation, its tables by number.
#[derive(Clone, PartialEq, Eq, Debug)]
pub struct Node {
    pub rule: Rule,
    pub p: usize,
    pub r: usize,
    pub g: usize,
    pub q: usize,
    pub children: Vec<Node>,
}

impl Node {
    /// The levels, this node being on the first.
    pub fn levels(&self) -> u32 {
        1 + self.children.iter().map(Node::levels).max().unwrap_or(0)
    }
}

/// What a proof file holds.
#[derive(Clone, PartialEq, Eq, Debug)]
pub struct Proof {
    pub sets: Vec<StateSet>,
    pub relations: Vec<Relation>,
    pub root: Node,
}

pub fn read(bytes: &[u8], states: usize) -> Result<Proof, Fault> {
    let mut reader = Reader::new(bytes, 20, 25);
    let set_count = read_count(&mut reader)?;
    let relation_count = read_count(&mut reader)?;
    let mut sets = Vec::with_capacity(set_count);
    for _ in 0..set_count {
        sets.push(read_set(&mut reader, states)?);
    }
    let mut relations = Vec::with_capacity(relation_count);
    for _ in 0..relation_count {
        relations.push(read_relation(&mut reader, states)?);
    }
    let mut derivation = Derivation { reader, set_count, relation_count, nodes: 0 };
    let root = derivation.node(1)?;
    derivation.reader.finish()?;
    Ok(Proof { sets, relations, root })
}

fn read_count(reader: &mut Reader) -> Result<usize, Fault> {
    let place = reader.bit();
    let count = reader.field(5)? as usize;
    if !(1..=MOST_TABLES).contains(&count) {
        return Err(Fault::at_bit(21, place));
    }
    Ok(count)
}

/// State 0 comes first in the file and lowest in the set.
fn read_set(reader: &mut Reader, states: usize) -> Result<StateSet, Fault> {
    let field = reader.field(states)?;
    Ok(StateSet(field.reverse_bits() >> (64 - states)))
}

fn read_relation(reader: &mut Reader, states: usize) -> Result<Relation, Fault> {
    let mut relation = Relation::none();
    for s in 0..states {
        relation.set_row(s, read_set(reader, states)?);
    }
    Ok(relation)
}

struct Derivation<'a> {
    reader: Reader<'a>,
    set_count: usize,
    relation_count: usize,
    nodes: u32,
}

impl Derivation<'_> {
    fn node(&mut self, level: u32) -> Result<Node, Fault> {
        let place = self.reader.bit();
        let code = self.reader.field(3)?;
        self.nodes += 1;
        if self.nodes > MOST_NODES || level > NODE_LEVELS {
            return Err(Fault::at_bit(24, place));
        }
        if code == 7 {
            return Err(Fault::at_bit(22, place));
        }
        let p = self.set()?;
        let r = self.relation()?;
        let g = self.relation()?;
        let q = self.relation()?;
        let (rule, child_count) = match code {
            0 => (Rule::Skip, 0),
            1 => (Rule::Assignment, 0),
            2 => (Rule::Sequence, 2),
            3 => (Rule::Parallel, 2),
            4 => (Rule::If, 1),
            5 => (Rule::While { k: self.set()?, w: self.relation()? }, 1),
            _ => (Rule::Weaken, 1),
        };
        let mut children = Vec::with_capacity(child_count);
        for _ in 0..child_count {
            children.push(self.node(level + 1)?);
        }
        Ok(Node { rule, p, r, g, q, children })
    }

    fn set(&mut self) -> Result<usize, Fault> {
        self.table(self.set_count)
    }

    fn relation(&mut self) -> Result<usize, Fault> {
        self.table(self.relation_count)
    }

    fn table(&mut self, count: usize) -> Result<usize, Fault> {
        let place = self.reader.bit();
        let number = self.reader.field(4)? as usize;
        if number >= count {
            return Err(Fault::at_bit(23, place));
        }
        Ok(number)
    }
}
