//! The one form of a proof file: tables numbered by their first mention, each of them once.

use crate::fault::Fault;
use crate::proof_file::{Node, Proof, Rule};
use crate::states::{Relation, StateSet};
use crate::writer::Writer;

/// The number of the refusal of a room that is shorter than the file.
pub const ROOM_TOO_SHORT: u32 = 3;

/// The proof file in its one form, or why it is not written into a room of so many bytes: 2, 10 to
/// 18 and 20 to 25 as in the check, and then 3. No condition is looked at.
pub fn canonical(handler: &[u8], proof: &[u8], room: usize) -> Result<Vec<u8>, Fault> {
    let (handler, proof) = crate::read(handler, proof)?;
    let bytes = Form::of(&proof).write(handler.space.states());
    if bytes.len() > room {
        return Err(Fault::at_bit(ROOM_TOO_SHORT, 0));
    }
    Ok(bytes)
}

/// The nodes of a proof, and the tables that its form has.
pub struct Form<'a> {
    nodes: Vec<&'a Node>,
    sets: Kept<'a, StateSet>,
    relations: Kept<'a, Relation>,
}

impl<'a> Form<'a> {
    /// The proof may have more tables than a file holds.
    pub fn of(proof: &'a Proof) -> Form<'a> {
        let nodes = in_file_order(&proof.root);
        let sets = Kept::by_mentions(&proof.sets, nodes.iter().flat_map(|node| sets_of(node)));
        let relations =
            Kept::by_mentions(&proof.relations, nodes.iter().flat_map(|node| relations_of(node)));
        Form { nodes, sets, relations }
    }

    pub fn nodes(&self) -> usize {
        self.nodes.len()
    }

    pub fn sets(&self) -> usize {
        self.sets.tables.len()
    }

    pub fn relations(&self) -> usize {
        self.relations.tables.len()
    }

    /// The counts, the tables and the nodes with the new numbers. There are at most 16 sets and
    /// 16 relations.
    pub fn write(&self, states: usize) -> Vec<u8> {
        let mut writer = Writer::new();
        writer.field(self.sets() as u64, 5);
        writer.field(self.relations() as u64, 5);
        for set in &self.sets.tables {
            write_set(&mut writer, **set, states);
        }
        for relation in &self.relations.tables {
            for row in &relation.rows()[..states] {
                write_set(&mut writer, *row, states);
            }
        }
        for node in &self.nodes {
            write_node(&mut writer, node, &self.sets.numbers, &self.relations.numbers);
        }
        writer.finish()
    }
}

/// A node before its children, the left child with all below it before the right one.
fn in_file_order(root: &Node) -> Vec<&Node> {
    let mut nodes = Vec::new();
    add_nodes(root, &mut nodes);
    nodes
}

fn add_nodes<'a>(node: &'a Node, nodes: &mut Vec<&'a Node>) {
    nodes.push(node);
    for child in &node.children {
        add_nodes(child, nodes);
    }
}

/// The sets that a node mentions, in their order: P, then K.
fn sets_of(node: &Node) -> impl Iterator<Item = usize> {
    let k = match node.rule {
        Rule::While { k, .. } => Some(k),
        _ => None,
    };
    [Some(node.p), k].into_iter().flatten()
}

/// The relations that a node mentions, in their order: R, G, Q, then W.
fn relations_of(node: &Node) -> impl Iterator<Item = usize> {
    let w = match node.rule {
        Rule::While { w, .. } => Some(w),
        _ => None,
    };
    [Some(node.r), Some(node.g), Some(node.q), w].into_iter().flatten()
}

/// The tables of one sort that are kept, no two of them equal, and for each table of the file that
/// is mentioned its new number.
struct Kept<'a, T> {
    tables: Vec<&'a T>,
    numbers: Vec<Option<usize>>,
}

impl<'a, T: PartialEq> Kept<'a, T> {
    /// Goes through the mentions of the file's tables in their order. Tables are equal when they
    /// have the same members: the reader leaves no bits but those of the N states.
    fn by_mentions(read: &'a [T], mentions: impl Iterator<Item = usize>) -> Kept<'a, T> {
        let mut kept = Kept { tables: Vec::new(), numbers: vec![None; read.len()] };
        for mention in mentions {
            if kept.numbers[mention].is_none() {
                kept.numbers[mention] = Some(kept.number(&read[mention]));
            }
        }
        kept
    }

    /// The number of the table with these members, which is added where there is none.
    fn number(&mut self, members: &'a T) -> usize {
        let known = self.tables.iter().position(|table| *table == members);
        known.unwrap_or_else(|| {
            self.tables.push(members);
            self.tables.len() - 1
        })
    }
}

/// State 0 first.
fn write_set(writer: &mut Writer, set: StateSet, states: usize) {
    writer.field(set.0.reverse_bits() >> (64 - states), states);
}

/// One node without its children.
fn write_node(
    writer: &mut Writer,
    node: &Node,
    sets: &[Option<usize>],
    relations: &[Option<usize>],
) {
    let set = |old: usize| sets[old].expect("it was mentioned") as u64;
    let relation = |old: usize| relations[old].expect("it was mentioned") as u64;
    writer.field(rule_code(node.rule), 3);
    writer.field(set(node.p), 4);
    writer.field(relation(node.r), 4);
    writer.field(relation(node.g), 4);
    writer.field(relation(node.q), 4);
    if let Rule::While { k, w } = node.rule {
        writer.field(set(k), 4);
        writer.field(relation(w), 4);
    }
}

fn rule_code(rule: Rule) -> u64 {
    match rule {
        Rule::Skip => 0,
        Rule::Assignment => 1,
        Rule::Sequence => 2,
        Rule::Parallel => 3,
        Rule::If => 4,
        Rule::While { .. } => 5,
        Rule::Weaken => 6,
    }
}

#[cfg(test)]
mod tests {
    use super::*;

    const HANDLER: [u8; 3] = [0x22, 0x20, 0x02];
    const PROOF: [u8; 6] = [0x08, 0xF0, 0x45, 0x20, 0x02, 0x40];

    /// Its tables are in the order of their mentions, and all differ.
    #[test]
    fn a_file_in_its_form_stays() {
        assert_eq!(canonical(&HANDLER, &PROOF, 6), Ok(PROOF.to_vec()));
    }

    #[test]
    fn a_room_too_short() {
        for room in 0..6 {
            assert_eq!(canonical(&HANDLER, &PROOF, room), Err(Fault::at_bit(3, 0)));
        }
    }

    /// G is relation 0 here, which is R; nobody mentions {(0,1)}, and Q becomes relation 1:
    /// 00001 00010, 11, 0000, 0101, 001 0000 0000 0000 0001 and a fill of 1 bit.
    #[test]
    fn a_table_that_is_dropped() {
        let proof = [0x08, 0xF0, 0x45, 0x20, 0x00, 0x40];
        assert_eq!(canonical(&HANDLER, &proof, 6), Ok(vec![0x08, 0xB0, 0x52, 0x00, 0x02]));
    }
}
