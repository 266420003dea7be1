//! The bytes that a refusal is about.

use crate::proof_file::{Node, Proof, Rule};

/// The kinds of a place, as a host gives them.
pub const BIT: u32 = 0;
pub const NODE: u32 = 1;

/// Which file a refusal is about and the index of the first byte to show, as one number:
/// file × 2^32 + index, where file 0 is the handler file and 1 the proof file. The index is the
/// file's length where none of its bytes are shown.
pub fn view(handler: &[u8], proof: &[u8], number: u32, kind: u32, place: u64) -> u64 {
    let (file, bytes, byte) = match kind {
        BIT if is_of_handler_file(number) => (0, handler, Some(place / 8)),
        BIT if is_of_proof_file(number) => (1, proof, Some(place / 8)),
        NODE if is_of_a_node(number) => (1, proof, node_byte(handler, proof, place)),
        _ => (0, handler, None),
    };
    let length = bytes.len() as u64;
    (file << 32) + byte.map_or(length, |byte| byte.min(length))
}

fn is_of_handler_file(number: u32) -> bool {
    (10..=18).contains(&number)
}

fn is_of_proof_file(number: u32) -> bool {
    (20..=25).contains(&number)
}

/// Whether a check gives this number with a node.
fn is_of_a_node(number: u32) -> bool {
    let rules = matches!(number, 30..=38 | 41..=43 | 45 | 46 | 50..=57 | 60 | 61 | 65 | 66);
    rules || matches!(number, 70..=73 | 80)
}

/// The byte in which the rule code of a node begins; none where there is no such node, or where
/// either file is ill-formed.
fn node_byte(handler: &[u8], proof: &[u8], node: u64) -> Option<u64> {
    let (handler, proof) = crate::read(handler, proof).ok()?;
    let nodes = node_bits(&proof, handler.space.states());
    nodes.get(usize::try_from(node).ok()?).map(|bit| *bit as u64 / 8)
}

/// The bit at which each node begins, by the widths of all that is before it.
fn node_bits(proof: &Proof, states: usize) -> Vec<usize> {
    let counts = 5 + 5;
    let sets = proof.sets.len() * states;
    let relations = proof.relations.len() * states * states;
    let mut bits = Vec::new();
    add_nodes(&proof.root, counts + sets + relations, &mut bits);
    bits
}

/// Adds a node that begins at a bit, and its children after it. Gives where the last one ends.
fn add_nodes(node: &Node, bit: usize, bits: &mut Vec<usize>) -> usize {
    bits.push(bit);
    let own = match node.rule {
        Rule::While { .. } => 3 + 6 * 4,
        _ => 3 + 4 * 4,
    };
    node.children.iter().fold(bit + own, |end, child| add_nodes(child, end, bits))
}
