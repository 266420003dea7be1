//! The derivation of a page.

use super::lines::{Lines, Read};
use reference::proof_file::{Node, Rule};

pub struct Nodes<'a, 'b> {
    pub set_count: usize,
    pub relation_count: usize,
    /// How many nodes have been read.
    pub count: usize,
    pub lines: &'a mut Lines<'b>,
}

impl Nodes<'_, '_> {
    pub fn node(&mut self, depth: usize) -> Read<Node> {
        let line = self.lines.next()?;
        let text = line.at_depth(depth)?;
        let (mut node, child_count) =
            self.fields(text).ok_or_else(|| line.error("not the next node"))?;
        self.count += 1;
        for _ in 0..child_count {
            node.children.push(self.node(depth + 1)?);
        }
        Ok(node)
    }

    /// `node 1: while, P 0, R 3, G 4, Q 5, K 1, W 6`: the node, and how many children it has.
    fn fields(&self, text: &str) -> Option<(Node, usize)> {
        let text = text.strip_prefix(&format!("node {}: ", self.count))?;
        let mut fields = text.split(", ");
        let rule = fields.next()?;
        let p = number(fields.next()?, "P ", self.set_count)?;
        let r = number(fields.next()?, "R ", self.relation_count)?;
        let g = number(fields.next()?, "G ", self.relation_count)?;
        let q = number(fields.next()?, "Q ", self.relation_count)?;
        let (rule, child_count) = match rule {
            "skip" => (Rule::Skip, 0),
            "assignment" => (Rule::Assignment, 0),
            "sequence" => (Rule::Sequence, 2),
            "parallel" => (Rule::Parallel, 2),
            "if" => (Rule::If, 1),
            "while" => {
                let k = number(fields.next()?, "K ", self.set_count)?;
                (Rule::While { k, w: number(fields.next()?, "W ", self.relation_count)? }, 1)
            }
            "weaken" => (Rule::Weaken, 1),
            _ => return None,
        };
        let node = Node { rule, p, r, g, q, children: vec![] };
        fields.next().is_none().then_some((node, child_count))
    }
}

/// The number of a table, below their count.
fn number(field: &str, letter: &str, count: usize) -> Option<usize> {
    field.strip_prefix(letter)?.parse().ok().filter(|number| *number < count)
}
