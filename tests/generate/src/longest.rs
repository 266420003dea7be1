//! A proof of nearly the greatest length, with its tables numbered as badly as can be.

use crate::renumber::{with_numbers, Sort, MOST_TABLES};
use reference::proof_file::{Node, Proof, Rule};
use reference::states::{Relation, StateSet};

/// Over 64 states 16 sets and 16 relations, no two alike, though all of them are but for the last
/// four states, in relations those of the last row; 127 nodes, of which 112 are loops. The tables
/// are first mentioned from the last to the first, and from then on it is the first.
pub fn proof() -> Proof {
    let all = StateSet::first(64);
    let relation = |index| Relation::of_rows([vec![all; 63], vec![unlike(index)]].concat());
    let mut left = [MOST_TABLES; 2];
    let root = with_numbers(&shape(3), &mut |sort, _| {
        let left = &mut left[usize::from(sort == Sort::Relation)];
        *left = left.saturating_sub(1);
        *left
    });
    Proof { sets: (0..16).map(unlike).collect(), relations: (0..16).map(relation).collect(), root }
}

/// The same proof with its tables the other way round: its form.
pub fn form() -> Proof {
    let Proof { mut sets, mut relations, root } = proof();
    sets.reverse();
    relations.reverse();
    let root = with_numbers(&root, &mut |_, old| MOST_TABLES - 1 - old);
    Proof { sets, relations, root }
}

/// All of the first 60 states, and those of the last four that the index says.
fn unlike(index: u64) -> StateSet {
    StateSet(StateSet::first(60).0 | index << 60)
}

/// Sequences of so many levels, each with 14 loops in each other and a skip at the end.
fn shape(levels: usize) -> Node {
    let node = |rule, children| Node { rule, p: 0, r: 0, g: 0, q: 0, children };
    if levels > 0 {
        return node(Rule::Sequence, vec![shape(levels - 1), shape(levels - 1)]);
    }
    let skip = node(Rule::Skip, vec![]);
    (0..14).fold(skip, |inner, _| node(Rule::While { k: 0, w: 0 }, vec![inner]))
}
