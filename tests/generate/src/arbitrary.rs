//! Well-formed proofs with any rules and any tables, which no check need accept.

use crate::random::Random;
use crate::renumber::MOST_TABLES;
use reference::proof_file::{Node, Proof, Rule, MOST_NODES, NODE_LEVELS};
use reference::states::{Relation, StateSet};

/// A proof over so many states. Many of its tables are equal, or differ in one member.
pub fn proof(random: &mut Random, states: usize) -> Proof {
    let sets = tables(random, &|random| some_set(random, states), &|random, set: &StateSet| {
        flipped(random, *set, states)
    });
    let relations = tables(random, &|random| some_relation(random, states), &|random, other| {
        with_a_pair_flipped(random, other, states)
    });
    let some = random.between(1, MOST_NODES as usize);
    let nodes = *random.pick(&[1, 2, 5, some, MOST_NODES as usize]);
    let mut maker = Maker { random, sets: sets.len(), relations: relations.len() };
    let root = maker.node(nodes, NODE_LEVELS);
    Proof { sets, relations, root }
}

/// At most 16 tables: new ones, and earlier ones with one member changed or, in two of three
/// cases, as they are.
fn tables<T: Clone + PartialEq>(
    random: &mut Random,
    new: &dyn Fn(&mut Random) -> T,
    changed: &dyn Fn(&mut Random, &T) -> T,
) -> Vec<T> {
    let some = random.between(1, MOST_TABLES);
    let count = *random.pick(&[1, 2, some, MOST_TABLES]);
    let equal = *random.pick(&[0, 10, 40]);
    let mut tables = vec![new(random)];
    while tables.len() < count {
        let earlier = random.pick(&tables).clone();
        let next = match random.below(100) {
            chance if chance < equal => earlier,
            chance if chance < 80 => changed(random, &earlier),
            _ => new(random),
        };
        // Over few states there may be no further table.
        if equal > 0 || !tables.contains(&next) || random.chance(5) {
            tables.push(next);
        }
    }
    tables
}

pub(crate) fn some_set(random: &mut Random, states: usize) -> StateSet {
    let share = *random.pick(&[0, 10, 50, 90, 100]);
    random.thinned(StateSet::first(states), share)
}

pub(crate) fn some_relation(random: &mut Random, states: usize) -> Relation {
    Relation::of_rows((0..states).map(|_| some_set(random, states)))
}

/// At times the first state or the last, mostly any.
fn some_state(random: &mut Random, states: usize) -> usize {
    let any = random.below(states);
    *random.pick(&[0, states - 1, any, any, any, any])
}

fn flipped(random: &mut Random, set: StateSet, states: usize) -> StateSet {
    StateSet(set.0 ^ 1 << some_state(random, states))
}

fn with_a_pair_flipped(random: &mut Random, relation: &Relation, states: usize) -> Relation {
    let mut changed = relation.clone();
    let row = some_state(random, states);
    changed.set_row(row, flipped(random, changed.row(row), states));
    changed
}

/// Makes nodes that mention tables below these numbers.
struct Maker<'a> {
    random: &'a mut Random,
    sets: usize,
    relations: usize,
}

impl Maker<'_> {
    /// A node with at most so many nodes, itself among them, on at most so many levels.
    fn node(&mut self, nodes: usize, levels: u32) -> Node {
        let children = self.children(nodes, levels);
        let choices = match children.len() {
            0 => vec![Rule::Skip, Rule::Assignment],
            1 => vec![Rule::If, self.loop_rule(), Rule::Weaken],
            _ => vec![Rule::Sequence, Rule::Parallel],
        };
        let rule = *self.random.pick(&choices);
        let [r, g, q] = [(); 3].map(|()| self.random.below(self.relations));
        Node { rule, p: self.random.below(self.sets), r, g, q, children }
    }

    fn loop_rule(&mut self) -> Rule {
        Rule::While { k: self.random.below(self.sets), w: self.random.below(self.relations) }
    }

    fn children(&mut self, nodes: usize, levels: u32) -> Vec<Node> {
        if nodes == 1 || levels == 1 {
            return vec![];
        }
        if nodes == 2 || self.random.chance(30) {
            return vec![self.node(nodes - 1, levels - 1)];
        }
        let left = self.random.between(1, nodes - 2);
        [left, nodes - 1 - left].into_iter().map(|part| self.node(part, levels - 1)).collect()
    }
}
