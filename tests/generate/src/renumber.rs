//! The same proof with its tables numbered in other ways, and proofs that differ from it in one
//! place only.

use crate::arbitrary::{some_relation, some_set};
use crate::random::Random;
pub use reference::proof_file::MOST_TABLES;
use reference::proof_file::{Node, Proof, Rule};
use reference::states::StateSet;

/// The same proof with its tables in another order. At times some of them are there more than
/// once, with the mentions spread over the copies, and some are there that no node mentions.
pub fn renumbered(random: &mut Random, proof: &Proof, states: usize) -> Proof {
    let sets = Slots::new(random, &proof.sets, &|random| some_set(random, states));
    let relations = Slots::new(random, &proof.relations, &|random| some_relation(random, states));
    let root = with_numbers(&proof.root, &mut |sort, old| match sort {
        Sort::Set => sets.one_of(random, old),
        Sort::Relation => relations.one_of(random, old),
    });
    Proof { sets: sets.tables, relations: relations.tables, root }
}

/// The sorts of tables.
#[derive(Clone, Copy, PartialEq, Eq, Debug)]
pub enum Sort {
    Set,
    Relation,
}

/// The node and those below it with other numbers. The mentions are shown in their order: the
/// nodes in file order, and P, R, G, Q, K, W within a node.
pub fn with_numbers(node: &Node, number: &mut impl FnMut(Sort, usize) -> usize) -> Node {
    let p = number(Sort::Set, node.p);
    let [r, g, q] = [node.r, node.g, node.q].map(|old| number(Sort::Relation, old));
    let rule = match node.rule {
        Rule::While { k, w } => {
            Rule::While { k: number(Sort::Set, k), w: number(Sort::Relation, w) }
        }
        rule => rule,
    };
    let children = node.children.iter().map(|child| with_numbers(child, number)).collect();
    Node { rule, p, r, g, q, children }
}

/// The tables of one sort in their new places, and for each old number the new ones of its copies.
struct Slots<T> {
    tables: Vec<T>,
    copies: Vec<Vec<usize>>,
}

impl<T: Clone> Slots<T> {
    fn new(random: &mut Random, old: &[T], spare: &dyn Fn(&mut Random) -> T) -> Slots<T> {
        let mut slots = Slots { tables: Vec::new(), copies: vec![Vec::new(); old.len()] };
        for (place, source) in sources(random, old.len()).into_iter().enumerate() {
            slots.tables.push(match source {
                Some(number) => {
                    slots.copies[number].push(place);
                    old[number].clone()
                }
                None if random.chance(50) => random.pick(old).clone(),
                None => spare(random),
            });
        }
        slots
    }

    /// The number of one of the copies.
    fn one_of(&self, random: &mut Random, old: usize) -> usize {
        *random.pick(&self.copies[old])
    }
}

/// What each place has, in a random order: the table of an old number, each at least once, or one
/// that no node is to mention.
fn sources(random: &mut Random, count: usize) -> Vec<Option<usize>> {
    let some = random.between(count, MOST_TABLES);
    let total = *random.pick(&[count, some, MOST_TABLES]);
    let copied = *random.pick(&[0, 60, 100]);
    let mut sources: Vec<Option<usize>> = (0..count).map(Some).collect();
    while sources.len() < total {
        let copy = random.chance(copied);
        sources.push(copy.then(|| random.below(count)));
    }
    random.shuffle(&mut sources);
    sources
}

/// The proof with one thing changed: a member of a table, mentioned or not, a number in a node, or
/// a rule. The nodes may agree with those of the proof all the same.
pub fn similar(random: &mut Random, proof: &Proof, states: usize) -> Proof {
    let mut changed = proof.clone();
    let state = random.below(states);
    match random.below(4) {
        0 => {
            let set = random.pick_mut(&mut changed.sets);
            *set = flipped(*set, state);
        }
        1 => {
            let row = if random.chance(50) { 0 } else { states - 1 };
            let relation = random.pick_mut(&mut changed.relations);
            relation.set_row(row, flipped(relation.row(row), state));
        }
        _ => change_node(random, &mut changed),
    }
    changed
}

fn flipped(set: StateSet, state: usize) -> StateSet {
    StateSet(set.0 ^ 1 << state)
}

/// Another number or another rule in one of the nodes.
fn change_node(random: &mut Random, proof: &mut Proof) {
    let (sets, relations) = (proof.sets.len(), proof.relations.len());
    let mut count = 0;
    each(&mut proof.root, &mut |_| count += 1);
    let chosen = random.below(count);
    each(&mut proof.root, &mut |node| {
        count -= 1;
        if count == chosen {
            change_field(random, node, sets, relations);
        }
    });
}

/// Shows every node.
fn each(node: &mut Node, show: &mut impl FnMut(&mut Node)) {
    show(node);
    for child in &mut node.children {
        each(child, show);
    }
}

fn change_field(random: &mut Random, node: &mut Node, sets: usize, relations: usize) {
    let (set, relation) = (random.below(sets), random.below(relations));
    match (random.below(6), &mut node.rule) {
        (0, _) => node.p = set,
        (1, _) => node.r = relation,
        (2, _) => node.g = relation,
        (3, _) => node.q = relation,
        (4, Rule::While { k, .. }) => *k = set,
        (5, Rule::While { w, .. }) => *w = relation,
        (_, rule) => *rule = of_the_same_width(*rule),
    }
}

/// Another rule with as many fields and as many children, where there is one.
fn of_the_same_width(rule: Rule) -> Rule {
    match rule {
        Rule::Skip => Rule::Assignment,
        Rule::Assignment => Rule::Skip,
        Rule::Sequence => Rule::Parallel,
        Rule::Parallel => Rule::Sequence,
        Rule::If => Rule::Weaken,
        Rule::Weaken => Rule::If,
        Rule::While { k, w } => Rule::While { k, w },
    }
}

/// Whether the nodes of two proofs agree in rules and table members.
pub fn agree(one: &Proof, two: &Proof) -> bool {
    nodes_agree((one, &one.root), (two, &two.root))
}

type NodeOf<'a> = (&'a Proof, &'a Node);

fn nodes_agree((one, a): NodeOf, (two, b): NodeOf) -> bool {
    let set = |a: usize, b: usize| one.sets[a] == two.sets[b];
    let relation = |a: usize, b: usize| one.relations[a] == two.relations[b];
    let rules = match (a.rule, b.rule) {
        (Rule::While { k, w }, Rule::While { k: other_k, w: other_w }) => {
            set(k, other_k) && relation(w, other_w)
        }
        (rule, other) => rule == other,
    };
    let own = set(a.p, b.p) && relation(a.r, b.r) && relation(a.g, b.g) && relation(a.q, b.q);
    let mut below = a.children.iter().zip(&b.children);
    rules && own && below.all(|(a, b)| nodes_agree((one, a), (two, b)))
}
