//! What must be true of a composition, whatever the pairs are: worked out anew from the tables of
//! both roots, pair of states by pair of states.

use super::refused;
use beside::composed::Files;
use beside::{judge_form, judge_states};
use generate::explore::{explore_files, Exploration};
use generate::guests::limits::Limit;
use generate::pairs::Scale;
use reference::conditions::Tables;
use reference::language::{Handler, Statement};
use reference::proof_file::{Node, Proof, Rule};
use reference::states::{Relation, StateSet};
use reference::{handler_file, proof_file, Composition, Fault, Verdict};
use std::collections::HashSet;

/// Panics where something is not so of a composition in rooms that are long enough.
pub fn hold(first: Files, second: Files, composition: &Composition) {
    if let Composition::Refused { pair: pair @ 1..=2, fault } = composition {
        let (handler, proof) = if *pair == 1 { first } else { second };
        return of_the_check(handler, proof, fault);
    }
    let [one, two] = [first, second].map(|(handler, proof)| Trees::read(handler, proof));
    match composition {
        Composition::Made { steps, handler, proof } => {
            assert_eq!(*steps, one.steps + two.steps + 1);
            assert_eq!(judge_form(handler, proof).as_ref(), Ok(proof));
            let made = Trees::read(handler, proof);
            assert_eq!(made.steps, *steps);
            assert_eq!(in_the_way(&one, &two), None);
            same_handlers(&one, &two, &made);
            of_both_roots(&one, &two, &made);
        }
        of_neither => {
            let number = in_the_way(&one, &two).expect("something is in the way");
            assert_eq!(*of_neither, refused(number));
        }
    }
}

/// The most moments at which a result is looked at.
const MOST_MOMENTS: usize = 60_000;

/// Whether files were made that are small enough for every run of theirs to be explored. Panics
/// where a run breaks what acceptance promises.
pub fn explored(composition: &Composition) -> bool {
    let Composition::Made { handler, proof, .. } = composition else { return false };
    let space = handler_file::read(handler).expect("it is accepted").space;
    if space.states() > Scale::SMALL.most_states {
        return false;
    }
    match explore_files(handler, proof, MOST_MOMENTS).expect("it is accepted") {
        Exploration::Holds { .. } => true,
        Exploration::TooLarge => false,
        Exploration::Broken(breach) => panic!("{breach:?} {handler:02X?} {proof:02X?}"),
    }
}

/// An accepted pair as trees.
pub struct Trees {
    pub handler: Handler,
    pub proof: Proof,
    pub steps: u32,
}

impl Trees {
    pub fn read(handler: &[u8], proof: &[u8]) -> Trees {
        let Verdict::Accepted(steps) = judge_states(handler, proof).verdict else {
            panic!("{handler:02X?} {proof:02X?} are not accepted");
        };
        let handler = handler_file::read(handler).expect("it is accepted");
        let proof = proof_file::read(proof, handler.space.states()).expect("it is accepted");
        Trees { handler, proof, steps }
    }

    pub fn root(&self) -> Tables<'_> {
        Tables::of(&self.proof, &self.proof.root)
    }

    /// The pairs of states that are so.
    fn pairs(&self, is_so: impl Fn(usize, usize) -> bool) -> Relation {
        let states = 0..self.handler.space.states();
        let row = |s: usize| states.clone().filter(|t| is_so(s, *t)).collect();
        Relation::of_rows(states.clone().map(row))
    }

    /// Whether one of the pairs of states is so.
    fn any(&self, is_so: impl Fn(usize, usize) -> bool) -> bool {
        self.pairs(is_so) != Relation::none()
    }
}

/// The least of 90 to 94 that the trees give.
fn in_the_way(one: &Trees, two: &Trees) -> Option<u32> {
    if one.handler.space.sizes() != two.handler.space.sizes() {
        return Some(90);
    }
    let (a, b) = (one.root(), two.root());
    let in_p = |s: usize| a.p.has(s) && b.p.has(s);
    let leaves = |s: usize, t: usize| (a.g.has(s, t) || b.g.has(s, t)) && in_p(s) && !in_p(t);
    if one.any(|s, t| b.g.has(s, t) && !a.r.has(s, t)) {
        Some(91)
    } else if one.any(|s, t| a.g.has(s, t) && !b.r.has(s, t)) {
        Some(92)
    } else if one.any(leaves) {
        Some(93)
    } else {
        Limit::ALL.into_iter().any(|limit| together(limit, one, two) > limit.most()).then_some(94)
    }
}

/// How much the parallel has of what is limited.
fn together(limit: Limit, one: &Trees, two: &Trees) -> u64 {
    let [a, b] = [one, two].map(|pair| limit.of(&pair.handler, &pair.proof));
    match limit {
        Limit::Statements | Limit::Steps => a + b + 1,
        Limit::StatementLevels => a.max(b) + 1,
        Limit::Nodes => a + b + 3,
        Limit::NodeLevels => a.max(b) + 2,
        Limit::Sets => Mentioned::of(one, two).sets.len() as u64,
        Limit::Relations => Mentioned::of(one, two).relations.len() as u64,
    }
}

/// The tables that the request gives the new nodes.
struct New {
    p: StateSet,
    r: Relation,
    g: Relation,
    q: Relation,
    left_r: Relation,
    right_r: Relation,
}

impl New {
    fn of(one: &Trees, two: &Trees) -> New {
        let (a, b) = (one.root(), two.root());
        let states = 0..one.handler.space.states();
        let p = states.clone().filter(|s| a.p.has(*s) && b.p.has(*s)).collect::<StateSet>();
        let r = one.pairs(|s, t| a.r.has(s, t) && b.r.has(s, t));
        let g = one.pairs(|s, t| a.g.has(s, t) || b.g.has(s, t));
        let left_r = one.pairs(|s, t| r.has(s, t) || b.g.has(s, t));
        let right_r = one.pairs(|s, t| r.has(s, t) || a.g.has(s, t));
        let reached: Vec<StateSet> = states.map(|s| reached(s, &[&r, &g])).collect();
        let q = one.pairs(|s, t| p.has(s) && a.q.has(s, t) && b.q.has(s, t) && reached[s].has(t));
        New { p, r, g, q, left_r, right_r }
    }
}

/// The states that are reached from s by zero or more steps, by going on from what was reached.
fn reached(s: usize, steps: &[&Relation]) -> StateSet {
    let mut reached = StateSet::NONE.with(s);
    let mut open = vec![s];
    while let Some(from) = open.pop() {
        for t in steps.iter().flat_map(|relation| relation.row(from).members()) {
            if !reached.has(t) {
                reached = reached.with(t);
                open.push(t);
            }
        }
    }
    reached
}

/// The different tables that the nodes of the parallel mention.
struct Mentioned {
    sets: HashSet<StateSet>,
    relations: HashSet<Relation>,
}

impl Mentioned {
    fn of(one: &Trees, two: &Trees) -> Mentioned {
        let New { p, r, g, q, left_r, right_r } = New::of(one, two);
        let relations = [r, g, q, left_r, right_r].into();
        let mut mentioned = Mentioned { sets: [p].into(), relations };
        mentioned.add(&one.proof, &one.proof.root);
        mentioned.add(&two.proof, &two.proof.root);
        mentioned
    }

    fn add(&mut self, proof: &Proof, node: &Node) {
        let Tables { p, r, g, q } = Tables::of(proof, node);
        self.sets.insert(p);
        self.relations.extend([r, g, q].map(Relation::clone));
        if let Rule::While { k, w } = node.rule {
            self.sets.insert(proof.sets[k]);
            self.relations.insert(proof.relations[w].clone());
        }
        node.children.iter().for_each(|child| self.add(proof, child));
    }
}

/// The parallel, over the same sizes.
fn same_handlers(one: &Trees, two: &Trees, made: &Trees) {
    assert_eq!(made.handler.space, one.handler.space);
    let Statement::Parallel(left, right) = &made.handler.statement else {
        panic!("{:?} is no parallel", made.handler.statement);
    };
    assert_eq!((&**left, &**right), (&one.handler.statement, &two.handler.statement));
}

/// The root's tables and those of the weakens under it.
fn of_both_roots(one: &Trees, two: &Trees, made: &Trees) {
    assert_eq!(made.proof.root.rule, Rule::Parallel);
    let [left, right] = &made.proof.root.children[..] else {
        panic!("a parallel has two children")
    };
    assert_eq!((left.rule, right.rule), (Rule::Weaken, Rule::Weaken));
    let [left, right] = [left, right].map(|child| Tables::of(&made.proof, child));
    let (a, b, root) = (one.root(), two.root(), made.root());
    let new = New::of(one, two);
    assert!(root.p == new.p && left.p == new.p && right.p == new.p);
    assert!(*root.r == new.r && *left.r == new.left_r && *right.r == new.right_r);
    assert!(*root.g == new.g && left.g == a.g && right.g == b.g);
    assert!(*root.q == new.q && left.q == a.q && right.q == b.q);
}

/// A pair's own refusal is the check's, with its place and its states.
fn of_the_check(handler: &[u8], proof: &[u8], fault: &Fault) {
    let judgement = judge_states(handler, proof);
    assert_eq!(judgement.verdict, Verdict::from(fault.clone()));
    assert_eq!(judgement.states, fault.named());
}
