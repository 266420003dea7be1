//! Pairs over the one variable c, small enough for the states that a condition names to be
//! written out by hand.

use beside::{at_node, judge_states, Judgement};
use generate::author::operate;
use generate::derivation::{Derivation, Step, Tables};
use generate::pairs::Pair;
use generate::programs::{number, read, store};
use reference::handler_file::MOST_STATES;
use reference::language::{Expression, Handler, Operation, Statement};
use reference::space::Space;
use reference::states::{Relation, StateSet};
use reference::Verdict;

pub fn states(members: &[usize]) -> StateSet {
    members.iter().copied().collect()
}

pub fn pairs(members: &[(usize, usize)]) -> Relation {
    let mut relation = Relation::none();
    for (s, t) in members {
        relation.set_row(*s, relation.row(*s).with(*t));
    }
    relation
}

/// Every pair, whatever the size of c: a file holds the rows and ends below it.
pub fn every() -> Relation {
    Relation::of_rows([StateSet::first(MOST_STATES); MOST_STATES])
}

pub fn none() -> Relation {
    Relation::none()
}

/// A node with P, R and Q; its G holds every pair.
pub fn node(
    step: Step,
    p: &[usize],
    r: Relation,
    q: Relation,
    children: Vec<Derivation>,
) -> Derivation {
    Derivation { step, tables: Tables { p: states(p), r, g: every(), q }, children }
}

pub fn skip(p: &[usize], r: Relation, q: Relation) -> Derivation {
    node(Step::Skip, p, r, q, vec![])
}

/// The node with another G.
pub fn guarantee(mut node: Derivation, g: Relation) -> Derivation {
    node.tables.g = g;
    node
}

pub fn looping(k: &[usize], w: Relation) -> Step {
    Step::While { k: states(k), w: Box::new(w) }
}

pub fn c() -> Expression {
    read(0)
}

pub fn c_is(value: i64) -> Expression {
    operate(Operation::Equal, c(), number(value))
}

pub fn set(value: Expression) -> Statement {
    store(0, value)
}

pub fn one() -> Expression {
    number(1)
}

pub fn nil() -> Statement {
    Statement::Nil
}

/// What is said of the statement and its derivation, with variables of these sizes.
pub fn judged(sizes: &[usize], statement: Statement, derivation: Derivation) -> Judgement {
    let handler = Handler { space: Space::new(sizes), statement };
    let pair = Pair::new(handler, derivation).expect("it is small");
    judge_states(&pair.handler_file.bytes, &pair.proof_file.bytes)
}

/// At most three states as the C interface packs them.
pub fn packed(states: &[u64]) -> u64 {
    match states {
        [] => 0,
        [s] => (1 << 24) + s,
        [s, t] => (2 << 24) + s + (t << 8),
        [s, t, u] => (3 << 24) + s + (t << 8) + (u << 16),
        _ => panic!("no condition names so many states: {states:?}"),
    }
}

/// A refusal at a node that names these states.
pub fn refusal(number: u32, at: u32, states: &[u64]) -> Judgement {
    Judgement { verdict: at_node(number, at), states: packed(states) }
}

/// The statement over three states is refused with this number at this node, and names these states.
pub fn refused(statement: Statement, derivation: Derivation, number: u32, at: u32, states: &[u64]) {
    assert_eq!(judged(&[3], statement, derivation), refusal(number, at, states));
}

pub fn acceptance(steps: u32) -> Judgement {
    Judgement { verdict: Verdict::Accepted(steps), states: 0 }
}

/// The statement over three states is accepted with this step number.
pub fn accepted(statement: Statement, derivation: Derivation, steps: u32) {
    assert_eq!(judged(&[3], statement, derivation), acceptance(steps));
}

/// A loop over nil, its body's tables as 34 and 36 to 38 want them.
pub fn idle(p: &[usize], r: Relation, q: Relation, k: &[usize], w: Relation) -> Derivation {
    let inner: Vec<usize> = p.iter().copied().filter(|s| k.contains(s)).collect();
    let body = skip(&inner, r.clone(), w.ending_in(states(p)));
    node(looping(k, w), p, r, q, vec![body])
}

/// An if that tests whether c is 0, over nil, with its body's tables as they must be.
pub fn when_0(p: &[usize], r: Relation, q: Relation) -> Derivation {
    let inner: Vec<usize> = p.iter().copied().filter(|s| *s == 0).collect();
    node(Step::If, p, r.clone(), q.clone(), vec![skip(&inner, r, q)])
}

/// A sequence of two nils that starts and ends in 0.
pub fn one_by_one(right_p: &[usize], q: Relation) -> Derivation {
    let still = || pairs(&[(0, 0)]);
    let children = vec![skip(&[0], none(), still()), skip(right_p, none(), still())];
    node(Step::Sequence, &[0], none(), q, children)
}

/// A parallel of two nils over three states: the left side may move 0 to 1, the right side 1 to
/// 2, so that together 0 comes to 2.
pub fn together(g: Relation, q: Relation) -> Derivation {
    guarantee(side_by_side(&[0, 1, 2], pairs(&[(0, 1)]), pairs(&[(1, 2)]), q), g)
}

/// A parallel of two nils with these guarantees, beside others that do nothing. Each side's Q
/// holds every pair, so that Q of the parallel has to hold every pair that is reached.
pub fn side_by_side(p: &[usize], left: Relation, right: Relation, q: Relation) -> Derivation {
    let children = vec![
        guarantee(skip(p, right.clone(), every()), left.clone()),
        guarantee(skip(p, left, every()), right),
    ];
    node(Step::Parallel, p, none(), q, children)
}
