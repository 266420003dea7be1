//! Which complaint comes first where others move a variable that is read: 41 and 45 are asked after
//! 30 and before all others, 50 in the order of the numbers.

use crate::children::change;
use crate::small::*;
use generate::author::operate;
use generate::derivation::{Derivation, Step};
use generate::programs::{repeat, when};
use reference::language::{Expression, Operation};
use reference::states::Relation;

/// The change that others make.
fn up() -> Relation {
    pairs(&[(0, 1)])
}

/// P and Q with which 31, 32 or 33 is broken under that rely, with the number and the states.
fn unstable() -> [(&'static [usize], Relation, u32, &'static [u64]); 3] {
    [
        (&[0], every(), 31, &[0, 1]),
        (&[0, 1], pairs(&[(1, 1)]), 32, &[0, 1, 1]),
        (&[0, 1], pairs(&[(0, 0)]), 33, &[0, 0, 1]),
    ]
}

fn store(p: &[usize], q: Relation) -> Derivation {
    node(Step::Assignment, p, up(), q, vec![])
}

/// Each is reported where c is not read, and 41 where it is.
#[test]
fn of_an_assignment() {
    for (p, q, number, states) in unstable() {
        refused(set(one()), store(p, q.clone()), number, 0, states);
        refused(set(c()), store(p, q), 41, 0, &[]);
    }
    // 42 and 43 come later: here nothing is in Q or G.
    refused(set(c()), guarantee(store(&[0, 1], none()), none()), 41, 0, &[]);
    // 30 comes first: this is the rule of an assignment for an if that reads c.
    refused(when(c_is(0), nil()), store(&[0], every()), 30, 0, &[]);
}

/// Each is reported where the test reads nothing, and 45 where it reads c.
#[test]
fn of_an_if() {
    let still = || when(Expression::Truth(true), nil());
    let reads = || when(c_is(0), nil());
    for (p, q, number, states) in unstable() {
        let body = skip(p, up(), q.clone());
        let whole = node(Step::If, p, up(), q, vec![body]);
        refused(still(), whole.clone(), number, 0, states);
        refused(reads(), whole, 45, 0, &[]);
    }
    for number in [34, 36, 37, 38] {
        let mut whole = node(Step::If, &[0, 1], up(), every(), vec![skip(&[0, 1], up(), every())]);
        change(&mut whole.children[0].tables, number);
        refused(still(), whole.clone(), number, 0, &[]);
        refused(reads(), whole, 45, 0, &[]);
    }
    // 46 comes later: (1,1) is not in Q.
    refused(reads(), when_0(&[0, 1], up(), none()), 45, 0, &[]);
    // 30 comes first: this is the rule of an if for an assignment that reads c.
    refused(set(c()), when_0(&[0], up(), every()), 30, 0, &[]);
}

/// A while keeps its order: 31 to 38 are reported before 50.
#[test]
fn of_a_while() {
    let reads_twice = || repeat(operate(Operation::Less, c(), c()), nil());
    for (p, q, number, states) in unstable() {
        refused(reads_twice(), idle(p, up(), q, &[], up()), number, 0, states);
    }
    for number in [34, 36, 37, 38] {
        let mut whole = idle(&[0, 1], up(), every(), &[], up());
        change(&mut whole.children[0].tables, number);
        refused(reads_twice(), whole, number, 0, &[]);
    }
}
