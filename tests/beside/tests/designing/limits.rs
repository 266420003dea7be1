//! The empty precondition, and files at the limits.

use crate::world::*;
use generate::derivation::Tables;
use generate::programs::{in_order, repeat, sequence, when};
use generate::vacuous;
use reference::language::{Expression, Statement};

pub fn claims() -> Vec<Claim> {
    let mut claims = empty();
    claims.extend(limits());
    claims
}

/// Preconditions that hold no state, of the whole handler and of a part.
fn empty() -> Vec<Claim> {
    let w = world([("c", 2)]);
    let forever = || repeat(Expression::Truth(true), Statement::Nil);
    let never = when(Expression::Truth(false), forever());
    let inner = |tables| Loop { tables, k: w.set(|_| false), w: none() }.node(skip);
    let toggled =
        Tables { p: w.set(|_| false), r: w.relation(|s, t| s != t), g: none(), q: none() };
    let whole = Tables { p: w.all(), r: none(), g: none(), q: w.relation(|s, t| s == t) };
    vec![
        w.claim("empty", forever(), inner(toggled)),
        w.claim("never", never, when_node(whole, w.set(|_| false), inner)),
    ]
}

/// Files at the limits, with empty preconditions.
fn limits() -> Vec<Claim> {
    let w = world([("c", 2)]);
    let large = world([("a", 8), ("b", 8)]);
    let vacuous = |w: &World, name, statement: Statement| {
        let derivation = vacuous::derivation(&statement, &none());
        w.claim(name, statement, derivation)
    };
    let nested = |loops: usize| {
        (0..loops).fold(Statement::Nil, |body, _| repeat(Expression::Truth(true), body))
    };
    let list = (1..17).fold(Statement::Nil, |rest, _| sequence(Statement::Nil, rest));
    let weakened = |levels: usize| {
        let node = vacuous::derivation(&Statement::Nil, &none());
        (1..levels).fold(node, |node, _| node.under_weaken())
    };
    vec![
        vacuous(&large, "nested", nested(5)),
        vacuous(&large, "nested-80", nested(6)),
        vacuous(&w, "list-17", list),
        vacuous(&w, "tree", in_order(vec![Statement::Nil; 17])),
        w.claim("weakens-24", Statement::Nil, weakened(25)),
        w.claim("weakens", Statement::Nil, weakened(24)),
    ]
}
