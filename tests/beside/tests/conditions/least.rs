//! The states that a refusal names are the least that break the condition: by the first state,
//! then by the second, then by the third.
//!
//! Each pair over six states breaks its condition in several ways. For two states: once with a
//! greater second one, and once with a greater first and a lesser second one. For three: once with
//! a greater third one, once with a greater second and a lesser third one, and once with a greater
//! first and a lesser second one. States that P does not hold would break it earlier.

use crate::small::*;
use generate::author::operate;
use generate::derivation::{Derivation, Step};
use generate::programs::{number, parallel, repeat, sequence, when};
use reference::language::{Expression, Operation, Statement};
use reference::states::Relation;

/// The statement over six states is refused at node 0 and names these states.
fn names(statement: Statement, derivation: Derivation, number: u32, states: &[u64]) {
    assert_eq!(judged(&[6], statement, derivation), refusal(number, 0, states));
}

fn never() -> Statement {
    repeat(Expression::Truth(false), nil())
}

fn below_3() -> Expression {
    operate(Operation::Less, c(), number(3))
}

/// 0 comes with 4; 1 with 3 and 4; 2 with 0.
fn ends() -> Relation {
    pairs(&[(0, 4), (1, 3), (1, 4), (2, 0)])
}

/// A first pair from 0 to 1, from 1 to 2 and 3, and from 4 to 1.
fn first() -> Relation {
    pairs(&[(0, 1), (1, 2), (1, 3), (4, 1)])
}

/// A second pair from 1 to 1, from 2 to 4 and 5, and from 3 to 0: after `first`, 1 leads by 2 to 4
/// and 5 and by 3 to 0, and 4 leads by 1 to 1.
fn second() -> Relation {
    pairs(&[(1, 1), (2, 4), (2, 5), (3, 0)])
}

#[test]
fn of_every_node() {
    names(nil(), skip(&[1, 2], ends(), every()), 31, &[1, 3]);
    let inside = [1, 2, 3, 4, 5];
    names(nil(), skip(&inside, first(), second()), 32, &[1, 2, 4]);
    // 1 leads by 2 to 4 and 5 and by 3 to 1, and 2 leads by 1 to 5. No pair of Q starts at 4 or
    // 5, and those from 1 also start at 3, so that 32 holds.
    let q = pairs(&[(0, 1), (1, 2), (1, 3), (2, 1), (3, 2), (3, 3)]);
    let r = pairs(&[(1, 5), (2, 4), (2, 5), (3, 1)]);
    names(nil(), skip(&inside, r, q), 33, &[1, 2, 4]);
}

#[test]
fn of_skips_and_assignments() {
    names(nil(), skip(&[1, 2, 4], none(), pairs(&[(1, 1)])), 35, &[2]);
    let store = |p: &[usize], q| node(Step::Assignment, p, none(), q, vec![]);
    let sum = |operation, left, right| set(operate(operation, left, right));
    // 1 comes to 4, and from 3 on the sum wraps: 4 comes to 1, and 5 to 2.
    let wrapped = sum(Operation::Add, c(), number(3));
    names(wrapped, store(&[1, 4, 5], pairs(&[(1, 4)])), 42, &[4, 1]);
    // 1 comes to 4, 2 to 3, and 3 to 2.
    let from_5 = sum(Operation::Subtract, number(5), c());
    names(from_5, store(&[1, 2, 3], pairs(&[(1, 4)])), 42, &[2, 3]);
    // 2 comes to 2, which needs no guarantee, 3 to 1, and 4 to 0.
    let from_4 = sum(Operation::Subtract, number(4), c());
    names(from_4, guarantee(store(&[2, 3, 4], every()), none()), 43, &[3, 1]);
}

#[test]
fn of_tests() {
    let q = pairs(&[(0, 0), (2, 2)]);
    names(when(c_is(0), nil()), when_0(&[0, 2, 3, 5], none(), q), 46, &[3]);
    let while_below_3 = || repeat(below_3(), nil());
    names(while_below_3(), idle(&[1, 2, 5], none(), every(), &[], none()), 52, &[1]);
    // The test is false from 3 on.
    let all = [0, 1, 2, 3, 4, 5];
    let r = pairs(&[(0, 2), (3, 1), (3, 2), (4, 0)]);
    names(while_below_3(), idle(&all, r, every(), &all, none()), 54, &[3, 1]);
}

#[test]
fn of_loops() {
    // All states count for W, and P holds only 5.
    let order = |w| idle(&[5], none(), every(), &[], w);
    names(never(), order(pairs(&[(2, 2), (4, 4)])), 51, &[2]);
    // 1 leads by 2 to 4 and 5 and by 3 to 0, and 4 leads by 1 to 2.
    let w = pairs(&[(1, 2), (1, 3), (2, 4), (2, 5), (3, 0), (4, 1)]);
    names(never(), order(w), 57, &[1, 2, 4]);
    let all = [0, 1, 2, 3, 4, 5];
    names(never(), idle(&all, ends(), every(), &[1, 2], none()), 53, &[1, 3]);
    let inside = [1, 2, 3, 4, 5];
    let r = pairs(&[(0, 5), (1, 1), (1, 2), (1, 4), (1, 5), (3, 2)]);
    names(never(), idle(&inside, r, every(), &[], pairs(&[(1, 2)])), 55, &[1, 4]);
    let w = pairs(&[(0, 5), (2, 4), (2, 5), (3, 1)]);
    let still = pairs(&[(1, 1), (2, 2), (3, 3), (4, 4), (5, 5)]);
    names(never(), idle(&inside, none(), still, &[], w), 56, &[2, 4]);
}

#[test]
fn of_two_parts() {
    let parts = |p: &[usize], left_q, right_p: &[usize], right_q| {
        let children = vec![skip(p, none(), left_q), skip(right_p, none(), right_q)];
        node(Step::Sequence, p, none(), none(), children)
    };
    let one_by_one = || sequence(nil(), nil());
    names(one_by_one(), parts(&[1, 2], ends(), &[1, 2, 5], none()), 60, &[1, 3]);
    names(one_by_one(), parts(&[1, 4], first(), &[1, 2, 3], second()), 61, &[1, 2, 4]);
    // The sides reach 3 and 4 from 1, and 0 from 2; both have every pair in Q.
    let (left, right) = (pairs(&[(1, 3), (3, 4)]), pairs(&[(2, 0)]));
    let side = |r: &Relation, g: &Relation| guarantee(skip(&[1, 2], r.clone(), every()), g.clone());
    let sides = vec![side(&right, &left), side(&left, &right)];
    let q = pairs(&[(1, 1), (2, 2)]);
    names(parallel(nil(), nil()), node(Step::Parallel, &[1, 2], none(), q, sides), 66, &[1, 3]);
}
