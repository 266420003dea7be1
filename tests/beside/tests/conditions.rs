//! Each condition, by a derivation made by hand that breaks it and no earlier one.

#[path = "conditions/children.rs"]
mod children;
#[path = "conditions/complaints.rs"]
mod complaints;
#[path = "conditions/least.rs"]
mod least;
#[path = "conditions/reach.rs"]
mod reach;
#[path = "conditions/small.rs"]
mod small;

use generate::author::operate;
use generate::derivation::{Step, Tables};
use generate::programs::{number, parallel, repeat, sequence, when};
use reference::language::{Expression, Operation};
use small::*;

#[test]
fn rules() {
    refused(nil(), node(Step::Assignment, &[], none(), none(), vec![]), 30, 0, &[]);
    let wrong = skip(&[], none(), none());
    refused(set(one()), wrong.clone().weakened(states(&[]), none()), 30, 1, &[]);
    // All of node 0 goes before the rule of node 1: here 61 at 0, and 30 at 1 once that holds.
    let both = |q| {
        let mut whole = one_by_one(&[0], q);
        whole.children[0].step = Step::Assignment;
        whole
    };
    refused(sequence(nil(), nil()), both(none()), 61, 0, &[0, 0, 0]);
    refused(sequence(nil(), nil()), both(every()), 30, 1, &[]);
}

#[test]
fn stability() {
    let r = || pairs(&[(0, 1)]);
    refused(nil(), skip(&[0], r(), every()), 31, 0, &[0, 1]);
    refused(nil(), skip(&[0, 1], r(), pairs(&[(0, 0), (1, 1)])), 32, 0, &[0, 1, 1]);
    refused(nil(), skip(&[0, 1], r(), pairs(&[(0, 0)])), 33, 0, &[0, 0, 1]);
    // None of the three looks at a start outside P.
    accepted(nil(), skip(&[1], r(), pairs(&[(0, 0), (1, 1)])), 0);
    // A weaken owes them too.
    let child = skip(&[0, 1], r(), pairs(&[(0, 0), (0, 1), (1, 1)]));
    refused(nil(), child.weakened(states(&[0]), r()), 31, 0, &[0, 1]);
    refused(nil(), skip(&[0], none(), pairs(&[(1, 1)])), 35, 0, &[0]);
}

#[test]
fn assignments() {
    let node = |p: &[usize], r, q| node(Step::Assignment, p, r, q, vec![]);
    let more = || set(operate(Operation::Add, c(), one()));
    accepted(more(), node(&[0, 1], none(), every()), 3);
    refused(set(c()), node(&[0, 1], pairs(&[(0, 1)]), every()), 41, 0, &[]);
    // A pair (s,s) moves nothing, nor does one from outside P.
    accepted(set(c()), node(&[0, 1], pairs(&[(0, 0), (2, 1)]), every()), 2);
    refused(set(one()), node(&[0], none(), pairs(&[(0, 0)])), 42, 0, &[0, 1]);
    let still = guarantee(node(&[0, 1], none(), every()), pairs(&[(0, 0)]));
    refused(set(one()), still, 43, 0, &[0, 1]);
    // A store of what is there needs no guarantee.
    accepted(set(one()), guarantee(node(&[1], none(), every()), none()), 1);
}

/// c has size 3: 42 and 43 are asked of the state that the wrapped value leads to.
#[test]
fn wrapped_assignments() {
    let node = |p: &[usize], q, g| guarantee(node(Step::Assignment, p, none(), q, vec![]), g);
    for (value, end) in [(3, 0), (4, 1), (5, 2), (127, 1), (-1, 2), (-2, 1), (-3, 0), (-128, 1)] {
        for s in [0, 1, 2] {
            let leads = |t: usize| pairs(&[(s, t)]);
            let wrong = (end + 1) % 3;
            accepted(set(number(value)), node(&[s], leads(end), leads(end)), 1);
            let named = [s as u64, end as u64];
            refused(set(number(value)), node(&[s], leads(wrong), every()), 42, 0, &named);
            if s == end {
                accepted(set(number(value)), node(&[s], leads(end), none()), 1);
            } else {
                refused(set(number(value)), node(&[s], leads(end), leads(wrong)), 43, 0, &named);
            }
        }
    }
}

#[test]
fn ifs() {
    let statement = || when(c_is(0), nil());
    accepted(statement(), when_0(&[0, 1], none(), every()), 3);
    refused(statement(), when_0(&[0, 1], pairs(&[(0, 1)]), every()), 45, 0, &[]);
    refused(statement(), when_0(&[0, 1], none(), pairs(&[(0, 0)])), 46, 0, &[1]);
}

#[test]
fn loops() {
    let down = || pairs(&[(0, 1)]);
    let never = || repeat(Expression::Truth(false), nil());
    let while_c_is = |value| repeat(c_is(value), nil());
    accepted(never(), idle(&[0, 1], none(), every(), &[], none()), 8);
    let twice = operate(Operation::Less, c(), c());
    refused(repeat(twice, nil()), idle(&[0, 1], down(), every(), &[], down()), 50, 0, &[]);
    refused(never(), idle(&[0], none(), every(), &[], pairs(&[(0, 0)])), 51, 0, &[0]);
    // Over all states, those outside P too: (2,2), and a gap in 0, 1, 2.
    refused(never(), idle(&[0], none(), every(), &[], pairs(&[(2, 2)])), 51, 0, &[2]);
    let gap = || pairs(&[(0, 1), (1, 2)]);
    refused(never(), idle(&[], none(), every(), &[], gap()), 57, 0, &[0, 1, 2]);
    // 51 goes before 57, and 57 before 52.
    let both = gap().join(&pairs(&[(2, 2)]));
    refused(never(), idle(&[], none(), every(), &[], both), 51, 0, &[2]);
    refused(while_c_is(0), idle(&[0], none(), every(), &[], gap()), 57, 0, &[0, 1, 2]);
    refused(while_c_is(0), idle(&[0], none(), every(), &[], none()), 52, 0, &[0]);
    refused(while_c_is(0), idle(&[0, 1], down(), every(), &[0], down()), 53, 0, &[0, 1]);
    refused(while_c_is(1), idle(&[0, 1], down(), every(), &[0, 1], down()), 54, 0, &[0, 1]);
    refused(never(), idle(&[0, 1], down(), every(), &[], none()), 55, 0, &[0, 1]);
    accepted(never(), idle(&[0, 1], pairs(&[(0, 0), (2, 1)]), every(), &[], none()), 8);
    refused(never(), idle(&[0], none(), pairs(&[(0, 1)]), &[], none()), 56, 0, &[0, 0]);
    let still = pairs(&[(0, 0), (1, 1)]);
    refused(never(), idle(&[0, 1], none(), still, &[], down()), 56, 0, &[0, 1]);
    // The body assumes K, not the test: with the test's states alone it would be accepted.
    refused(while_c_is(0), idle(&[0, 1], none(), every(), &[0, 1], none()), 35, 1, &[0]);
}

#[test]
fn sequences() {
    let still = || pairs(&[(0, 0)]);
    let statement = || sequence(nil(), nil());
    accepted(statement(), one_by_one(&[0], still()), 1);
    refused(statement(), one_by_one(&[], still()), 60, 0, &[0, 0]);
    refused(statement(), one_by_one(&[0], none()), 61, 0, &[0, 0, 0]);
    // A fault of the second part is at node 2.
    let mut second = one_by_one(&[0], still());
    second.children[1].tables.q = none();
    refused(statement(), second, 35, 2, &[0]);
}

#[test]
fn parallels() {
    let statement = || parallel(nil(), nil());
    let reached = [(0, 0), (1, 1), (2, 2), (0, 1), (1, 2), (0, 2)];
    accepted(statement(), together(every(), pairs(&reached)), 1);
    refused(statement(), together(pairs(&[(0, 1)]), every()), 65, 0, &[]);
    refused(statement(), together(pairs(&[(1, 2)]), every()), 65, 0, &[]);
    for (s, t) in reached {
        let left: Vec<(usize, usize)> = reached.into_iter().filter(|p| *p != (s, t)).collect();
        refused(statement(), together(every(), pairs(&left)), 66, 0, &[s as u64, t as u64]);
    }
}

#[test]
fn weakens() {
    let change = |change: fn(&mut Tables)| {
        let q = pairs(&[(0, 0), (1, 1)]);
        let child = guarantee(skip(&[0, 1], none(), q), pairs(&[(0, 1)]));
        let mut whole = child.weakened(states(&[0]), none());
        change(&mut whole.tables);
        whole
    };
    accepted(nil(), change(|_| {}), 0);
    refused(nil(), change(|tables| tables.p = states(&[0, 2])), 70, 0, &[]);
    refused(nil(), change(|tables| tables.r = pairs(&[(2, 2)])), 71, 0, &[]);
    refused(nil(), change(|tables| tables.g = pairs(&[(0, 2)])), 72, 0, &[]);
    // Whole relations: the pair that is missing starts outside P.
    refused(nil(), change(|tables| tables.q = pairs(&[(0, 0)])), 73, 0, &[]);
}
