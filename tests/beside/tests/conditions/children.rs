//! 34 and 36 to 38: the tables of the children one by one, and the order in which they are asked.

use crate::small::*;
use generate::derivation::{Derivation, Tables};
use generate::programs::{parallel, repeat, sequence, when};
use reference::language::{Expression, Statement};
use reference::states::{Relation, StateSet};

/// What a rule asks of its children: the child and the number, in order.
type Asked = &'static [(usize, u32)];

const OF_A_BODY: Asked = &[(0, 34), (0, 36), (0, 37), (0, 38)];
const OF_A_SEQUENCE: Asked = &[(0, 34), (0, 36), (0, 37), (1, 36), (1, 37)];
const OF_A_PARALLEL: Asked = &[(0, 34), (0, 36), (1, 34), (1, 36)];

/// Changes the table that the number is about in state 2 or in the pair (2,2).
pub fn change(tables: &mut Tables, number: u32) {
    let relation = match number {
        34 => return tables.p = StateSet(tables.p.0 ^ 4),
        36 => &mut tables.r,
        37 => &mut tables.g,
        38 => &mut tables.q,
        _ => panic!("{number} is about no table of a child"),
    };
    relation.set_row(2, StateSet(relation.row(2).0 ^ 4));
}

/// Each table alone is missed, and of each two the first. `later` breaks a later condition of the
/// same node, so that all of them go before it.
fn asked(statement: &Statement, later: &Derivation, asked: Asked) {
    for (index, (child, number)) in asked.iter().enumerate() {
        let mut one = later.clone();
        change(&mut one.children[*child].tables, *number);
        refused(statement.clone(), one.clone(), *number, 0, &[]);
        for (second, other) in &asked[index + 1..] {
            let mut two = one.clone();
            change(&mut two.children[*second].tables, *other);
            refused(statement.clone(), two, *number, 0, &[]);
        }
    }
}

#[test]
fn of_an_if() {
    let statement = when(c_is(0), nil());
    let later = when_0(&[0, 1], none(), pairs(&[(0, 0)]));
    refused(statement.clone(), later.clone(), 46, 0, &[1]);
    asked(&statement, &later, OF_A_BODY);
}

#[test]
fn of_a_while() {
    let statement = repeat(Expression::Truth(false), nil());
    let later = idle(&[0], none(), every(), &[], pairs(&[(0, 0)]));
    refused(statement.clone(), later.clone(), 51, 0, &[0]);
    asked(&statement, &later, OF_A_BODY);
    // The pairs of W that end in P are (0,1) and (2,1), though both start outside it.
    let whole = |q: Relation| {
        let mut whole = idle(&[1], none(), every(), &[], pairs(&[(0, 1), (2, 1), (0, 2)]));
        whole.children[0].tables.q = q;
        whole
    };
    accepted(statement.clone(), whole(pairs(&[(0, 1), (2, 1)])), 8);
    refused(statement, whole(pairs(&[(0, 1)])), 38, 0, &[]);
}

#[test]
fn of_a_sequence() {
    let statement = sequence(nil(), nil());
    let later = one_by_one(&[], pairs(&[(0, 0)]));
    refused(statement.clone(), later.clone(), 60, 0, &[0, 0]);
    asked(&statement, &later, OF_A_SEQUENCE);
}

#[test]
fn of_a_parallel() {
    let statement = parallel(nil(), nil());
    let later = together(pairs(&[(0, 1)]), every());
    refused(statement.clone(), later.clone(), 65, 0, &[]);
    asked(&statement, &later, OF_A_PARALLEL);
    // Each side's R has the other side's G, and not its own.
    for child in [0, 1] {
        let mut own = together(every(), every());
        own.children[child].tables.r = own.children[child].tables.g.clone();
        refused(statement.clone(), own, 36, 0, &[]);
    }
}

/// 31 to 33 go before the tables of the children.
#[test]
fn after_the_rely() {
    let mut later = when_0(&[0], pairs(&[(0, 1)]), every());
    change(&mut later.children[0].tables, 34);
    refused(when(Expression::Truth(true), nil()), later, 31, 0, &[0, 1]);
}
