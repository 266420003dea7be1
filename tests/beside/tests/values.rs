//! The numbers of states and the values of expressions, as an accepted if or store shows them.

use beside::{at_node, judge};
use generate::author::operate;
use generate::derivation::{Derivation, Step, Tables};
use generate::pairs::Pair;
use generate::programs::{number, read, store, when};
use reference::language::{Expression, Handler, Operation, Statement};
use reference::space::Space;
use reference::states::{Relation, StateSet};
use reference::Verdict;

fn verdict(sizes: &[usize], statement: Statement, derivation: Derivation) -> Verdict {
    let handler = Handler { space: Space::new(sizes), statement };
    let pair = Pair::new(handler, derivation).expect("it is small");
    judge(&pair.handler_file.bytes, &pair.proof_file.bytes)
}

/// Nobody else moves anything, and from P every state may be the end.
fn node(step: Step, states: usize, p: StateSet, children: Vec<Derivation>) -> Derivation {
    let every = Relation::of_rows(vec![StateSet::first(states); states]);
    let tables = Tables { p, r: Relation::none(), g: every.clone(), q: every };
    Derivation { step, tables, children }
}

/// Whether, with sizes 2 and 3, the store leads from one state to the other and to no third: Q is
/// held to that (42).
fn leads(variable: usize, value: i64, from: usize, end: usize) {
    for other in 0..6 {
        let mut root = node(Step::Assignment, 6, StateSet::NONE.with(from), vec![]);
        root.tables.q = Relation::none();
        root.tables.q.set_row(from, StateSet::NONE.with(other));
        let expected = if other == end { Verdict::Accepted(1) } else { at_node(42, 0) };
        assert_eq!(verdict(&[2, 3], store(variable, number(value)), root), expected);
    }
}

/// With sizes 2 and 3, values 1 and 2 are state 5: a store of 0 in the first leads to state 2,
/// one in the second to state 3.
#[test]
fn states_count_variable_0_as_most_significant() {
    leads(0, 0, 5, 2);
    leads(1, 0, 5, 3);
}

/// A store leaves the remainder by the size of its own variable, from 0 up, and the other variable
/// as it is.
#[test]
fn stores_wrap() {
    for (value, left) in [(2, 0), (3, 1), (127, 1), (-1, 1), (-2, 0), (-127, 1), (-128, 0)] {
        for from in 0..6 {
            leads(0, value, from, left * 3 + from % 3);
        }
    }
    for (value, left) in [(3, 0), (4, 1), (127, 1), (-1, 2), (-2, 1), (-3, 0), (-127, 2)] {
        for from in 0..6 {
            leads(1, value, from, from / 3 * 3 + left);
        }
    }
}

/// Whether, over x and y of size 3, the test is true just where it should be: the body's P is
/// held to that (34), at every state in turn.
fn true_where(test: &Expression, wanted: impl Fn(i64, i64) -> bool) {
    let at = |s: &usize| wanted(*s as i64 / 3, *s as i64 % 3);
    let holds: StateSet = (0..9).filter(at).collect();
    let judged = |body: StateSet| {
        let children = vec![node(Step::Skip, 9, body, vec![])];
        let root = node(Step::If, 9, StateSet::first(9), children);
        verdict(&[3, 3], when(test.clone(), Statement::Nil), root)
    };
    assert!(matches!(judged(holds), Verdict::Accepted(_)), "{test:?}");
    for state in 0..9 {
        assert_eq!(judged(StateSet(holds.0 ^ 1 << state)), at_node(34, 0), "{test:?}");
    }
}

#[test]
fn comparisons() {
    let (x, y) = (|| read(0), || read(1));
    true_where(&operate(Operation::Less, x(), y()), |x, y| x < y);
    true_where(&operate(Operation::Equal, x(), y()), |x, y| x == y);
    true_where(&operate(Operation::Greater, x(), y()), |x, y| x > y);
}

#[test]
fn arithmetic() {
    for bound in -3..=5 {
        let above = |value| operate(Operation::Greater, value, number(bound));
        let sum = operate(Operation::Add, read(0), read(1));
        true_where(&above(sum), |x, y| x + y > bound);
        let difference = operate(Operation::Subtract, read(0), read(1));
        true_where(&above(difference), |x, y| x - y > bound);
    }
}

#[test]
fn connectives() {
    let zero = |variable| operate(Operation::Equal, read(variable), number(0));
    true_where(&operate(Operation::And, zero(0), zero(1)), |x, y| x == 0 && y == 0);
    true_where(&operate(Operation::Or, zero(0), zero(1)), |x, y| x == 0 || y == 0);
    true_where(&Expression::Truth(true), |_, _| true);
    true_where(&Expression::Truth(false), |_, _| false);
}

/// Integers reach from −128 to 127, and sums of them are exact: nothing wraps at 8 bits.
#[test]
fn integers_are_exact() {
    let least = || operate(Operation::Add, number(-128), number(-128));
    let most = || operate(Operation::Add, number(127), number(127));
    true_where(&operate(Operation::Less, number(-128), number(127)), |_, _| true);
    true_where(&operate(Operation::Less, least(), number(-128)), |_, _| true);
    true_where(&operate(Operation::Greater, most(), number(127)), |_, _| true);
    let apart = operate(Operation::Subtract, most(), least());
    let back = operate(Operation::Add, apart, operate(Operation::Subtract, least(), most()));
    true_where(&operate(Operation::Equal, back, read(0)), |x, _| x == 0);
}
