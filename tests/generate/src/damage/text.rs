//! Damage to the expressions of a handler, with a derivation that follows as far as 34 and 36 to
//! 38 go, so that the conditions on tests and values are reached.

use super::tables::mend;
use super::{repack, Files};
use crate::author::operate;
use crate::derivation::{Derivation, Step};
use crate::pairs::Pair;
use crate::random::Random;
use reference::language::{Expression, Operation, Statement};
use reference::states::StateSet;

/// A handler with another expression.
pub fn altered(random: &mut Random, pair: &Pair) -> Option<Files> {
    let mut handler = pair.handler.clone();
    let variables = handler.space.sizes().len();
    let mut all = expressions(&mut handler.statement);
    if all.is_empty() {
        return None;
    }
    let chosen = random.below(all.len());
    alter(random, all.swap_remove(chosen).1, variables);
    let mut derivation = pair.derivation.clone();
    mend(&mut derivation, &handler.statement, &handler.space);
    repack(&handler, &derivation)
}

/// A handler with another test of a loop, and at times with a K that lets every state pass, so
/// that the conditions behind 52 and 53 are reached.
pub fn retested(random: &mut Random, pair: &Pair) -> Option<Files> {
    let mut handler = pair.handler.clone();
    let mut tests = expressions(&mut handler.statement);
    tests.retain(|(is_loop, _)| *is_loop);
    if tests.is_empty() {
        return None;
    }
    let chosen = random.below(tests.len());
    let test = tests.swap_remove(chosen).1;
    let sizes = pair.handler.space.sizes();
    let variable = likely_variable(random, pair);
    let read = || Expression::Variable(variable);
    let value = Expression::Integer(random.below(sizes[variable]) as i64);
    let old = std::mem::replace(test, Expression::Truth(true));
    *test = match random.below(3) {
        // True at every one state, but read at two moments.
        0 => operate(Operation::And, old, operate(Operation::Equal, read(), read())),
        1 => operate(Operation::Or, old, operate(Operation::Equal, read(), value)),
        _ => operate(Operation::And, old, operate(Operation::Less, read(), value)),
    };
    let mut derivation = pair.derivation.clone();
    if random.chance(60) {
        widen_loops(&mut derivation, pair.handler.space.all());
    }
    mend(&mut derivation, &handler.statement, &handler.space);
    repack(&handler, &derivation)
}

/// Mostly a variable that others move at some loop, since 50 and 54 look at no other.
fn likely_variable(random: &mut Random, pair: &Pair) -> usize {
    let space = &pair.handler.space;
    let mut moved = Vec::new();
    pair.derivation.each(&mut |node| {
        if matches!(node.step, Step::While { .. }) {
            moved.extend(node.tables.moved(space));
        }
    });
    if moved.is_empty() || random.chance(20) {
        return random.below(space.sizes().len());
    }
    *random.pick(&moved)
}

fn widen_loops(node: &mut Derivation, all: StateSet) {
    if let Step::While { k, .. } = &mut node.step {
        *k = all;
    }
    for child in &mut node.children {
        widen_loops(child, all);
    }
}

/// The whole expressions of a statement in file order, each with whether a loop tests it.
fn expressions(statement: &mut Statement) -> Vec<(bool, &mut Expression)> {
    let is_loop = matches!(statement, Statement::While(..));
    match statement {
        Statement::Nil => vec![],
        Statement::Assignment(_, value) => vec![(false, value)],
        Statement::Sequence(left, right) | Statement::Parallel(left, right) => {
            let mut all = expressions(left);
            all.extend(expressions(right));
            all
        }
        Statement::If(test, body) | Statement::While(test, body) => {
            let mut all = vec![(is_loop, test)];
            all.extend(expressions(body));
            all
        }
    }
}

/// Changes one node on the way down, keeping its kind.
fn alter(random: &mut Random, expression: &mut Expression, variables: usize) {
    match expression {
        Expression::Operation(operation, left, right) => match random.below(3) {
            0 => alter(random, left, variables),
            1 => alter(random, right, variables),
            _ => *operation = like(random, *operation),
        },
        Expression::Truth(value) => *value = !*value,
        Expression::Integer(_) | Expression::Variable(_) => {
            *expression = if random.chance(60) {
                Expression::Variable(random.below(variables))
            } else {
                Expression::Integer(random.below(5) as i64 - 1)
            }
        }
    }
}

/// An operation that takes and gives the same kinds.
fn like(random: &mut Random, operation: Operation) -> Operation {
    let alike = |other: &Operation| {
        other.takes() == operation.takes() && other.gives() == operation.gives()
    };
    let choices: Vec<Operation> = Operation::ALL.into_iter().filter(alike).collect();
    *random.pick(&choices)
}
