//! Assignments and ifs that read a variable which others move (41, 45). Mostly a table of the node
//! or of its child is wrong too, so that one node breaks two conditions.

use super::tables::change_slot;
use super::{repack, Files};
use crate::author::operate;
use crate::derivation::{Derivation, Step};
use crate::pairs::Pair;
use crate::random::Random;
use reference::language::{Expression, Operation, Statement};
use reference::space::Space;

/// The pair with all of these nodes changed; none where others move nothing at any of them.
pub fn disturbed(random: &mut Random, pair: &Pair) -> Option<Files> {
    let (mut handler, mut derivation) = (pair.handler.clone(), pair.derivation.clone());
    let space = &pair.handler.space;
    if !change_readers(random, space, &mut derivation, &mut handler.statement) {
        return None;
    }
    repack(&handler, &derivation)
}

/// Changes the assignments and ifs from a node down, and says whether there are any.
fn change_readers(
    random: &mut Random,
    space: &Space,
    node: &mut Derivation,
    statement: &mut Statement,
) -> bool {
    let moved = node.tables.moved(space);
    let mut found = !moved.is_empty() && read_too(statement, &node.step, *random.pick(&moved));
    if found && random.chance(80) {
        spoil(random, space, node);
    }
    for (child, part) in node.children.iter_mut().zip(below(&node.step, statement)) {
        found |= change_readers(random, space, child, part);
    }
    found
}

/// An assignment or an if reads the variable too, with the same values and truths as before.
fn read_too(statement: &mut Statement, step: &Step, variable: usize) -> bool {
    let read = || Expression::Variable(variable);
    let (expression, also, operation) = match (step, statement) {
        (Step::Assignment, Statement::Assignment(_, value)) => {
            (value, operate(Operation::Subtract, read(), read()), Operation::Add)
        }
        (Step::If, Statement::If(test, _)) => {
            (test, operate(Operation::Equal, read(), read()), Operation::And)
        }
        _ => return false,
    };
    let old = std::mem::replace(expression, Expression::Truth(true));
    *expression = operate(operation, old, also);
    true
}

/// Makes P, R, G or Q of the node or of its child wrong. If Q loses all pairs that end in one state,
/// 32 still holds, and 33 does not if R leads to that state.
fn spoil(random: &mut Random, space: &Space, node: &mut Derivation) {
    let (of_child, slot) = (random.chance(55), random.below(4));
    match node.children.first_mut() {
        Some(child) if of_child => change_slot(random, space, child, slot),
        _ if random.chance(60) => {
            let lost = random.below(space.states());
            node.tables.q = node.tables.q.ending_in(space.all().without(lost));
        }
        _ => change_slot(random, space, node, slot),
    }
}

/// The statements at hand at the children of a node with this rule.
fn below<'a>(step: &Step, statement: &'a mut Statement) -> Vec<&'a mut Statement> {
    match (step, statement) {
        (Step::Weaken, same) => vec![same],
        (_, Statement::Nil | Statement::Assignment(..)) => vec![],
        (_, Statement::Sequence(left, right) | Statement::Parallel(left, right)) => {
            vec![left, right]
        }
        (_, Statement::If(_, body) | Statement::While(_, body)) => vec![body],
    }
}
