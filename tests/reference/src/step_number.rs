//! The step number (docs/RULES.md, "Step number").

use crate::language::{Expression, Statement};

/// E: variable occurrences plus operations.
fn of_expression(expression: &Expression) -> u128 {
    u128::from(expression.occurrences(&|_| true) + expression.operations())
}

/// The exact number. Sixteen levels multiply by less than 64 each, so 128 bits hold it.
pub fn of(statement: &Statement, states: usize) -> u128 {
    let n = states as u128;
    match statement {
        Statement::Nil => 0,
        Statement::Assignment(_, value) => of_expression(value) + 1,
        Statement::Sequence(left, right) | Statement::Parallel(left, right) => {
            of(left, states) + of(right, states) + 1
        }
        Statement::If(test, body) => of_expression(test) + 1 + of(body, states),
        Statement::While(test, body) => {
            n * (of_expression(test) + 2) + (n - 1) * (of(body, states) + 1)
        }
    }
}
