//! Expressions as the pages write them.

use reference::language::{Expression, Operation};

/// An expression over variables of these names; an operation within an operation is in brackets.
pub fn expression(names: &[&str], whole: &Expression) -> String {
    match whole {
        Expression::Integer(value) => value.to_string(),
        Expression::Truth(value) => value.to_string(),
        Expression::Variable(variable) => names[*variable].to_string(),
        Expression::Operation(operation, left, right) => {
            format!("{} {} {}", operand(names, left), sign(*operation), operand(names, right))
        }
    }
}

fn operand(names: &[&str], part: &Expression) -> String {
    match part {
        Expression::Operation(..) => format!("({})", expression(names, part)),
        _ => expression(names, part),
    }
}

fn sign(operation: Operation) -> &'static str {
    match operation {
        Operation::Add => "+",
        Operation::Subtract => "−",
        Operation::Less => "<",
        Operation::Equal => "=",
        Operation::Greater => ">",
        Operation::And => "∧",
        Operation::Or => "∨",
    }
}
