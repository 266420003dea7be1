//! Handlers as trees.

use crate::space::{Space, Values};

#[derive(Clone, Copy, PartialEq, Eq, Hash, Debug)]
pub enum Kind {
    Integer,
    Truth,
}

#[derive(Clone, Copy, PartialEq, Eq, Hash, Debug)]
pub enum Operation {
    Add,
    Subtract,
    Less,
    Equal,
    Greater,
    And,
    Or,
}

impl Operation {
    /// In the order of their codes.
    pub const ALL: [Operation; 7] = [
        Operation::Add,
        Operation::Subtract,
        Operation::Less,
        Operation::Equal,
        Operation::Greater,
        Operation::And,
        Operation::Or,
    ];

    /// The kind of both operands.
    pub fn takes(self) -> Kind {
        match self {
            Operation::And | Operation::Or => Kind::Truth,
            _ => Kind::Integer,
        }
    }

    pub fn gives(self) -> Kind {
        match self {
            Operation::Add | Operation::Subtract => Kind::Integer,
            _ => Kind::Truth,
        }
    }

    /// The result, a truth value counting as 0 or 1. At most 31 nodes with leaves of 8 bits
    /// stay far inside 64 bits, so the arithmetic is exact.
    pub fn apply(self, left: i64, right: i64) -> i64 {
        match self {
            Operation::Add => left + right,
            Operation::Subtract => left - right,
            Operation::Less => i64::from(left < right),
            Operation::Equal => i64::from(left == right),
            Operation::Greater => i64::from(left > right),
            Operation::And => left & right,
            Operation::Or => left | right,
        }
    }
}

#[derive(Clone, PartialEq, Eq, Hash, Debug)]
pub enum Expression {
    Integer(i64),
    Truth(bool),
    Variable(usize),
    Operation(Operation, Box<Expression>, Box<Expression>),
}

impl Expression {
    /// The value where the variables have the given values, a truth value counting as 0 or 1.
    pub fn value(&self, values: &Values) -> i64 {
        match self {
            Expression::Integer(value) => *value,
            Expression::Truth(value) => i64::from(*value),
            Expression::Variable(variable) => values[*variable],
            Expression::Operation(operation, left, right) => {
                operation.apply(left.value(values), right.value(values))
            }
        }
    }

    pub fn is_true(&self, values: &Values) -> bool {
        self.value(values) == 1
    }

    /// How many variable occurrences are of a chosen variable.
    pub fn occurrences(&self, chosen: &impl Fn(usize) -> bool) -> u32 {
        match self {
            Expression::Integer(_) | Expression::Truth(_) => 0,
            Expression::Variable(variable) => u32::from(chosen(*variable)),
            Expression::Operation(_, left, right) => {
                left.occurrences(chosen) + right.occurrences(chosen)
            }
        }
    }

    pub fn operations(&self) -> u32 {
        match self {
            Expression::Operation(_, left, right) => 1 + left.operations() + right.operations(),
            _ => 0,
        }
    }
}

#[derive(Clone, PartialEq, Eq, Hash, Debug)]
pub enum Statement {
    Nil,
    Assignment(usize, Expression),
    Sequence(Box<Statement>, Box<Statement>),
    Parallel(Box<Statement>, Box<Statement>),
    If(Expression, Box<Statement>),
    While(Expression, Box<Statement>),
}

impl Statement {
    /// The statements within, in file order.
    pub fn parts(&self) -> Vec<&Statement> {
        match self {
            Statement::Nil | Statement::Assignment(..) => vec![],
            Statement::Sequence(left, right) | Statement::Parallel(left, right) => {
                vec![left, right]
            }
            Statement::If(_, body) | Statement::While(_, body) => vec![body],
        }
    }

    /// How many statements there are, this one among them.
    pub fn count(&self) -> u32 {
        1 + self.parts().into_iter().map(Statement::count).sum::<u32>()
    }

    /// The levels, this statement being on the first.
    pub fn levels(&self) -> u32 {
        1 + self.parts().into_iter().map(Statement::levels).max().unwrap_or(0)
    }
}

/// What a handler file holds.
#[derive(Clone, PartialEq, Eq, Debug)]
pub struct Handler {
    pub space: Space,
    pub statement: Statement,
}
