//! Stores that wrap: the value is past the last one of its variable, or below 0.

use crate::derivation::{Derivation, Step};
use reference::language::{Expression, Statement};
use reference::space::Space;

#[derive(Clone, Copy, PartialEq, Eq, Default, Debug)]
pub struct Wraps {
    pub up: bool,
    pub down: bool,
}

impl Wraps {
    fn of(size: usize, value: i64) -> Wraps {
        Wraps { up: value >= size as i64, down: value < 0 }
    }

    pub fn or(self, other: Wraps) -> Wraps {
        Wraps { up: self.up || other.up, down: self.down || other.down }
    }
}

/// How the stores of a derivation wrap, each from the states of its node's P.
pub fn in_tables(space: &Space, node: &Derivation, statement: &Statement) -> Wraps {
    let own = match (&node.step, statement) {
        (Step::Assignment, Statement::Assignment(variable, value)) => {
            let size = space.sizes()[*variable];
            let values = node.tables.p.members().map(|s| value.value(space.values(s)));
            values.map(|value| Wraps::of(size, value)).fold(Wraps::default(), Wraps::or)
        }
        _ => Wraps::default(),
    };
    let below = node.children.iter().zip(node.step.below(statement));
    below.map(|(child, part)| in_tables(space, child, part)).fold(own, Wraps::or)
}

/// How the stores wrap whose turn it is in a remaining handler.
pub fn in_turn(space: &Space, remaining: &Statement) -> Wraps {
    match remaining {
        Statement::Assignment(variable, Expression::Integer(value)) => {
            Wraps::of(space.sizes()[*variable], *value)
        }
        Statement::Sequence(left, _) => in_turn(space, left),
        Statement::Parallel(left, right) => in_turn(space, left).or(in_turn(space, right)),
        _ => Wraps::default(),
    }
}
