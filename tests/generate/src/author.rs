//! Random handlers that have a fair chance of a derivation.
//!
//! An author knows which variables interference may move, so that expressions seldom read
//! them, and gives each variable a direction, so that loops beside other parts can descend.

use crate::random::Random;
use reference::language::{Expression, Operation, Statement};
use reference::space::Space;

/// How the stores of a handler and its surroundings change a variable.
#[derive(Clone, Copy, PartialEq, Eq, Debug)]
pub enum Direction {
    Free,
    Rising,
    Falling,
}

/// What a part of the handler may do.
#[derive(Clone)]
pub struct Scope {
    /// Variables that nobody else moves here.
    pub readable: Vec<usize>,
    pub writable: Vec<usize>,
    /// Variables that others move here.
    pub moved: Vec<usize>,
}

pub struct Author<'a> {
    pub space: &'a Space,
    pub random: &'a mut Random,
    pub directions: Vec<Direction>,
    /// Statements still to be written.
    pub budget: usize,
}

const DEEPEST: usize = 7;

impl Author<'_> {
    pub fn statement(&mut self, scope: &Scope, level: usize) -> Statement {
        self.budget = self.budget.saturating_sub(1);
        if self.budget < 2 || level >= DEEPEST || scope.writable.is_empty() {
            return self.simple(scope);
        }
        match self.random.below(100) {
            0..=14 => self.simple(scope),
            15..=49 => {
                let left = self.part(scope, level);
                Statement::Sequence(left, self.part(scope, level))
            }
            50..=66 => self.parallel(scope, level),
            67..=80 => {
                let test = self.test(scope, 2);
                Statement::If(test, self.part(scope, level))
            }
            _ => self.counting_loop(scope, level),
        }
    }

    fn part(&mut self, scope: &Scope, level: usize) -> Box<Statement> {
        Box::new(self.statement(scope, level + 1))
    }

    fn simple(&mut self, scope: &Scope) -> Statement {
        if scope.writable.is_empty() || self.random.chance(15) {
            return Statement::Nil;
        }
        let variable = *self.random.pick(&scope.writable);
        Statement::Assignment(variable, self.stored(variable, scope))
    }

    /// A value for a store. A variable with a direction gets its last value, at times as a number
    /// that wraps to it.
    fn stored(&mut self, variable: usize, scope: &Scope) -> Expression {
        let size = self.space.sizes()[variable] as i64;
        let last = match self.directions[variable] {
            Direction::Rising => size - 1,
            Direction::Falling => 0,
            Direction::Free => return self.integer(scope, 2),
        };
        let rounds = *self.random.pick(&[0, 0, 0, 0, 1, -1]);
        Expression::Integer(last + rounds * size)
    }

    fn integer(&mut self, scope: &Scope, depth: usize) -> Expression {
        if depth == 0 || self.random.chance(50) {
            return if scope.readable.is_empty() || self.random.chance(35) {
                Expression::Integer(self.random.below(4) as i64 - 1)
            } else {
                Expression::Variable(*self.random.pick(&scope.readable))
            };
        }
        let operation = if self.random.chance(50) { Operation::Add } else { Operation::Subtract };
        let left = self.integer(scope, depth - 1);
        operate(operation, left, self.integer(scope, depth - 1))
    }

    fn test(&mut self, scope: &Scope, depth: usize) -> Expression {
        if self.random.chance(8) {
            return Expression::Truth(self.random.chance(60));
        }
        if depth > 0 && self.random.chance(25) {
            let operation = if self.random.chance(50) { Operation::And } else { Operation::Or };
            let left = self.test(scope, depth - 1);
            return operate(operation, left, self.test(scope, depth - 1));
        }
        let comparisons = [Operation::Less, Operation::Equal, Operation::Greater];
        let operation = *self.random.pick(&comparisons);
        let left = self.integer(scope, depth.min(1));
        operate(operation, left, self.integer(scope, 1))
    }

    /// Both sides share out the variables to be written; neither reads what the other writes.
    fn parallel(&mut self, scope: &Scope, level: usize) -> Statement {
        let (mut left, mut right) = (scope.clone(), scope.clone());
        for variable in &scope.writable {
            let (writer, other) =
                if self.random.chance(50) { (&left, &mut right) } else { (&right, &mut left) };
            debug_assert!(writer.writable.contains(variable));
            other.writable.retain(|v| v != variable);
            other.readable.retain(|v| v != variable);
            other.moved.push(*variable);
        }
        let left = self.part(&left, level);
        Statement::Parallel(left, self.part(&right, level))
    }

    /// A loop over a counter that the body moves one way.
    fn counting_loop(&mut self, scope: &Scope, level: usize) -> Statement {
        let counters: Vec<usize> =
            scope.writable.iter().copied().filter(|v| scope.readable.contains(v)).collect();
        if counters.is_empty() {
            return self.simple(scope);
        }
        let counter = *self.random.pick(&counters);
        let (test, store) = self.counting(counter);
        let test = self.interfered(test, scope);
        let store = Statement::Assignment(counter, store);
        let mut inner = scope.clone();
        inner.writable.retain(|v| *v != counter);
        let body = match self.random.below(4) {
            0 if self.budget > 2 => {
                Statement::Sequence(self.part(&inner, level + 1), Box::new(store))
            }
            1 if self.budget > 2 => {
                Statement::Sequence(Box::new(store), self.part(&inner, level + 1))
            }
            _ => store,
        };
        self.budget = self.budget.saturating_sub(1);
        Statement::While(test, Box::new(body))
    }

    /// The test of a counting loop, and what its body stores in the counter.
    fn counting(&mut self, counter: usize) -> (Expression, Expression) {
        let top = self.space.sizes()[counter] as i64 - 1;
        let rises = match self.directions[counter] {
            Direction::Free => self.random.chance(50),
            direction => direction == Direction::Rising,
        };
        // A free counter may also go away from the bound, and end once it has wrapped.
        let wraps = self.directions[counter] == Direction::Free && self.random.chance(25);
        let (comparison, least) =
            if rises != wraps { (Operation::Less, 1) } else { (Operation::Greater, 0) };
        let bound = self.random.between(least, least + top as usize - 1) as i64;
        let operation = if rises { Operation::Add } else { Operation::Subtract };
        let read = || Expression::Variable(counter);
        let test = operate(comparison, read(), Expression::Integer(bound));
        (test, operate(operation, read(), Expression::Integer(1)))
    }

    /// At times the loop also stops once others have moved a variable far enough.
    fn interfered(&mut self, test: Expression, scope: &Scope) -> Expression {
        if scope.moved.is_empty() || self.random.chance(40) {
            return test;
        }
        let moved = *self.random.pick(&scope.moved);
        let top = self.space.sizes()[moved] as i64 - 1;
        let (comparison, bound) = match self.directions[moved] {
            Direction::Falling => (Operation::Greater, 0),
            _ => (Operation::Less, top),
        };
        let goes_on = operate(comparison, Expression::Variable(moved), Expression::Integer(bound));
        operate(Operation::And, test, goes_on)
    }
}

pub fn operate(operation: Operation, left: Expression, right: Expression) -> Expression {
    Expression::Operation(operation, Box::new(left), Box::new(right))
}
