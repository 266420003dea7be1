//! The single steps (docs/RULES.md), written out anew so that they owe nothing to the
//! evaluation and the stores that the checker uses.

use reference::language::{Expression, Operation, Statement};
use reference::space::Space;

/// What is open at a moment: what each step leaves, and whether some part that has its turn
/// stands still, as one does whose values are of the wrong kind.
#[derive(Clone, Default, Debug)]
pub struct Turn {
    pub open: Vec<(Statement, usize)>,
    pub stands_still: bool,
}

impl Turn {
    /// The same turn, seen from the statement around.
    fn within(self, around: impl Fn(Statement) -> Statement) -> Turn {
        let open = self.open.into_iter().map(|(left, state)| (around(left), state)).collect();
        Turn { open, stands_still: self.stands_still }
    }

    fn beside(mut self, other: Turn) -> Turn {
        self.open.extend(other.open);
        Turn { open: self.open, stands_still: self.stands_still || other.stands_still }
    }

    /// One step, which does not touch the state.
    fn only(remaining: Statement, state: usize) -> Turn {
        Turn { open: vec![(remaining, state)], stands_still: false }
    }
}

pub fn turn(space: &Space, statement: &Statement, state: usize) -> Turn {
    match statement {
        Statement::Nil => Turn::default(),
        Statement::Assignment(variable, Expression::Integer(value)) => {
            Turn::only(Statement::Nil, stored(space, state, *variable, *value))
        }
        Statement::Assignment(variable, value) => {
            of_expression(space, value, state, |value| Statement::Assignment(*variable, value))
        }
        Statement::Sequence(left, right) if **left == Statement::Nil => {
            Turn::only((**right).clone(), state)
        }
        Statement::Sequence(left, right) => turn(space, left, state)
            .within(|left| Statement::Sequence(Box::new(left), right.clone())),
        Statement::Parallel(left, right) => parallel(space, left, right, state),
        Statement::If(Expression::Truth(true), body) => Turn::only((**body).clone(), state),
        Statement::If(Expression::Truth(false), _) => Turn::only(Statement::Nil, state),
        Statement::If(test, body) => {
            of_expression(space, test, state, |test| Statement::If(test, body.clone()))
        }
        Statement::While(test, body) => {
            let again = Statement::Sequence(body.clone(), Box::new(statement.clone()));
            Turn::only(Statement::If(test.clone(), Box::new(again)), state)
        }
    }
}

/// The state after a store, by its values: a register goes from its size − 1 on to 0, and from 0
/// back to its size − 1.
fn stored(space: &Space, state: usize, variable: usize, value: i64) -> usize {
    let size = space.sizes()[variable] as i64;
    let mut values = *space.values(state);
    values[variable] = (value % size + size) % size;
    space.sizes().iter().zip(values).fold(0, |number, (size, value)| number * size + value as usize)
}

fn parallel(space: &Space, left: &Statement, right: &Statement, state: usize) -> Turn {
    if *left == Statement::Nil && *right == Statement::Nil {
        return Turn::only(Statement::Nil, state);
    }
    let on_left = turn(space, left, state)
        .within(|left| Statement::Parallel(Box::new(left), Box::new(right.clone())));
    let on_right = turn(space, right, state)
        .within(|right| Statement::Parallel(Box::new(left.clone()), Box::new(right)));
    on_left.beside(on_right)
}

fn of_expression(
    space: &Space,
    expression: &Expression,
    state: usize,
    around: impl Fn(Expression) -> Statement,
) -> Turn {
    let ready = reads(space, expression, state);
    // A constant that gets here is of the wrong kind.
    let stands_still = ready.is_empty() || ready.contains(&None);
    let open = ready.into_iter().flatten().map(|e| (around(e), state)).collect();
    Turn { open, stands_still }
}

/// What each step that is ready makes of an expression, or none where it stands still.
fn reads(space: &Space, expression: &Expression, state: usize) -> Vec<Option<Expression>> {
    match expression {
        Expression::Integer(_) | Expression::Truth(_) => vec![],
        Expression::Variable(variable) => {
            vec![Some(Expression::Integer(space.values(state)[*variable]))]
        }
        Expression::Operation(operation, left, right)
            if is_constant(left) && is_constant(right) =>
        {
            vec![result(*operation, left, right)]
        }
        Expression::Operation(operation, left, right) => {
            let with = |left: Expression, right: Expression| {
                Expression::Operation(*operation, Box::new(left), Box::new(right))
            };
            let (on_left, on_right) = (reads(space, left, state), reads(space, right, state));
            let on_left = on_left.into_iter().map(|l| Some(with(l?, (**right).clone())));
            let on_right = on_right.into_iter().map(|r| Some(with((**left).clone(), r?)));
            on_left.chain(on_right).collect()
        }
    }
}

fn is_constant(expression: &Expression) -> bool {
    matches!(expression, Expression::Integer(_) | Expression::Truth(_))
}

/// The result on two constants, if they are of the right kind.
fn result(operation: Operation, left: &Expression, right: &Expression) -> Option<Expression> {
    use Expression::{Integer, Truth};
    match (operation, left, right) {
        (Operation::Add, Integer(a), Integer(b)) => Some(Integer(a + b)),
        (Operation::Subtract, Integer(a), Integer(b)) => Some(Integer(a - b)),
        (Operation::Less, Integer(a), Integer(b)) => Some(Truth(a < b)),
        (Operation::Equal, Integer(a), Integer(b)) => Some(Truth(a == b)),
        (Operation::Greater, Integer(a), Integer(b)) => Some(Truth(a > b)),
        (Operation::And, Truth(a), Truth(b)) => Some(Truth(*a && *b)),
        (Operation::Or, Truth(a), Truth(b)) => Some(Truth(*a || *b)),
        _ => None,
    }
}
