//! Statements of a wanted size, depth or step number.

use crate::author::operate;
use crate::random::Random;
use reference::language::{Expression, Operation, Statement};

/// The most that E of a test or a stored value can be: 31 nodes, every leaf a variable.
const MOST_E: u64 = 31;

pub fn read(variable: usize) -> Expression {
    Expression::Variable(variable)
}

pub fn number(value: i64) -> Expression {
    Expression::Integer(value)
}

pub fn store(variable: usize, value: Expression) -> Statement {
    Statement::Assignment(variable, value)
}

/// A sum with this many leaves, the first `variables` of them variable 0.
pub fn sum(leaves: u64, variables: u64) -> Expression {
    let leaf = |index: u64| {
        if index < variables {
            read(0)
        } else {
            number(1)
        }
    };
    (1..leaves).fold(leaf(0), |sum, index| operate(Operation::Add, sum, leaf(index)))
}

/// A value with this E, which is at most 31: as few leaves as can have it.
pub fn value_of(e: u64) -> Expression {
    let leaves = (e + 2) / 2;
    sum(leaves, e + 1 - leaves)
}

/// A test with this E, which is at most 31.
pub fn test_of(e: u64) -> Expression {
    if e == 0 {
        return Expression::Truth(true);
    }
    let leaves = ((e + 2) / 2).max(2);
    let variables = e + 1 - leaves;
    let left = sum(leaves - 1, variables);
    let right = if variables == leaves { read(0) } else { number(1) };
    operate(Operation::Equal, left, right)
}

pub fn sequence(left: Statement, right: Statement) -> Statement {
    Statement::Sequence(Box::new(left), Box::new(right))
}

pub fn parallel(left: Statement, right: Statement) -> Statement {
    Statement::Parallel(Box::new(left), Box::new(right))
}

pub fn when(test: Expression, body: Statement) -> Statement {
    Statement::If(test, Box::new(body))
}

pub fn repeat(test: Expression, body: Statement) -> Statement {
    Statement::While(test, Box::new(body))
}

/// Counts a variable down to 0.
pub fn count_down(variable: usize) -> Statement {
    let next = operate(Operation::Subtract, read(variable), number(1));
    repeat(operate(Operation::Greater, read(variable), number(0)), store(variable, next))
}

/// Counts a variable up to the bound.
pub fn count_up(variable: usize, bound: i64) -> Statement {
    let next = operate(Operation::Add, read(variable), number(1));
    repeat(operate(Operation::Less, read(variable), number(bound)), store(variable, next))
}

/// The parts in order, in a tree of sequences as flat as can be; there is at least one.
pub fn in_order(mut parts: Vec<Statement>) -> Statement {
    if parts.len() == 1 {
        return parts.remove(0);
    }
    let right = parts.split_off(parts.len() / 2);
    sequence(in_order(parts), in_order(right))
}

/// A statement whose step number, with 64 states, is exactly this. Whiles divide the number by
/// 63 each; what they cannot give is put before them.
pub fn of_steps(steps: u64) -> Statement {
    match steps {
        0 => Statement::Nil,
        1..=32 => store(0, value_of(steps - 1)),
        33..=2299 => small(steps),
        _ => {
            // 64 (E + 2) + 63 (body + 1) leaves the rest E + 2 in steps of 63.
            let rest = steps % 63;
            let before = if (2..=MOST_E + 2).contains(&rest) { 0 } else { (rest + 30) % 63 };
            let within = steps - before;
            let e = within % 63 - 2;
            let body = (within - 64 * (e + 2)) / 63 - 1;
            preceded(before, repeat(test_of(e), of_steps(body)))
        }
    }
}

fn small(steps: u64) -> Statement {
    let before = (steps % 63 + 61) % 63;
    let within = steps - before;
    if steps < before + 191 {
        return preceded(33, of_steps(steps - 33));
    }
    preceded(before, repeat(test_of(0), of_steps((within - 128) / 63 - 1)))
}

/// The statement after others that make `before` steps more in all, the sequences included.
fn preceded(before: u64, statement: Statement) -> Statement {
    match before {
        0 => statement,
        1..=33 => sequence(of_steps(before - 1), statement),
        _ => preceded(before - 33, preceded(33, statement)),
    }
}

/// A tree of sequences over `leaves` times nil, split unevenly at random.
pub fn nils(random: &mut Random, leaves: usize) -> Statement {
    if leaves == 1 {
        return Statement::Nil;
    }
    let left = random.between(leaves.div_ceil(3), leaves - leaves.div_ceil(3)).max(1);
    sequence(nils(random, left), nils(random, leaves - left))
}

/// A statement of so many levels, each but the last with its first part one level deeper.
pub fn deep(random: &mut Random, levels: usize) -> Statement {
    if levels <= 1 {
        return Statement::Nil;
    }
    let part = deep(random, levels - 1);
    match random.below(4) {
        0 => sequence(part, Statement::Nil),
        1 => parallel(part, Statement::Nil),
        2 => when(Expression::Truth(false), part),
        _ => repeat(Expression::Truth(false), part),
    }
}
