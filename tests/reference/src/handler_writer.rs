//! Writing the handler file from its trees.

use crate::language::{Expression, Handler, Operation, Statement};
use crate::writer::Writer;

/// The sizes, the statement and the fill.
pub fn write(handler: &Handler) -> Vec<u8> {
    let mut writer = Writer::new();
    let sizes = handler.space.sizes();
    writer.field(sizes.len() as u64, 3);
    for size in sizes {
        writer.field(*size as u64, 5);
    }
    write_statement(&mut writer, &handler.statement);
    writer.finish()
}

/// The code, the variable or the test, and the parts.
fn write_statement(writer: &mut Writer, statement: &Statement) {
    writer.field(statement_code(statement), 3);
    match statement {
        Statement::Assignment(variable, value) => {
            writer.field(*variable as u64, 2);
            write_expression(writer, value);
        }
        Statement::If(test, _) | Statement::While(test, _) => write_expression(writer, test),
        Statement::Nil | Statement::Sequence(..) | Statement::Parallel(..) => {}
    }
    for part in statement.parts() {
        write_statement(writer, part);
    }
}

fn statement_code(statement: &Statement) -> u64 {
    match statement {
        Statement::Nil => 0,
        Statement::Assignment(..) => 1,
        Statement::Sequence(..) => 2,
        Statement::Parallel(..) => 3,
        Statement::If(..) => 4,
        Statement::While(..) => 5,
    }
}

/// An integer keeps its low 8 bits, which are all of it: two's complement.
fn write_expression(writer: &mut Writer, expression: &Expression) {
    match expression {
        Expression::Integer(value) => {
            writer.field(0, 2);
            writer.field(*value as u64 & 0xFF, 8);
        }
        Expression::Truth(value) => {
            writer.field(1, 2);
            writer.field(u64::from(*value), 1);
        }
        Expression::Variable(variable) => {
            writer.field(2, 2);
            writer.field(*variable as u64, 2);
        }
        Expression::Operation(operation, left, right) => {
            writer.field(3, 2);
            writer.field(operation_code(*operation), 3);
            write_expression(writer, left);
            write_expression(writer, right);
        }
    }
}

fn operation_code(operation: Operation) -> u64 {
    let place = Operation::ALL.iter().position(|other| *other == operation);
    place.expect("all operations are there") as u64
}

#[cfg(test)]
mod tests {
    use super::*;
    use crate::handler_file;
    use crate::writer::spelled;

    /// What is read is written as it was.
    fn same(bytes: &[u8]) {
        assert_eq!(handler_file::read(bytes).map(|handler| write(&handler)), Ok(bytes.to_vec()));
    }

    #[test]
    fn the_worked_example() {
        same(&[0x22, 0x20, 0x02]);
    }

    /// Sizes 2 and 3; a parallel of `if true then nil` and a sequence of
    /// `while 0 < x0 do x1 ← x1 + −2` and nil.
    #[test]
    fn every_statement() {
        same(&spelled(
            "010 00010 00011  011  100 01 1 000  010  101 11 010 00 00000000 10 00
             001 01 11 000 10 01 00 11111110  000",
        ));
    }

    /// Every operation under its own code.
    #[test]
    fn every_operation() {
        for (code, operation) in Operation::ALL.into_iter().enumerate() {
            assert_eq!(operation_code(operation), code as u64);
        }
    }
}
