//! Reading the handler file, front to back (faults 10 to 18).

use crate::fault::Fault;
use crate::language::{Expression, Handler, Kind, Operation, Statement};
use crate::reader::Reader;
use crate::space::Space;

pub const MOST_STATES: usize = 64;
pub const MOST_STATEMENTS: u32 = 63;
pub const STATEMENT_LEVELS: u32 = 16;
pub const MOST_EXPRESSION_NODES: u32 = 31;

pub fn read(bytes: &[u8]) -> Result<Handler, Fault> {
    let mut reader = Reader::new(bytes, 10, 18);
    let sizes = read_sizes(&mut reader)?;
    let mut program = Program { reader, variables: sizes.len(), statements: 0, wrong_kind: None };
    let statement = program.statement(1)?;
    program.reader.finish()?;
    match program.wrong_kind {
        Some(place) => Err(Fault::at_bit(16, place)),
        None => Ok(Handler { space: Space::new(&sizes), statement }),
    }
}

fn read_sizes(reader: &mut Reader) -> Result<Vec<usize>, Fault> {
    let variables = reader.field(3)? as usize;
    if !(1..=4).contains(&variables) {
        return Err(Fault::at_bit(11, 0));
    }
    let mut sizes = Vec::with_capacity(variables);
    let mut states = 1;
    for _ in 0..variables {
        let place = reader.bit();
        let size = reader.field(5)? as usize;
        if !(2..=16).contains(&size) {
            return Err(Fault::at_bit(12, place));
        }
        states *= size;
        if states > MOST_STATES {
            return Err(Fault::at_bit(13, place));
        }
        sizes.push(size);
    }
    Ok(sizes)
}

struct Program<'a> {
    reader: Reader<'a>,
    variables: usize,
    statements: u32,
    /// The first node, in file order, that does not give the kind wanted of it. It is kept
    /// while reading goes on, since every other fault of the file goes before 16.
    wrong_kind: Option<usize>,
}

impl Program<'_> {
    fn statement(&mut self, level: u32) -> Result<Statement, Fault> {
        let place = self.reader.bit();
        let code = self.reader.field(3)?;
        self.statements += 1;
        if self.statements > MOST_STATEMENTS || level > STATEMENT_LEVELS {
            return Err(Fault::at_bit(17, place));
        }
        match code {
            0 => Ok(Statement::Nil),
            1 => Ok(Statement::Assignment(self.variable()?, self.whole(Kind::Integer)?)),
            2 => Ok(Statement::Sequence(self.part(level)?, self.part(level)?)),
            3 => Ok(Statement::Parallel(self.part(level)?, self.part(level)?)),
            4 => Ok(Statement::If(self.whole(Kind::Truth)?, self.part(level)?)),
            5 => Ok(Statement::While(self.whole(Kind::Truth)?, self.part(level)?)),
            _ => Err(Fault::at_bit(14, place)),
        }
    }

    /// A statement within one of the given level.
    fn part(&mut self, level: u32) -> Result<Box<Statement>, Fault> {
        self.statement(level + 1).map(Box::new)
    }

    fn variable(&mut self) -> Result<usize, Fault> {
        let place = self.reader.bit();
        let variable = self.reader.field(2)? as usize;
        if variable >= self.variables {
            return Err(Fault::at_bit(15, place));
        }
        Ok(variable)
    }

    /// A whole expression, of which the kind is wanted.
    fn whole(&mut self, wanted: Kind) -> Result<Expression, Fault> {
        self.expression(wanted, &mut 0)
    }

    fn expression(&mut self, wanted: Kind, nodes: &mut u32) -> Result<Expression, Fault> {
        let place = self.reader.bit();
        let code = self.reader.field(2)?;
        *nodes += 1;
        if *nodes > MOST_EXPRESSION_NODES {
            return Err(Fault::at_bit(17, place));
        }
        match code {
            0 => {
                self.gives(Kind::Integer, wanted, place);
                let byte = self.reader.field(8)? as u8;
                Ok(Expression::Integer(i64::from(byte as i8)))
            }
            1 => {
                self.gives(Kind::Truth, wanted, place);
                Ok(Expression::Truth(self.reader.field(1)? == 1))
            }
            2 => {
                self.gives(Kind::Integer, wanted, place);
                Ok(Expression::Variable(self.variable()?))
            }
            _ => self.operation(wanted, place, nodes),
        }
    }

    fn operation(
        &mut self,
        wanted: Kind,
        place: usize,
        nodes: &mut u32,
    ) -> Result<Expression, Fault> {
        let code_place = self.reader.bit();
        let code = self.reader.field(3)? as usize;
        let Some(&operation) = Operation::ALL.get(code) else {
            return Err(Fault::at_bit(14, code_place));
        };
        self.gives(operation.gives(), wanted, place);
        let left = self.expression(operation.takes(), nodes)?;
        let right = self.expression(operation.takes(), nodes)?;
        Ok(Expression::Operation(operation, Box::new(left), Box::new(right)))
    }

    fn gives(&mut self, kind: Kind, wanted: Kind, place: usize) {
        if kind != wanted && self.wrong_kind.is_none() {
            self.wrong_kind = Some(place);
        }
    }
}
