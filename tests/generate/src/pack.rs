//! Packing trees into the two files, with a list of the fields so that damage can aim.

use reference::language::{Expression, Handler, Operation, Statement};
use reference::proof_file::{Node, Proof, Rule};
use reference::states::StateSet;

/// What a field says.
#[derive(Clone, Copy, PartialEq, Eq, Debug)]
pub enum What {
    Variables,
    Size,
    Statement,
    Variable,
    Expression,
    Constant,
    Operation,
    Count,
    Table,
    Rule,
    SetNumber,
    RelationNumber,
}

/// A field of a file: what it says, its first bit and its width.
#[derive(Clone, Copy, Debug)]
pub struct Field {
    pub what: What,
    pub bit: usize,
    pub width: usize,
}

/// A finished file.
#[derive(Clone, Debug)]
pub struct Packed {
    pub bytes: Vec<u8>,
    pub fields: Vec<Field>,
}

impl Packed {
    /// The fields that say this, in file order.
    pub fn that_say(&self, what: What) -> Vec<Field> {
        self.fields.iter().copied().filter(|field| field.what == what).collect()
    }

    /// The value of a field of at most 64 bits.
    pub fn value(&self, field: Field) -> u64 {
        let bit = |bit: usize| u64::from(self.bytes[bit / 8] >> (7 - bit % 8) & 1);
        (field.bit..field.bit + field.width).fold(0, |value, place| value << 1 | bit(place))
    }

    /// The bytes with another value in one field.
    pub fn with_field(&self, field: Field, value: u64) -> Vec<u8> {
        let mut bytes = self.bytes.clone();
        for place in 0..field.width {
            let bit = field.bit + place;
            let mask = 0x80 >> (bit % 8);
            bytes[bit / 8] &= !mask;
            if value >> (field.width - 1 - place) & 1 == 1 {
                bytes[bit / 8] |= mask;
            }
        }
        bytes
    }

    /// Where the last field ends.
    pub fn end(&self) -> usize {
        self.fields.last().map_or(0, |field| field.bit + field.width)
    }
}

/// Writes fields, most significant bit first, with no gaps.
#[derive(Default)]
pub struct Packer {
    bytes: Vec<u8>,
    bit: usize,
    fields: Vec<Field>,
}

impl Packer {
    pub fn new() -> Packer {
        Packer::default()
    }

    pub fn put(&mut self, what: What, value: u64, width: usize) {
        self.fields.push(Field { what, bit: self.bit, width });
        for place in (0..width).rev() {
            if self.bit.is_multiple_of(8) {
                self.bytes.push(0);
            }
            if value >> place & 1 == 1 {
                *self.bytes.last_mut().expect("a byte was just begun") |= 0x80 >> (self.bit % 8);
            }
            self.bit += 1;
        }
    }

    /// The last byte is filled with zero bits already.
    pub fn finish(self) -> Packed {
        Packed { bytes: self.bytes, fields: self.fields }
    }

    /// The number of variables and their sizes.
    pub fn sizes(&mut self, sizes: &[usize]) {
        self.put(What::Variables, sizes.len() as u64, 3);
        for size in sizes {
            self.put(What::Size, *size as u64, 5);
        }
    }

    pub fn statement(&mut self, statement: &Statement) {
        match statement {
            Statement::Nil => self.put(What::Statement, 0, 3),
            Statement::Assignment(variable, value) => {
                self.put(What::Statement, 1, 3);
                self.put(What::Variable, *variable as u64, 2);
                self.expression(value);
            }
            Statement::Sequence(left, right) => self.two_parts(2, left, right),
            Statement::Parallel(left, right) => self.two_parts(3, left, right),
            Statement::If(test, body) => self.tested(4, test, body),
            Statement::While(test, body) => self.tested(5, test, body),
        }
    }

    fn two_parts(&mut self, code: u64, left: &Statement, right: &Statement) {
        self.put(What::Statement, code, 3);
        self.statement(left);
        self.statement(right);
    }

    fn tested(&mut self, code: u64, test: &Expression, body: &Statement) {
        self.put(What::Statement, code, 3);
        self.expression(test);
        self.statement(body);
    }

    pub fn expression(&mut self, expression: &Expression) {
        match expression {
            Expression::Integer(value) => {
                self.put(What::Expression, 0, 2);
                self.put(What::Constant, *value as u64 & 0xFF, 8);
            }
            Expression::Truth(value) => {
                self.put(What::Expression, 1, 2);
                self.put(What::Constant, u64::from(*value), 1);
            }
            Expression::Variable(variable) => {
                self.put(What::Expression, 2, 2);
                self.put(What::Variable, *variable as u64, 2);
            }
            Expression::Operation(operation, left, right) => {
                self.put(What::Expression, 3, 2);
                self.put(What::Operation, operation_code(*operation), 3);
                self.expression(left);
                self.expression(right);
            }
        }
    }

    /// State 0 first.
    pub fn set(&mut self, set: StateSet, states: usize) {
        self.put(What::Table, set.0.reverse_bits() >> (64 - states), states);
    }

    /// The counts and the tables themselves.
    pub fn tables(&mut self, proof: &Proof, states: usize) {
        self.put(What::Count, proof.sets.len() as u64, 5);
        self.put(What::Count, proof.relations.len() as u64, 5);
        for set in &proof.sets {
            self.set(*set, states);
        }
        for relation in &proof.relations {
            for row in &relation.rows()[..states] {
                self.set(*row, states);
            }
        }
    }

    pub fn node(&mut self, node: &Node) {
        self.put(What::Rule, rule_code(node.rule), 3);
        self.put(What::SetNumber, node.p as u64, 4);
        for relation in [node.r, node.g, node.q] {
            self.put(What::RelationNumber, relation as u64, 4);
        }
        if let Rule::While { k, w } = node.rule {
            self.put(What::SetNumber, k as u64, 4);
            self.put(What::RelationNumber, w as u64, 4);
        }
        for child in &node.children {
            self.node(child);
        }
    }
}

fn operation_code(operation: Operation) -> u64 {
    match operation {
        Operation::Add => 0,
        Operation::Subtract => 1,
        Operation::Less => 2,
        Operation::Equal => 3,
        Operation::Greater => 4,
        Operation::And => 5,
        Operation::Or => 6,
    }
}

fn rule_code(rule: Rule) -> u64 {
    match rule {
        Rule::Skip => 0,
        Rule::Assignment => 1,
        Rule::Sequence => 2,
        Rule::Parallel => 3,
        Rule::If => 4,
        Rule::While { .. } => 5,
        Rule::Weaken => 6,
    }
}

pub fn handler(handler: &Handler) -> Packed {
    let mut packer = Packer::new();
    packer.sizes(handler.space.sizes());
    packer.statement(&handler.statement);
    packer.finish()
}

pub fn proof(proof: &Proof, states: usize) -> Packed {
    let mut packer = Packer::new();
    packer.tables(proof, states);
    packer.node(&proof.root);
    packer.finish()
}
