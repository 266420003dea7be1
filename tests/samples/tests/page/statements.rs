//! The handler of a page.

use super::lines::{Line, Lines, Read};
use generate::author::operate;
use generate::programs::{parallel, repeat, sequence, store, when};
use reference::language::{Expression, Operation, Statement};

pub struct Statements<'a, 'b> {
    pub names: &'a [String],
    pub lines: &'a mut Lines<'b>,
}

impl Statements<'_, '_> {
    pub fn statement(&mut self, depth: usize) -> Read<Statement> {
        let (part, goes_on) = self.part(depth)?;
        if goes_on {
            return Ok(sequence(part, self.statement(depth)?));
        }
        Ok(part)
    }

    /// A statement that is no sequence, and whether a semicolon follows it.
    fn part(&mut self, depth: usize) -> Read<(Statement, bool)> {
        let line = self.lines.next()?;
        let text = line.at_depth(depth)?;
        if text == "par" {
            let left = self.statement(depth + 1)?;
            self.lines.expect(&format!("{}beside", "  ".repeat(depth)))?;
            let right = self.statement(depth + 1)?;
            return Ok((parallel(left, right), self.end("rap", depth)?));
        }
        if let Some(test) = between("if ", text, " then") {
            let test = self.expression(test, &line)?;
            let body = self.statement(depth + 1)?;
            return Ok((when(test, body), self.end("fi", depth)?));
        }
        if let Some(test) = between("while ", text, " do") {
            let test = self.expression(test, &line)?;
            let body = self.statement(depth + 1)?;
            return Ok((repeat(test, body), self.end("od", depth)?));
        }
        let simple = text.strip_suffix(';');
        Ok((self.simple(simple.unwrap_or(text), &line)?, simple.is_some()))
    }

    fn simple(&self, text: &str, line: &Line) -> Read<Statement> {
        if text == "nil" {
            return Ok(Statement::Nil);
        }
        let (name, value) = text.split_once(" ← ").ok_or_else(|| line.error("no statement"))?;
        let variable = self.variable(name).ok_or_else(|| line.error("no such variable"))?;
        Ok(store(variable, self.expression(value, line)?))
    }

    /// The last line of a statement, and whether a semicolon follows it.
    fn end(&mut self, word: &str, depth: usize) -> Read<bool> {
        let line = self.lines.next()?;
        match line.at_depth(depth)?.strip_prefix(word) {
            Some("") => Ok(false),
            Some(";") => Ok(true),
            _ => Err(line.error(&format!("not {word:?}"))),
        }
    }

    fn variable(&self, name: &str) -> Option<usize> {
        self.names.iter().position(|known| known == name)
    }

    fn expression(&self, text: &str, line: &Line) -> Read<Expression> {
        self.whole(text).ok_or_else(|| line.error("no expression"))
    }

    /// An operand, or two with a sign between them.
    fn whole(&self, text: &str) -> Option<Expression> {
        let (left, rest) = self.operand(text)?;
        if rest.is_empty() {
            return Some(left);
        }
        let (sign, rest) = rest.strip_prefix(' ')?.split_once(' ')?;
        let (right, rest) = self.operand(rest)?;
        rest.is_empty().then_some(operate(operation(sign)?, left, right))
    }

    /// A constant, a variable or an expression in brackets, and the text after it.
    fn operand<'t>(&self, text: &'t str) -> Option<(Expression, &'t str)> {
        if let Some(inner) = text.strip_prefix('(') {
            let end = closing(inner)?;
            return Some((self.whole(&inner[..end])?, &inner[end + 1..]));
        }
        let (word, rest) = text.split_at(text.find(' ').unwrap_or(text.len()));
        let leaf = match (word, self.variable(word)) {
            (_, Some(variable)) => Expression::Variable(variable),
            ("true", None) => Expression::Truth(true),
            ("false", None) => Expression::Truth(false),
            (number, None) => Expression::Integer(number.parse::<i8>().ok()?.into()),
        };
        Some((leaf, rest))
    }
}

fn between<'t>(start: &str, text: &'t str, end: &str) -> Option<&'t str> {
    text.strip_prefix(start)?.strip_suffix(end)
}

/// Where the bracket that is already open is closed.
fn closing(text: &str) -> Option<usize> {
    let mut open = 1;
    for (at, letter) in text.char_indices() {
        match letter {
            '(' => open += 1,
            ')' => open -= 1,
            _ => {}
        }
        if open == 0 {
            return Some(at);
        }
    }
    None
}

fn operation(sign: &str) -> Option<Operation> {
    let signs = ["+", "−", "<", "=", ">", "∧", "∨"];
    signs.iter().position(|known| *known == sign).map(|code| Operation::ALL[code])
}
