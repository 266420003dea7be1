//! The sets and relations of a page.

use super::lines::{Line, Lines, Read};
use reference::space::Space;
use reference::states::{Relation, StateSet};

pub struct Tables<'a, 'b> {
    pub space: &'a Space,
    pub lines: &'a mut Lines<'b>,
}

impl Tables<'_, '_> {
    pub fn sets(&mut self) -> Read<Vec<StateSet>> {
        let mut sets = vec![];
        while self.lines.starts_with("set ") {
            let line = self.lines.next_wrapped()?;
            let states = line.text.strip_prefix(&format!("set {}: ", sets.len()));
            sets.push(self.states(states.ok_or_else(|| line.error("not the next set"))?, &line)?);
        }
        Ok(sets)
    }

    pub fn relations(&mut self) -> Read<Vec<Relation>> {
        let mut relations = vec![];
        while self.lines.starts_with("relation ") {
            relations.push(self.relation(relations.len())?);
        }
        Ok(relations)
    }

    fn relation(&mut self, number: usize) -> Read<Relation> {
        let line = self.lines.next_wrapped()?;
        let pairs = line.text.strip_prefix(&format!("relation {number}"));
        let pairs = pairs.ok_or_else(|| line.error("not the next relation"))?;
        let ends = match pairs {
            ": no pair" => StateSet::NONE,
            ": every pair" => self.space.all(),
            // The brackets hold a remark.
            _ if pairs.starts_with(" (") && pairs.ends_with("):") => return self.rows(),
            _ => match pairs.strip_prefix(": every pair that ends in: ") {
                Some(states) => self.states(states, &line)?,
                None => return Err(line.error("no relation")),
            },
        };
        Ok(Relation::of_rows(vec![ends; self.space.states()]))
    }

    /// Lines of starts and ends; a start that has no line has no pair.
    fn rows(&mut self) -> Read<Relation> {
        let mut relation = Relation::none();
        while self.lines.starts_with("  ") {
            let line = self.lines.next_wrapped()?;
            let row = line.at_depth(1)?.split_once(" → ");
            let (starts, ends) = row.ok_or_else(|| line.error("no row"))?;
            let ends = self.states(ends, &line)?;
            for s in self.states(starts, &line)?.members() {
                if relation.row(s) != StateSet::NONE {
                    return Err(line.error("a second row of a start"));
                }
                relation.set_row(s, ends);
            }
        }
        Ok(relation)
    }

    fn states(&self, text: &str, line: &Line) -> Read<StateSet> {
        match text {
            "no state" => return Ok(StateSet::NONE),
            "every state" => return Ok(self.space.all()),
            _ => {}
        }
        let mut set = StateSet::NONE;
        for word in text.split(' ') {
            let state =
                self.state(word).ok_or_else(|| line.error(&format!("no state {word:?}")))?;
            if set.has(state) {
                return Err(line.error(&format!("twice {word:?}")));
            }
            set = set.with(state);
        }
        Ok(set)
    }

    /// The number of a state such as `(1,0)`, the first variable being the most significant.
    fn state(&self, word: &str) -> Option<usize> {
        let values: Vec<&str> = word.strip_prefix('(')?.strip_suffix(')')?.split(',').collect();
        if values.len() != self.space.sizes().len() {
            return None;
        }
        values.iter().zip(self.space.sizes()).try_fold(0, |number, (value, size)| {
            let value = value.parse::<usize>().ok().filter(|value| value < size)?;
            Some(number * size + value)
        })
    }
}
