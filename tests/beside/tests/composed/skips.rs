//! Pairs of nil with given tables, under so many weakens.

use generate::damage::Files;
use generate::derivation::{Derivation, Step, Tables};
use generate::pairs::Pair;
use reference::language::{Handler, Statement};
use reference::space::Space;
use reference::states::{Relation, StateSet};

/// What a pair of nil says. Q is every pair of states, so that only 31 asks something of it.
#[derive(Clone)]
pub struct Skip {
    pub sizes: Vec<usize>,
    pub p: Vec<usize>,
    pub r: Vec<(usize, usize)>,
    pub g: Vec<(usize, usize)>,
    pub weakens: usize,
}

impl Skip {
    pub fn files(&self) -> Files {
        let space = Space::new(&self.sizes);
        let every = Relation::of_rows(vec![space.all(); space.states()]);
        let p: StateSet = self.p.iter().copied().collect();
        let tables = Tables { p, r: relation(&self.r), g: relation(&self.g), q: every };
        let skip = Derivation { step: Step::Skip, tables, children: vec![] };
        let root = (0..self.weakens).fold(skip, |root, _| root.under_weaken());
        let pair = Pair::new(Handler { space, statement: Statement::Nil }, root);
        let pair = pair.expect("it is within the limits");
        (pair.handler_file.bytes, pair.proof_file.bytes)
    }
}

pub fn relation(pairs: &[(usize, usize)]) -> Relation {
    pairs.iter().fold(Relation::none(), |mut relation, (s, t)| {
        relation.set_row(*s, relation.row(*s).with(*t));
        relation
    })
}
