//! Derivations with an empty P: every condition that begins "s in P" holds, so any handler
//! has one, however large its step number is and whatever its stores would do.

use crate::derivation::{Derivation, Step, Tables};
use crate::pairs::Pair;
use reference::language::{Handler, Statement};
use reference::space::Space;
use reference::states::{Relation, StateSet};

/// The derivation with one relation for every R and G, and empty Q, K and W.
pub fn derivation(statement: &Statement, r: &Relation) -> Derivation {
    let part = |statement: &Statement| derivation(statement, r);
    let (step, children) = match statement {
        Statement::Nil => (Step::Skip, vec![]),
        Statement::Assignment(..) => (Step::Assignment, vec![]),
        Statement::Sequence(left, right) => (Step::Sequence, vec![part(left), part(right)]),
        Statement::Parallel(left, right) => (Step::Parallel, vec![part(left), part(right)]),
        Statement::If(_, body) => (Step::If, vec![part(body)]),
        Statement::While(_, body) => {
            (Step::While { k: StateSet::NONE, w: Box::new(Relation::none()) }, vec![part(body)])
        }
    };
    let (g, q) = (r.clone(), Relation::none());
    Derivation { step, tables: Tables { p: StateSet::NONE, r: r.clone(), g, q }, children }
}

/// The handler over these sizes with its vacuous derivation.
pub fn pair(sizes: &[usize], statement: Statement) -> Pair {
    let root = derivation(&statement, &Relation::none());
    let handler = Handler { space: Space::new(sizes), statement };
    Pair::new(handler, root).expect("a handler within its limits has a derivation within them")
}
