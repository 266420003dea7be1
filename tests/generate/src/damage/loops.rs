//! Damage to K and W of the loops, in many states at once, with bodies that follow as far as 34 and
//! 36 to 38 go.

use super::tables::mend;
use super::{repack, Files};
use crate::derivation::{Derivation, Step};
use crate::derive::starting_in;
use crate::pairs::Pair;
use crate::random::Random;
use reference::language::Statement;
use reference::space::Space;
use reference::states::Relation;

/// What is wrong with the loops.
#[derive(Clone, Copy)]
enum Wrong {
    /// K lacks states, none of them with a true test: 53.
    Narrow,
    /// W has pairs (s,s): 51.
    Returning,
    /// W lacks pairs, and is no longer transitive: 57.
    Gaps,
    /// W is transitive, but only on some of the states: 55.
    Partial,
}

/// The pair with the same thing wrong in all of its loops; none where it has no loop.
pub fn disordered(random: &mut Random, pair: &Pair) -> Option<Files> {
    let kinds = [Wrong::Narrow, Wrong::Returning, Wrong::Gaps, Wrong::Partial];
    let wrong = *random.pick(&kinds);
    let (statement, space) = (&pair.handler.statement, &pair.handler.space);
    let mut derivation = pair.derivation.clone();
    if !change_loops(random, space, wrong, &mut derivation, statement) {
        return None;
    }
    mend(&mut derivation, statement, space);
    repack(&pair.handler, &derivation)
}

/// Changes the loops from a node down, and says whether there are any.
fn change_loops(
    random: &mut Random,
    space: &Space,
    wrong: Wrong,
    node: &mut Derivation,
    statement: &Statement,
) -> bool {
    let mut found = false;
    if let (Step::While { k, w }, Statement::While(test, _)) = (&mut node.step, statement) {
        let some = random.thinned(space.all(), 60);
        match wrong {
            Wrong::Narrow => *k = k.meet(some).join(space.where_true(test)),
            Wrong::Returning => some.members().for_each(|s| w.set_row(s, w.row(s).with(s))),
            Wrong::Gaps => **w = thinned(random, w),
            Wrong::Partial => **w = starting_in(some, &w.ending_in(some)),
        }
        found = true;
    }
    for (child, part) in node.children.iter_mut().zip(node.step.below(statement)) {
        found |= change_loops(random, space, wrong, child, part);
    }
    found
}

fn thinned(random: &mut Random, relation: &Relation) -> Relation {
    Relation::of_rows(relation.rows().iter().map(|row| random.thinned(*row, 80)))
}
