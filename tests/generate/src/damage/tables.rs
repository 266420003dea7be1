//! Damage to the tables of a derivation.

use super::{repack, Files};
use crate::derivation::{Derivation, Step};
use crate::pairs::Pair;
use crate::random::Random;
use reference::language::Statement;
use reference::space::Space;
use reference::states::{Relation, StateSet};

/// A derivation with some members more or less in some table; the children's tables may follow, as
/// 34 and 36 to 38 want, so that the later conditions are reached.
pub fn changed(random: &mut Random, pair: &Pair) -> Option<Files> {
    let mut derivation = pair.derivation.clone();
    let space = &pair.handler.space;
    let paths = derivation.paths();
    for _ in 0..random.between(1, 2) {
        let path = random.pick(&paths).clone();
        let node = derivation.at(&path);
        match random.below(100) {
            0..=44 => {
                let slot = random.below(6);
                change_slot(random, space, node, slot);
            }
            45..=84 => change_everywhere(random, space, &mut derivation, &path),
            _ => forget_ends(random, space, node),
        }
    }
    if random.chance(70) {
        mend(&mut derivation, &pair.handler.statement, space);
    }
    repack(&pair.handler, &derivation)
}

/// How many members change: mostly one, at times enough to break a condition in many states.
fn extent(random: &mut Random) -> usize {
    *random.pick(&[1, 1, 1, 4, 32])
}

/// Members more or less in one table of one node: P, R, G, Q, and K and W of a loop.
pub fn change_slot(random: &mut Random, space: &Space, node: &mut Derivation, slot: usize) {
    for _ in 0..extent(random) {
        change_member(random, space, node, slot);
    }
}

fn change_member(random: &mut Random, space: &Space, node: &mut Derivation, slot: usize) {
    let tables = &mut node.tables;
    let s = likely_start(random, space, tables.p);
    match (slot, &mut node.step) {
        (0, _) => tables.p = flipped(random, space, tables.p),
        (1, _) => flip(random, space, &mut tables.r, s),
        (2, _) => flip(random, space, &mut tables.g, s),
        (4, Step::While { k, .. }) => *k = flipped(random, space, *k),
        (5, Step::While { w, .. }) => flip(random, space, w, s),
        _ => flip(random, space, &mut tables.q, s),
    }
}

/// Members more or less in a table of a node, wherever the derivation has that table.
fn change_everywhere(random: &mut Random, space: &Space, root: &mut Derivation, path: &[usize]) {
    let tables = &root.at(path).tables;
    if random.chance(25) {
        let old = tables.p;
        let new = flipped(random, space, old);
        root.replace_set(old, new);
    } else {
        let old = random.pick(&[&tables.r, &tables.g, &tables.q]).to_owned().clone();
        let mut new = old.clone();
        for _ in 0..extent(random) {
            let s = likely_start(random, space, tables.p);
            flip(random, space, &mut new, s);
        }
        root.replace_relation(&old, &new);
    }
}

/// Takes out of Q the pairs that end in some states or in one from which R leads to them. So 32
/// and 33 still hold, and the conditions after them are reached with many pairs missing.
fn forget_ends(random: &mut Random, space: &Space, node: &mut Derivation) {
    let forgotten = random.thinned(space.all(), 20);
    let reach = node.tables.r.reach();
    let kept = |t: &usize| reach.row(*t).meet(forgotten) == StateSet::NONE;
    node.tables.q = node.tables.q.ending_in(space.all().members().filter(kept).collect());
}

fn flipped(random: &mut Random, space: &Space, set: StateSet) -> StateSet {
    StateSet(set.0 ^ 1 << random.below(space.states()))
}

/// A state to start a pair from: mostly one of P, since most conditions look at no other.
fn likely_start(random: &mut Random, space: &Space, p: StateSet) -> usize {
    let members: Vec<usize> = p.members().collect();
    if members.is_empty() || random.chance(15) {
        return random.below(space.states());
    }
    *random.pick(&members)
}

/// Mostly a pair from s that is there goes, else one comes or goes.
fn flip(random: &mut Random, space: &Space, relation: &mut Relation, s: usize) {
    let row = relation.row(s);
    let there: Vec<usize> = row.members().collect();
    let new = if !there.is_empty() && random.chance(60) {
        row.without(*random.pick(&there))
    } else {
        flipped(random, space, row)
    };
    relation.set_row(s, new);
}

/// Gives the children the tables that 34 and 36 to 38 want of them, from the root down.
pub fn mend(node: &mut Derivation, statement: &Statement, space: &Space) {
    let own = node.tables.clone();
    let children = &mut node.children;
    match (&node.step, statement) {
        (Step::Weaken, _) => mend(&mut children[0], statement, space),
        (Step::Sequence, Statement::Sequence(left, right)) => {
            children[0].tables.p = own.p;
            for (child, part) in children.iter_mut().zip([left, right]) {
                child.tables.r = own.r.clone();
                child.tables.g = own.g.clone();
                mend(child, part, space);
            }
        }
        (Step::Parallel, Statement::Parallel(left, right)) => {
            let guarantees = [children[1].tables.g.clone(), children[0].tables.g.clone()];
            let sides = children.iter_mut().zip([left, right]).zip(guarantees);
            for ((child, part), other) in sides {
                child.tables.p = own.p;
                child.tables.r = own.r.join(&other);
                mend(child, part, space);
            }
        }
        (Step::If, Statement::If(test, body)) => {
            children[0].tables = own;
            let tables = &mut children[0].tables;
            tables.p = tables.p.meet(space.where_true(test));
            mend(&mut children[0], body, space);
        }
        (Step::While { k, w }, Statement::While(_, body)) => {
            let q = w.ending_in(own.p);
            children[0].tables = own;
            children[0].tables.p = children[0].tables.p.meet(*k);
            children[0].tables.q = q;
            mend(&mut children[0], body, space);
        }
        _ => {}
    }
}
