//! Pairs over equal sizes that are to run beside each other.

mod damage;
pub mod limits;

pub use damage::{numbered, variant};

use crate::author::{Author, Direction, Scope};
use crate::derivation::Derivation;
use crate::derive::{settled, Demand, Deriver};
use crate::pairs::{
    random_directions, random_rely, random_set, random_space, wider_q, Pair, Scale,
};
use crate::random::Random;
use reference::language::{Handler, Statement};
use reference::space::Space;
use reference::states::{Relation, StateSet};

/// So many accepted pairs over equal sizes, of which each allows what the others do: any of them
/// compose, unless a limit is passed.
pub fn guests(random: &mut Random, scale: Scale, count: usize) -> Vec<Pair> {
    loop {
        if let Some(pairs) = attempt(random, scale, count) {
            return pairs;
        }
    }
}

/// Two of them.
pub fn two_guests(random: &mut Random, scale: Scale) -> [Pair; 2] {
    let two = guests(random, scale, 2).try_into();
    two.unwrap_or_else(|_| unreachable!("there are two"))
}

/// A guest before it has a derivation: what it does, where it starts, and what others than the
/// guests do to it.
struct Guest {
    statement: Statement,
    p: StateSet,
    r: Relation,
    coarse: bool,
}

fn attempt(random: &mut Random, scale: Scale, count: usize) -> Option<Vec<Pair>> {
    let space = roomy_space(random, scale.most_states, count);
    let directions = random_directions(random, space.sizes().len());
    let (scopes, moved) = shared_out(random, space.sizes().len(), count);
    let p = random_set(random, space.all());
    let r = random_rely(random, &space, &moved, &directions);
    let mut guests = Vec::with_capacity(count);
    for scope in &scopes {
        let statement = some_statement(random, &space, scope, &directions, scale);
        let p = like(random, p, &space);
        let more = random_rely(random, &space, &scope.moved, &directions);
        let r = if random.chance(50) { r.join(&more) } else { r.clone() };
        guests.push(Guest { statement, p, r, coarse: random.chance(25) });
    }
    let mut roots = derived_together(random, &space, &guests)?;
    widen(random, &space, &mut roots);
    let handlers = guests.into_iter().map(|guest| guest.statement);
    let pair = |(statement, root)| Pair::new(Handler { space: space.clone(), statement }, root);
    handlers.zip(roots).map(pair).collect()
}

/// Sizes that mostly give each guest a variable.
fn roomy_space(random: &mut Random, most: usize, count: usize) -> Space {
    loop {
        let space = random_space(random, most);
        if space.sizes().len() >= count || random.chance(20) {
            return space;
        }
    }
}

/// What each guest may read and write, and the variables that others than the guests move.
/// Mostly a variable has one writer, and nobody else reads it.
fn shared_out(random: &mut Random, variables: usize, count: usize) -> (Vec<Scope>, Vec<usize>) {
    let scope = Scope { readable: vec![], writable: vec![], moved: vec![] };
    let (mut scopes, mut moved) = (vec![scope; count], vec![]);
    for variable in 0..variables {
        let mut writers = vec![random.below(count)];
        match random.below(100) {
            0..=9 => writers.clear(),
            10..=19 => writers.push(random.below(count)),
            _ => {}
        }
        let outside = random.chance(20);
        if outside {
            moved.push(variable);
        }
        for (guest, scope) in scopes.iter_mut().enumerate() {
            let others = outside || writers.iter().any(|writer| *writer != guest);
            let part = if others { &mut scope.moved } else { &mut scope.readable };
            part.push(variable);
            if writers.contains(&guest) {
                scope.writable.push(variable);
            }
        }
    }
    (scopes, moved)
}

fn some_statement(
    random: &mut Random,
    space: &Space,
    scope: &Scope,
    directions: &[Direction],
    scale: Scale,
) -> Statement {
    let least = if random.chance(20) { 1 } else { 3 };
    let most = if random.chance(10) { scale.statements } else { scale.statements.min(10) };
    let budget = random.between(least, most);
    let mut author = Author { space, random, directions: directions.to_vec(), budget };
    author.statement(scope, 1)
}

/// The set itself, or one with more states, or any.
fn like(random: &mut Random, set: StateSet, space: &Space) -> StateSet {
    match random.below(5) {
        0 => random_set(random, space.all()),
        1 => set.join(random.thinned(space.all(), 30)),
        _ => set,
    }
}

/// How often the guests are derived anew before they are given up.
const ROUNDS: usize = 8;

/// Each guest's rely takes in the others' guarantees, and its P is kept by its own; both may grow
/// with the rely, so all are derived until nothing grows.
fn derived_together(
    random: &mut Random,
    space: &Space,
    guests: &[Guest],
) -> Option<Vec<Derivation>> {
    let weakens = *random.pick(&[0, 0, 5, 20]);
    let mut starts: Vec<StateSet> = guests.iter().map(|guest| guest.p).collect();
    let mut guarantees = vec![Relation::none(); guests.len()];
    for _ in 0..ROUNDS {
        let mut roots = Vec::with_capacity(guests.len());
        for (index, guest) in guests.iter().enumerate() {
            let r = others(&guarantees, index).fold(guest.r.clone(), |r, g| r.join(g));
            let mut deriver = Deriver { space, random, weakens, noise: true, effort: 600 };
            let demand = Demand { p: starts[index], r: &r, coarse: guest.coarse };
            roots.push(deriver.derive(&guest.statement, demand)?);
        }
        let before = (starts.clone(), guarantees.clone());
        for (index, root) in roots.iter().enumerate() {
            let g = guarantees[index].join(&root.tables.g);
            starts[index] = root.tables.r.join(&g).reach().image(root.tables.p);
            guarantees[index] = g;
        }
        if (&starts, &guarantees) == (&before.0, &before.1) {
            let roots = roots.into_iter().zip(&guarantees);
            return Some(roots.map(|(root, g)| settled(root, g)).collect());
        }
    }
    None
}

/// The items of all but one.
fn others<T>(items: &[T], one: usize) -> impl Iterator<Item = &T> {
    items.iter().enumerate().filter(move |(index, _)| *index != one).map(|(_, item)| item)
}

/// At times a wider G, which all others allow and which leads out of no P, and a wider Q.
fn widen(random: &mut Random, space: &Space, roots: &mut [Derivation]) {
    let starts: Vec<StateSet> = roots.iter().map(|root| root.tables.p).collect();
    let relies: Vec<Relation> = roots.iter().map(|root| root.tables.r.clone()).collect();
    for (index, root) in roots.iter_mut().enumerate() {
        let share = *random.pick(&[0, 0, 5, 50]);
        let more = Relation::of_rows((0..space.states()).map(|s| {
            let kept = starts.iter().filter(|p| p.has(s)).fold(space.all(), |all, p| all.meet(*p));
            let borne = others(&relies, index).fold(kept, |ends, r| ends.meet(r.row(s)));
            random.thinned(borne, share)
        }));
        let share = *random.pick(&[0, 0, 3, 50]);
        let q = wider_q(random, space, &root.tables, share);
        let g = root.tables.g.join(&more);
        root.settle(g, q);
    }
}
