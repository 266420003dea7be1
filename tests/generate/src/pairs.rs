//! Accepted pairs: random handlers with derivations that hold.

use crate::author::{Author, Direction, Scope};
use crate::derivation::{Derivation, Tables};
use crate::derive::{starting_in, then, Demand, Deriver};
use crate::pack::{self, Packed};
use crate::random::Random;
use reference::handler_file::MOST_STATES;
use reference::language::Handler;
use reference::proof_file::{Proof, MOST_NODES, NODE_LEVELS};
use reference::space::Space;
use reference::states::{Relation, StateSet};

/// A handler, its derivation, and both as files.
#[derive(Clone)]
pub struct Pair {
    pub handler: Handler,
    pub derivation: Derivation,
    pub proof: Proof,
    pub handler_file: Packed,
    pub proof_file: Packed,
}

impl Pair {
    /// None where the derivation does not fit the limits of a proof file.
    pub fn new(handler: Handler, derivation: Derivation) -> Option<Pair> {
        let nodes_fit = derivation.nodes() <= MOST_NODES as usize;
        if !nodes_fit || derivation.levels() > NODE_LEVELS as usize {
            return None;
        }
        let proof = derivation.proof()?;
        let handler_file = pack::handler(&handler);
        let proof_file = pack::proof(&proof, handler.space.states());
        Some(Pair { handler, derivation, proof, handler_file, proof_file })
    }
}

/// How large the pairs are.
#[derive(Clone, Copy)]
pub struct Scale {
    pub most_states: usize,
    pub statements: usize,
}

impl Scale {
    /// Small enough for every run to be explored.
    pub const SMALL: Scale = Scale { most_states: 8, statements: 7 };
    pub const FULL: Scale = Scale { most_states: MOST_STATES, statements: 40 };
}

/// The next accepted pair: handlers are tried until one has a derivation.
pub fn accepted(random: &mut Random, scale: Scale) -> Pair {
    loop {
        if let Some(pair) = attempt(random, scale) {
            return pair;
        }
    }
}

fn attempt(random: &mut Random, scale: Scale) -> Option<Pair> {
    let space = random_space(random, scale.most_states);
    let variables = space.sizes().len();
    let directions = random_directions(random, variables);
    let (moved, own): (Vec<usize>, Vec<usize>) = (0..variables).partition(|_| random.chance(25));
    let rely = random_rely(random, &space, &moved, &directions);
    let mut writable = own.clone();
    writable.extend(moved.iter().filter(|_| random.chance(30)));
    let scope = Scope { readable: own, writable, moved };
    let coarse = random.chance(25);
    let most = if coarse { scale.statements } else { scale.statements.min(14) };
    let least = if random.chance(15) { 1 } else { 4 };
    let budget = random.between(least, most);
    let mut author = Author { space: &space, random, directions, budget };
    let statement = author.statement(&scope, 1);
    let weakens = *random.pick(&[0, 5, 20]);
    let p = random_set(random, space.all());
    let mut deriver = Deriver { space: &space, random, weakens, noise: true, effort: 600 };
    let mut derivation = deriver.derive(&statement, Demand { p, r: &rely, coarse })?;
    enlarge(random, &space, &mut derivation);
    Pair::new(Handler { space, statement }, derivation)
}

/// Sizes whose product is at least 2 and at most `most`.
pub fn random_space(random: &mut Random, most: usize) -> Space {
    let mut sizes = Vec::new();
    let mut left = most;
    for _ in 0..random.between(1, 4) {
        if left >= 2 {
            let largest = if random.chance(60) { left.min(4) } else { left.min(16) };
            sizes.push(random.between(2, largest));
            left /= sizes[sizes.len() - 1];
        }
    }
    Space::new(&sizes)
}

pub(crate) fn random_directions(random: &mut Random, variables: usize) -> Vec<Direction> {
    let kinds = [Direction::Free, Direction::Free, Direction::Rising, Direction::Falling];
    (0..variables).map(|_| *random.pick(&kinds)).collect()
}

pub(crate) fn random_set(random: &mut Random, all: StateSet) -> StateSet {
    let share = *random.pick(&[0, 5, 10, 50, 50, 100, 100, 100, 100, 100]);
    random.thinned(all, share)
}

/// Interference that moves the given variables in their directions.
pub(crate) fn random_rely(
    random: &mut Random,
    space: &Space,
    moved: &[usize],
    directions: &[Direction],
) -> Relation {
    let density = *random.pick(&[3, 25, 60, 100]);
    let still = random.chance(40);
    let allowed = |s: usize, t: usize| {
        (0..directions.len()).all(|variable| {
            let (from, to) = (space.values(s)[variable], space.values(t)[variable]);
            let way = match directions[variable] {
                Direction::Free => true,
                Direction::Rising => from <= to,
                Direction::Falling => from >= to,
            };
            from == to || moved.contains(&variable) && way
        })
    };
    let mut rely = Relation::none();
    for s in 0..space.states() {
        let ends: StateSet = (0..space.states()).filter(|t| s != *t && allowed(s, *t)).collect();
        let row = random.thinned(ends, density);
        rely.set_row(s, if still { row.with(s) } else { row });
    }
    rely
}

/// A wider G and Q at the root.
fn enlarge(random: &mut Random, space: &Space, root: &mut Derivation) {
    let share = *random.pick(&[0, 0, 3, 50]);
    let g = root.tables.g.join(&some_pairs(random, space, share));
    let q = wider_q(random, space, &root.tables, share);
    root.settle(g, q);
}

/// Q with more pairs, within what the closure conditions allow, and with pairs from outside P,
/// which no condition at the root minds.
pub(crate) fn wider_q(
    random: &mut Random,
    space: &Space,
    tables: &Tables,
    share: usize,
) -> Relation {
    let (p, reach) = (tables.p, tables.r.reach());
    let inside = then(&then(&starting_in(p, &reach), &some_pairs(random, space, share)), &reach);
    let outside = starting_in(space.all().minus(p), &some_pairs(random, space, share));
    tables.q.join(&starting_in(p, &inside)).join(&outside)
}

/// Each pair of states with this chance.
fn some_pairs(random: &mut Random, space: &Space, share: usize) -> Relation {
    Relation::of_rows((0..space.states()).map(|_| random.thinned(space.all(), share)))
}
