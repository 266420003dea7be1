//! Two pairs, each within the limits, whose parallel is at one of them or passes it.

use crate::derivation::{Derivation, Step, Tables};
use crate::pairs::Pair;
use crate::programs::{deep, in_order, nils, of_steps, repeat, when};
use crate::random::Random;
use crate::vacuous;
use reference::language::{Expression, Handler, Statement};
use reference::proof_file::{Node, Proof};
use reference::space::Space;
use reference::states::{Relation, StateSet};
use reference::step_number;

/// What the result may have too much of.
#[derive(Clone, Copy, PartialEq, Eq, Debug)]
pub enum Limit {
    Statements,
    StatementLevels,
    Nodes,
    NodeLevels,
    Sets,
    Relations,
    Steps,
}

impl Limit {
    pub const ALL: [Limit; 7] = [
        Limit::Statements,
        Limit::StatementLevels,
        Limit::Nodes,
        Limit::NodeLevels,
        Limit::Sets,
        Limit::Relations,
        Limit::Steps,
    ];

    /// As much as a pair may have.
    pub fn most(self) -> u64 {
        match self {
            Limit::Statements => 63,
            Limit::StatementLevels => 16,
            Limit::Nodes => 127,
            Limit::NodeLevels => 24,
            Limit::Sets | Limit::Relations => 16,
            Limit::Steps => MOST_STEPS,
        }
    }

    /// How much a pair has that is accepted.
    pub fn of(self, handler: &Handler, proof: &Proof) -> u64 {
        let statement = &handler.statement;
        match self {
            Limit::Statements => statement.count().into(),
            Limit::StatementLevels => statement.levels().into(),
            Limit::Nodes => nodes_of(&proof.root),
            Limit::NodeLevels => proof.root.levels().into(),
            Limit::Sets => proof.sets.len() as u64,
            Limit::Relations => proof.relations.len() as u64,
            Limit::Steps => step_number::of(statement, handler.space.states()) as u64,
        }
    }

    /// By how much the parallel of two pairs can pass the limit: both have as much as one pair can.
    pub fn most_over(self) -> usize {
        match self {
            Limit::Statements => 2 * 63 + 1 - 63,
            Limit::StatementLevels => 1,
            Limit::Nodes => 2 * 127 + 3 - 127,
            Limit::NodeLevels => 2,
            // One new set; R, G and Q and both relies of the weakens are new relations.
            Limit::Sets => 2 * 16 + 1 - 16,
            Limit::Relations => 2 * 16 + 5 - 16,
            Limit::Steps => MOST_STEPS as usize + 1,
        }
    }
}

const MOST_STEPS: u64 = u32::MAX as u64;

fn nodes_of(node: &Node) -> u64 {
    1 + node.children.iter().map(nodes_of).sum::<u64>()
}

/// Two accepted pairs that allow each other; their parallel has exactly as much as the limit allows
/// and so much more, which is at most `most_over`.
pub fn pairs(random: &mut Random, limit: Limit, over: usize) -> [Pair; 2] {
    let (first, second) = match limit {
        Limit::Statements => statements(random, 62 + over),
        Limit::StatementLevels => statement_levels(random, 15 + over),
        Limit::Nodes => nodes(random, 124 + over),
        Limit::NodeLevels => node_levels(random, 22 + over),
        Limit::Sets => sets(random, 15 + over),
        Limit::Relations => relations(random, over),
        Limit::Steps => steps(random, MOST_STEPS - 1 + over as u64),
    };
    if random.chance(50) {
        [first, second]
    } else {
        [second, first]
    }
}

/// Two shares of a total, both at least 1 and at most `most`.
fn shares(random: &mut Random, total: usize, most: usize) -> (usize, usize) {
    let least = total.saturating_sub(most).max(1);
    let one = random.between(least, total - least);
    (one, total - one)
}

/// Sequences and ifs over nil, so many statements in all.
fn so_many(random: &mut Random, count: usize) -> Statement {
    match count % 2 {
        1 => nils(random, count.div_ceil(2)),
        _ => when(Expression::Truth(false), so_many(random, count - 1)),
    }
}

fn statements(random: &mut Random, total: usize) -> (Pair, Pair) {
    let (one, two) = shares(random, total, 63);
    let sizes = *random.pick(&[[2, 2], [3, 2]]);
    let mut pair = |count| vacuous::pair(&sizes, so_many(random, count));
    (pair(one), pair(two))
}

fn statement_levels(random: &mut Random, levels: usize) -> (Pair, Pair) {
    let fewer = random.between(1, levels);
    let mut pair = |levels| vacuous::pair(&[2], deep(random, levels));
    (pair(levels), pair(fewer))
}

/// Two vacuous derivations with weakens between their nodes.
fn nodes(random: &mut Random, total: usize) -> (Pair, Pair) {
    let (one, two) = shares(random, total, 127);
    let mut pair = |count: usize| {
        let statement = so_many(random, (count / 2).clamp(1, 63));
        let mut root = vacuous::derivation(&statement, &Relation::none());
        while root.nodes() < count {
            let paths = root.paths();
            let path: &Vec<usize> = random.pick(&paths);
            let mut deeper = root.clone();
            let node = deeper.at(path);
            *node = node.clone().under_weaken();
            if deeper.levels() <= 22 {
                root = deeper;
            }
        }
        made(&[2], statement, root)
    };
    (pair(one), pair(two))
}

fn made(sizes: &[usize], statement: Statement, root: Derivation) -> Pair {
    let handler = Handler { space: Space::new(sizes), statement };
    Pair::new(handler, root).expect("each pair is within the limits")
}

fn node_levels(random: &mut Random, levels: usize) -> (Pair, Pair) {
    let fewer = random.between(1, levels);
    let mut pair = |levels: usize| {
        let of_statements = random.between(1, levels.min(11));
        let statement = deep(random, of_statements);
        let mut root = vacuous::derivation(&statement, &Relation::none());
        while root.levels() < levels {
            root = root.under_weaken();
        }
        made(&[2], statement, root)
    };
    (pair(levels), pair(fewer))
}

/// So many sets in all besides the met P.
fn sets(random: &mut Random, total: usize) -> (Pair, Pair) {
    if total <= 30 && random.chance(50) {
        return loops(random, total, |index| (StateSet(index as u64 + 1), Relation::none()));
    }
    // P of the first has states below 32 and P of the second others, besides one that both have.
    let (one, two) = shares(random, total, 16);
    let identity = Relation::of_rows((0..64).map(|s| StateSet::NONE.with(s)));
    let chain = |first: usize, length: usize| {
        let tables = |length: usize| Tables {
            p: (first..first + length).chain([63]).collect(),
            r: Relation::none(),
            g: Relation::none(),
            q: identity.clone(),
        };
        under_weakens((1..=length).rev().map(tables).collect())
    };
    (chain(0, one), chain(32, two))
}

/// nil under weakens, with these tables from the skip to the root, over 64 states.
fn under_weakens(tables: Vec<Tables>) -> Pair {
    let mut tables = tables.into_iter();
    let skip = Derivation {
        step: Step::Skip,
        tables: tables.next().expect("the skip has tables"),
        children: vec![],
    };
    let root = tables.fold(skip, |child, tables| Derivation {
        step: Step::Weaken,
        tables,
        children: vec![child],
    });
    made(&[8, 8], Statement::Nil, root)
}

/// Loops in order over an empty P, whose K and W are those of so many indexes. Each index is
/// there on one side or on both.
fn loops(
    random: &mut Random,
    total: usize,
    tables: impl Fn(usize) -> (StateSet, Relation),
) -> (Pair, Pair) {
    let mut shared: Vec<usize> = (0..total).collect();
    random.shuffle(&mut shared);
    let (one, two) = shares(random, total, 15);
    // 21 loops on both sides together are 63 statements.
    let more = random.between(0, one.min(15 - two).min(21_usize.saturating_sub(total)));
    let pair = |indexes: &[usize]| {
        let body = || repeat(Expression::Truth(false), Statement::Nil);
        let statement = in_order(indexes.iter().map(|_| body()).collect());
        let mut root = vacuous::derivation(&statement, &Relation::none());
        let mut left = indexes.iter();
        give_loops(&mut root, &mut || tables(*left.next().expect("one for each loop")));
        made(&[8, 8], statement, root)
    };
    (pair(&shared[..one]), pair(&shared[one - more..]))
}

/// Gives each loop its K and W, in file order.
fn give_loops(node: &mut Derivation, next: &mut impl FnMut() -> (StateSet, Relation)) {
    if let Step::While { k, w } = &mut node.step {
        (*k, **w) = next();
    }
    for child in &mut node.children {
        give_loops(child, next);
    }
}

/// 16 relations in all, and so many more.
fn relations(random: &mut Random, over: usize) -> (Pair, Pair) {
    if over <= 15 && random.chance(50) {
        // Besides the W there is only the empty relation.
        return loops(random, 15 + over, |index| (StateSet::NONE, one_pair(index, 63)));
    }
    // R, G and Q of the root, two more relies, R and Q of either skip, and the G of either.
    let (one, two) = shares(random, 16 + over - 9, 14);
    let first = chain_of_g((0, one), (16, two), 41);
    let second = chain_of_g((16, two), (0, one), 42);
    (first, second)
}

fn one_pair(s: usize, t: usize) -> Relation {
    let mut relation = Relation::none();
    relation.set_row(s, StateSet::NONE.with(t));
    relation
}

/// The pairs (s,s) of so many states.
fn still((first, count): (usize, usize)) -> Relation {
    let states: StateSet = (first..first + count).collect();
    let row = |s: usize| StateSet::NONE.with(s).meet(states);
    Relation::of_rows((0..64).map(row))
}

/// nil under weakens that have ever more of G. The rely takes in the G of the other, a pair that
/// both relies have and one that only this one has.
fn chain_of_g((first, count): (usize, usize), other: (usize, usize), own: usize) -> Pair {
    let r = still(other).join(&one_pair(40, 63)).join(&one_pair(own, 63));
    let q = r.reach();
    let all = StateSet::first(64);
    let tables =
        |count: usize| Tables { p: all, r: r.clone(), g: still((first, count)), q: q.clone() };
    under_weakens((1..=count).map(tables).collect())
}

/// Two step numbers with this sum.
fn steps(random: &mut Random, total: u64) -> (Pair, Pair) {
    loop {
        let least = total.saturating_sub(MOST_STEPS);
        let any = least + random.word() % (total - 2 * least + 1);
        let few = least + random.below(3000) as u64;
        let one = *random.pick(&[least, few.min(total - least), any, total / 2]);
        let [one, two] = [one, total - one].map(of_steps);
        if one.count() + two.count() < 63 && one.levels().max(two.levels()) < 16 {
            let sizes = *random.pick(&[&[8, 8][..], &[4, 16], &[2, 2, 4, 4]]);
            return (vacuous::pair(sizes, one), vacuous::pair(sizes, two));
        }
    }
}
