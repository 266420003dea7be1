//! Searches through every choice of the tables that could make a derivation.

use crate::loops::fewer;
use crate::world::*;
use generate::derivation::Tables;
use generate::programs::{count_down, number, read, repeat, store, when};
use reference::language::{Expression, Statement};
use reference::states::{Relation, StateSet};
use reference::Verdict;

/// How many of the pairs that were tried are accepted.
#[derive(Default)]
pub struct Count {
    accepted: u32,
    tried: u32,
}

impl Count {
    fn add(&mut self, claim: Claim) {
        self.tried += 1;
        self.accepted += u32::from(matches!(claim.verdict(), Verdict::Accepted(_)));
    }

    /// As the pages have it.
    pub fn line(&self) -> String {
        format!("{} of {} accepted", thousands(self.accepted), thousands(self.tried))
    }
}

fn thousands(number: u32) -> String {
    if number < 1000 {
        return number.to_string();
    }
    format!("{},{:03}", thousands(number / 1000), number % 1000)
}

/// A search under the identifier by which a page names it.
pub struct Search {
    pub name: &'static str,
    pub run: fn() -> Count,
}

pub fn searches() -> Vec<Search> {
    let search = |name, run| Search { name, run };
    vec![
        search("toggle", || countdown(|[c, b, ..], [d, e, ..]| c == d && b != e)),
        search("toggle-nobody", || countdown(|_, _| false)),
        search("retake", || lock(|[l, t, ..], [m, u, ..]| l < m && t == u)),
        search("retake-nobody", || lock(|_, _| false)),
        search("idle", || loops(equal(read(0), number(0)), raised, has_0)),
        search("forever", || loops(Expression::Truth(true), |_| true, |p| p != StateSet::NONE)),
        search("twice", || loops(contradiction(), raised, has_0)),
        search("twice-nobody", || loops(contradiction(), nobody, has_0)),
        search("flag-41", || copies(raised)),
        search("flag-41-nobody", || copies(nobody)),
        search("flag-45", || tests(raised)),
        search("flag-45-nobody", || tests(nobody)),
    ]
}

/// False in both states of one variable of size 2.
fn contradiction() -> Expression {
    and(equal(read(0), number(0)), equal(read(0), number(1)))
}

fn raised(r: &Relation) -> bool {
    r.has(0, 1)
}

fn nobody(r: &Relation) -> bool {
    *r == none()
}

fn has_0(p: StateSet) -> bool {
    p.has(0)
}

/// Every set of the first so many states.
fn sets(states: usize) -> impl Iterator<Item = StateSet> + Clone {
    (0..1 << states).map(StateSet)
}

/// Every relation between the first so many states, which are at most 4.
fn relations(states: usize) -> impl Iterator<Item = Relation> + Clone {
    let mask = (1 << states) - 1;
    let row = move |rows: u64, s: usize| StateSet(rows >> (states * s) & mask);
    (0..1 << (states * states))
        .map(move |rows: u64| Relation::of_rows((0..states).map(|s| row(rows, s))))
}

/// Whether a relation has no pair (s,s): 51 refuses every other W.
fn without_loops(w: &Relation) -> bool {
    w.rows().iter().enumerate().all(|(s, row)| !row.has(s))
}

/// A loop over four states, with P of every state, G and Q of every pair, every K, and every W
/// that has no pair (s,s).
fn every_k_and_w(world: &World, statement: &Statement, r: &Relation) -> Count {
    let mut count = Count::default();
    let tables =
        Tables { p: world.all(), r: r.clone(), g: world.every_pair(), q: world.every_pair() };
    for k in sets(4) {
        for w in relations(4).filter(without_loops) {
            let derivation = Loop { tables: tables.clone(), k, w }.node(assignment);
            count.add(world.claim("", statement.clone(), derivation));
        }
    }
    count
}

fn countdown(rely: fn([i64; 4], [i64; 4]) -> bool) -> Count {
    let world = world([("c", 2), ("bit", 2)]);
    every_k_and_w(&world, &count_down(0), &world.relation(rely))
}

fn lock(rely: fn([i64; 4], [i64; 4]) -> bool) -> Count {
    let world = world([("lock", 2), ("tries", 2)]);
    let test = and(equal(read(0), number(1)), greater(read(1), number(0)));
    every_k_and_w(&world, &repeat(test, fewer(1)), &world.relation(rely))
}

/// A loop over nil and two states: every such P and R, every Q, K and W.
fn loops(test: Expression, rely: fn(&Relation) -> bool, start: fn(StateSet) -> bool) -> Count {
    let world = world([("c", 2)]);
    let mut count = Count::default();
    for p in sets(2).filter(|p| start(*p)) {
        for r in relations(2).filter(rely) {
            for q in relations(2) {
                let tables = Tables { p, r: r.clone(), g: world.every_pair(), q };
                for (k, w) in sets(2).flat_map(|k| relations(2).map(move |w| (k, w))) {
                    let node = Loop { tables: tables.clone(), k, w }.node(skip);
                    count.add(world.claim("", repeat(test.clone(), Statement::Nil), node));
                }
            }
        }
    }
    count
}

/// Two states: every P with state 0, every such R, every G and Q.
fn tables(rely: fn(&Relation) -> bool) -> impl Iterator<Item = Tables> {
    let starts = sets(2).filter(|p| has_0(*p));
    let relies = relations(2).filter(rely);
    let rest = relations(2).flat_map(|g| relations(2).map(move |q| (g.clone(), q)));
    starts.flat_map(move |p| {
        let rest = rest.clone();
        relies
            .clone()
            .flat_map(move |r| rest.clone().map(move |(g, q)| Tables { p, r: r.clone(), g, q }))
    })
}

/// `flag ← flag`.
fn copies(rely: fn(&Relation) -> bool) -> Count {
    let world = world([("flag", 2)]);
    let mut count = Count::default();
    for tables in tables(rely) {
        count.add(world.claim("", store(0, read(0)), assignment(tables)));
    }
    count
}

/// `if flag = 1 then nil`.
fn tests(rely: fn(&Relation) -> bool) -> Count {
    let world = world([("flag", 2)]);
    let test = equal(read(0), number(1));
    let mut count = Count::default();
    for tables in tables(rely) {
        let node = when_node(tables, world.set(|[f, ..]| f == 1), skip);
        count.add(world.claim("", when(test.clone(), Statement::Nil), node));
    }
    count
}
