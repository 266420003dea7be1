//! Derivations from the semantics: for a statement, a precondition and a rely, the tables
//! under which every condition of docs/RULES.md holds, or none where no such tables are found.
//!
//! Each function returns a node whose P holds at least the states asked for, whose R is the
//! one asked for, and whose G and Q are what the statement needs; `Derivation::settle` may
//! enlarge G and Q afterwards.

use crate::derivation::{Derivation, Step, Tables};
use crate::random::Random;
use reference::language::{Expression, Statement};
use reference::space::Space;
use reference::states::{Relation, StateSet};

/// What a statement is derived under.
#[derive(Clone, Copy)]
pub struct Demand<'a> {
    pub p: StateSet,
    pub r: &'a Relation,
    /// Asks for postconditions that hold every pair, so that a large handler needs few tables.
    pub coarse: bool,
}

impl<'a> Demand<'a> {
    fn from(self, p: StateSet) -> Demand<'a> {
        Demand { p, ..self }
    }

    fn tables(self, g: Relation, q: Relation) -> Tables {
        Tables { p: self.p, r: self.r.clone(), g, q }
    }
}

pub struct Deriver<'a> {
    pub space: &'a Space,
    pub random: &'a mut Random,
    /// How often, of 100, a weaken is put in where none is needed.
    pub weakens: usize,
    /// Whether K and W may hold more than they must.
    pub noise: bool,
    /// Statements still to be looked at; nested loops and parallels try theirs many times.
    pub effort: usize,
}

impl Deriver<'_> {
    pub fn derive(&mut self, statement: &Statement, demand: Demand) -> Option<Derivation> {
        self.effort = self.effort.checked_sub(1)?;
        if self.random.chance(self.weakens) {
            if let Some(node) = self.weaken(statement, demand) {
                return Some(node);
            }
        }
        self.rule(statement, demand)
    }

    fn rule(&mut self, statement: &Statement, demand: Demand) -> Option<Derivation> {
        let demand = demand.from(demand.r.reach().image(demand.p));
        let mut node = match statement {
            Statement::Nil => skip(demand),
            Statement::Assignment(variable, value) => self.assignment(*variable, value, demand)?,
            Statement::Sequence(left, right) => self.sequence(left, right, demand)?,
            Statement::Parallel(left, right) => self.parallel(left, right, demand)?,
            Statement::If(test, body) => self.if_rule(test, body, demand)?,
            Statement::While(test, body) => self.while_rule(test, body, demand)?,
        };
        if demand.coarse {
            node.tables.q = Relation::of_rows(vec![self.space.all(); self.space.states()]);
        }
        Some(node)
    }

    /// A weaken whose child allows a wider rely.
    fn weaken(&mut self, statement: &Statement, demand: Demand) -> Option<Derivation> {
        let mut wider = demand.r.clone();
        for _ in 0..self.random.below(4) {
            let (s, t) = (self.state(), self.state());
            wider.set_row(s, wider.row(s).with(t));
        }
        let p = demand.r.reach().image(demand.p);
        let child = self.rule(statement, Demand { p, r: &wider, ..demand })?;
        Some(child.weakened(p, demand.r.clone()))
    }

    fn state(&mut self) -> usize {
        self.random.below(self.space.states())
    }

    fn assignment(
        &self,
        variable: usize,
        value: &Expression,
        demand: Demand,
    ) -> Option<Derivation> {
        if value.occurrences(&|v| self.moves(demand, v)) > 0 {
            return None;
        }
        let (mut store, mut g) = (Relation::none(), Relation::none());
        for s in demand.p.members() {
            let end = self.space.store(s, variable, value.value(self.space.values(s)));
            store.set_row(s, StateSet::NONE.with(end));
            g.set_row(s, StateSet::NONE.with(end).without(s));
        }
        let reach = demand.r.reach();
        let q = then(&starting_in(demand.p, &reach), &then(&store, &reach));
        Some(leaf(Step::Assignment, demand.tables(g, q)))
    }

    fn sequence(
        &mut self,
        left: &Statement,
        right: &Statement,
        demand: Demand,
    ) -> Option<Derivation> {
        let left = self.derive(left, demand)?;
        let p = left.tables.p;
        let right = self.derive(right, demand.from(left.tables.q.image(p)))?;
        let q = starting_in(p, &then(&left.tables.q, &right.tables.q));
        let tables = demand.from(p).tables(left.tables.g.join(&right.tables.g), q);
        Some(Derivation { step: Step::Sequence, tables, children: vec![left, right] })
    }

    fn if_rule(
        &mut self,
        test: &Expression,
        body: &Statement,
        demand: Demand,
    ) -> Option<Derivation> {
        if test.occurrences(&|v| self.moves(demand, v)) > 0 {
            return None;
        }
        let holds = self.space.where_true(test);
        let inner = demand.p.meet(holds);
        let body = fitted(self.derive(body, demand.from(inner))?, inner);
        // A weakened body may bring pairs from states of P where the test is false; what leads
        // there must have them too (32).
        let reach = demand.r.reach();
        let ends = body.tables.q.join(&starting_in(demand.p.minus(holds), &reach));
        let q = ends.join(&starting_in(demand.p, &then(&reach, &ends)));
        let tables = demand.tables(body.tables.g.clone(), q);
        Some(Derivation { step: Step::If, tables, children: vec![body] })
    }

    /// P grows until the body keeps it; the body's P is what the test leaves under
    /// interference, so K may be much smaller than P. The body's Q must descend, so it is
    /// never coarse.
    fn while_rule(
        &mut self,
        test: &Expression,
        body: &Statement,
        demand: Demand,
    ) -> Option<Derivation> {
        let holds = self.space.where_true(test);
        let mut demand = Demand { coarse: false, ..demand };
        loop {
            let k = self.loop_k(demand, holds);
            let inner = demand.p.meet(k);
            let node = fitted(self.derive(body, demand.from(inner))?, inner);
            let ends = node.tables.q.image(self.space.all());
            let grown = demand.r.reach().image(demand.p.join(ends));
            if grown == demand.p {
                return self.loop_node(test, k, node, demand);
            }
            demand = demand.from(grown);
        }
    }

    /// The least K, at times with more of P and with states outside P that do not count.
    fn loop_k(&mut self, demand: Demand, holds: StateSet) -> StateSet {
        let (p, reach) = (demand.p, demand.r.reach());
        let least = reach.image(p.meet(holds));
        if !self.noise {
            return least;
        }
        let more = if self.random.chance(15) { p } else { StateSet::NONE };
        let outside =
            if self.random.chance(30) { self.space.all().minus(p) } else { StateSet::NONE };
        let more = reach.image(self.random.thinned(more, 20));
        least.join(more).join(self.random.thinned(outside, 50))
    }

    fn loop_node(
        &mut self,
        test: &Expression,
        k: StateSet,
        body: Derivation,
        demand: Demand,
    ) -> Option<Derivation> {
        let Demand { p, r, .. } = demand;
        let fails = p.minus(self.space.where_true(test));
        let moved = test.occurrences(&|v| self.moves(demand, v));
        if moved > 1 || !r.image(fails).meet(p).lies_in(fails) {
            return None;
        }
        let w = self.ranking(&body.tables.q.join(&moves_only(p, r)))?;
        let ends = |s: usize| w.row(s).with(s).meet(fails);
        let q = starting_in(p, &Relation::of_rows((0..64).map(ends)));
        let tables = demand.tables(body.tables.g.clone(), q);
        Some(Derivation { step: Step::While { k, w: Box::new(w) }, tables, children: vec![body] })
    }

    /// The least transitive W over the steps, at times with more pairs; none where a state
    /// comes back to itself.
    fn ranking(&mut self, steps: &Relation) -> Option<Relation> {
        let mut w = then(steps, &steps.reach());
        let more = if self.noise && self.random.chance(20) { 4 } else { 0 };
        for _ in 0..more {
            let (s, t) = (self.state(), self.state());
            if s != t && !w.has(t, s) {
                w.set_row(s, w.row(s).with(t));
                w = then(&w, &w.reach());
            }
        }
        (0..64).all(|s| !w.has(s, s)).then_some(w)
    }

    /// Each side allows the other's guarantee, which may grow with what the side allows: both
    /// are tried until nothing grows.
    fn parallel(
        &mut self,
        left: &Statement,
        right: &Statement,
        demand: Demand,
    ) -> Option<Derivation> {
        let mut demand = demand;
        let (mut left_g, mut right_g) = (Relation::none(), Relation::none());
        loop {
            let left = self.derive(left, Demand { r: &demand.r.join(&right_g), ..demand })?;
            let right = self.derive(right, Demand { r: &demand.r.join(&left_g), ..demand })?;
            let wider_left = left_g.join(&left.tables.g);
            let wider_right = right_g.join(&right.tables.g);
            let reach = demand.r.join(&wider_left).join(&wider_right).reach();
            let grown = reach.image(demand.p);
            if grown == demand.p && wider_left == left_g && wider_right == right_g {
                let left = settled(fitted(left, grown), &left_g);
                let right = settled(fitted(right, grown), &right_g);
                return Some(parallel_node([left, right], &reach, demand));
            }
            demand = demand.from(grown);
            (left_g, right_g) = (wider_left, wider_right);
        }
    }

    fn moves(&self, demand: Demand, variable: usize) -> bool {
        let differ = |s: usize| move |t: usize| self.space.differ(variable, s, t);
        demand.p.members().any(|s| demand.r.row(s).members().any(differ(s)))
    }
}

/// The derivation with the least tables, K and W among them, and no weaken that is not needed.
pub fn least(space: &Space, statement: &Statement, demand: Demand) -> Option<Derivation> {
    let mut random = Random::new(0);
    let mut deriver =
        Deriver { space, random: &mut random, weakens: 0, noise: false, effort: 100_000 };
    let root = deriver.derive(statement, demand)?;
    let g = root.tables.g.clone();
    Some(settled(root, &g))
}

fn leaf(step: Step, tables: Tables) -> Derivation {
    Derivation { step, tables, children: vec![] }
}

fn skip(demand: Demand) -> Derivation {
    let q = starting_in(demand.p, &demand.r.reach());
    leaf(Step::Skip, demand.tables(Relation::none(), q))
}

fn parallel_node(sides: [Derivation; 2], reach: &Relation, demand: Demand) -> Derivation {
    let [left, right] = [&sides[0].tables, &sides[1].tables];
    let q = starting_in(demand.p, &left.q.meet(&right.q).meet(reach));
    let tables = demand.tables(left.g.join(&right.g), q);
    Derivation { step: Step::Parallel, tables, children: sides.into() }
}

/// The node with just this P, under a weaken where it has more.
fn fitted(node: Derivation, p: StateSet) -> Derivation {
    if node.tables.p == p {
        return node;
    }
    let r = node.tables.r.clone();
    node.weakened(p, r)
}

pub(crate) fn settled(mut node: Derivation, g: &Relation) -> Derivation {
    let q = node.tables.q.clone();
    node.settle(g.clone(), q);
    node
}

/// The pairs of the relation that start in the set.
pub fn starting_in(set: StateSet, relation: &Relation) -> Relation {
    let row = |s: usize| if set.has(s) { relation.row(s) } else { StateSet::NONE };
    Relation::of_rows((0..64).map(row))
}

/// One pair of the first, then one of the second.
pub fn then(first: &Relation, second: &Relation) -> Relation {
    Relation::of_rows(first.rows().iter().map(|row| second.image(*row)))
}

/// The pairs of the rely from P that change the state.
fn moves_only(p: StateSet, r: &Relation) -> Relation {
    let row = |s: usize| r.row(s).without(s);
    starting_in(p, &Relation::of_rows((0..64).map(row)))
}
