//! Pairs made by hand: states and tables by the values of the variables, and a name for each pair.

use beside::{judge_states, Judgement};
use generate::author::operate;
use generate::derivation::{Derivation, Step, Tables};
use generate::pack;
use reference::language::{Expression, Handler, Operation, Statement};
use reference::space::{Space, Values};
use reference::states::{Relation, StateSet};
use reference::Verdict;

/// The variables of a pair, by name, and their states.
pub struct World {
    pub names: Vec<&'static str>,
    pub space: Space,
}

pub fn world<const V: usize>(variables: [(&'static str, usize); V]) -> World {
    World {
        names: variables.iter().map(|(name, _)| *name).collect(),
        space: Space::new(&variables.map(|(_, size)| size)),
    }
}

impl World {
    pub fn set(&self, wanted: impl Fn(Values) -> bool) -> StateSet {
        (0..self.space.states()).filter(|s| wanted(*self.space.values(*s))).collect()
    }

    pub fn all(&self) -> StateSet {
        self.space.all()
    }

    pub fn relation(&self, wanted: impl Fn(Values, Values) -> bool) -> Relation {
        let row = |s: usize| self.set(|to| wanted(*self.space.values(s), to));
        Relation::of_rows((0..self.space.states()).map(row))
    }

    pub fn every_pair(&self) -> Relation {
        self.relation(|_, _| true)
    }

    /// Every pair that ends in a state at which the values are as wanted.
    pub fn ending(&self, wanted: impl Fn(Values) -> bool) -> Relation {
        self.relation(|_, to| wanted(to))
    }

    pub fn claim(&self, name: &'static str, statement: Statement, derivation: Derivation) -> Claim {
        let handler = Handler { space: self.space.clone(), statement };
        Claim { name, names: self.names.clone(), handler, derivation }
    }
}

/// A pair under the identifier by which a page names it.
pub struct Claim {
    pub name: &'static str,
    pub names: Vec<&'static str>,
    pub handler: Handler,
    pub derivation: Derivation,
}

impl Claim {
    pub fn verdict(&self) -> Verdict {
        self.judged().verdict
    }

    /// The states that the refusal names, as FAULTS.md writes those of 57: `s = 2, t = 1, u = 0`.
    pub fn states(&self) -> String {
        let states = self.judged().states;
        let state = |(i, letter)| format!("{letter} = {}", states >> (8 * i) & 0xFF);
        let named = ["s", "t", "u"].iter().enumerate().take((states >> 24) as usize);
        named.map(state).collect::<Vec<_>>().join(", ")
    }

    fn judged(&self) -> Judgement {
        let proof = self.derivation.proof().expect("at most 16 sets and 16 relations");
        let proof_file = pack::proof(&proof, self.handler.space.states());
        judge_states(&pack::handler(&self.handler).bytes, &proof_file.bytes)
    }
}

pub fn none() -> Relation {
    Relation::none()
}

fn leaf(step: Step, tables: Tables) -> Derivation {
    Derivation { step, tables, children: vec![] }
}

pub fn skip(tables: Tables) -> Derivation {
    leaf(Step::Skip, tables)
}

pub fn assignment(tables: Tables) -> Derivation {
    leaf(Step::Assignment, tables)
}

/// A node with two children.
pub fn over(step: Step, tables: Tables, left: Derivation, right: Derivation) -> Derivation {
    Derivation { step, tables, children: vec![left, right] }
}

/// A weaken node over a child.
pub fn weaken(tables: Tables, child: Derivation) -> Derivation {
    Derivation { step: Step::Weaken, tables, children: vec![child] }
}

/// An if node; the body gets the tables that 34 and 36 to 38 ask for.
pub fn when_node(
    tables: Tables,
    test_true: StateSet,
    body: impl FnOnce(Tables) -> Derivation,
) -> Derivation {
    let inner = Tables { p: tables.p.meet(test_true), ..tables.clone() };
    Derivation { step: Step::If, tables, children: vec![body(inner)] }
}

/// The tables of a while node.
#[derive(Clone)]
pub struct Loop {
    pub tables: Tables,
    pub k: StateSet,
    pub w: Relation,
}

impl Loop {
    /// The while node; the body gets the tables that 34 and 36 to 38 ask for.
    pub fn node(self, body: impl FnOnce(Tables) -> Derivation) -> Derivation {
        let Loop { tables, k, w } = self;
        let inner = Tables { p: tables.p.meet(k), q: w.ending_in(tables.p), ..tables.clone() };
        let step = Step::While { k, w: Box::new(w) };
        Derivation { step, tables, children: vec![body(inner)] }
    }
}

pub fn equal(left: Expression, right: Expression) -> Expression {
    operate(Operation::Equal, left, right)
}

pub fn less(left: Expression, right: Expression) -> Expression {
    operate(Operation::Less, left, right)
}

pub fn greater(left: Expression, right: Expression) -> Expression {
    operate(Operation::Greater, left, right)
}

pub fn plus(left: Expression, right: Expression) -> Expression {
    operate(Operation::Add, left, right)
}

pub fn minus(left: Expression, right: Expression) -> Expression {
    operate(Operation::Subtract, left, right)
}

pub fn and(left: Expression, right: Expression) -> Expression {
    operate(Operation::And, left, right)
}

pub fn or(left: Expression, right: Expression) -> Expression {
    operate(Operation::Or, left, right)
}
