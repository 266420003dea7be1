//! The conditions on each node of the derivation (30 to 73), in the order in which they are asked.
//!
//! A condition that names states is a search for the least that break it: the first state
//! ascends, for each of them the second, and for each pair the third.

use crate::fault::Fault;
use crate::language::{Expression, Handler, Statement};
use crate::proof_file::{Node, Proof, Rule};
use crate::space::Space;
use crate::states::{Relation, StateSet};

/// Tries the nodes by number. Node 0 has the whole statement at hand.
pub fn examine(handler: &Handler, proof: &Proof) -> Result<(), Fault> {
    let examiner = Examiner { space: &handler.space, proof };
    for (number, (node, statement)) in nodes(handler, proof).into_iter().enumerate() {
        let at_node = |(fault, states)| Fault::at_node(fault, number as u32, states);
        examiner.conditions(node, statement).map_err(at_node)?;
    }
    Ok(())
}

/// The nodes by number, each with its statement at hand. What is below a node that does not fit its
/// statement (30) can be missing.
pub(crate) fn nodes<'a>(handler: &'a Handler, proof: &'a Proof) -> Vec<(&'a Node, &'a Statement)> {
    let mut found = Vec::new();
    list(&proof.root, &handler.statement, &mut found);
    found
}

/// A node, then its children: file order is the order of the numbers.
fn list<'a>(node: &'a Node, statement: &'a Statement, found: &mut Vec<(&'a Node, &'a Statement)>) {
    found.push((node, statement));
    let parts = match statement {
        _ if node.rule == Rule::Weaken => [Some(statement), None],
        Statement::Nil | Statement::Assignment(..) => [None, None],
        Statement::Sequence(left, right) | Statement::Parallel(left, right) => {
            [Some(&**left), Some(&**right)]
        }
        Statement::If(_, body) | Statement::While(_, body) => [Some(&**body), None],
    };
    for (child, part) in node.children.iter().zip(parts.into_iter().flatten()) {
        list(child, part, found);
    }
}

/// A condition that fails is named by its number, with the states that it names.
pub(crate) type Outcome = Result<(), (u32, Vec<usize>)>;

/// A condition that names no states.
fn must(holds: bool, number: u32) -> Outcome {
    if holds {
        Ok(())
    } else {
        Err((number, Vec::new()))
    }
}

/// A condition that names states: it holds if none break it.
fn unless<const COUNT: usize>(breach: Option<[usize; COUNT]>, number: u32) -> Outcome {
    match breach {
        None => Ok(()),
        Some(states) => Err((number, states.to_vec())),
    }
}

/// The least state of the set that breaks a condition.
fn least_state(states: StateSet, breaks: impl Fn(usize) -> bool) -> Option<[usize; 1]> {
    states.members().find(|s| breaks(*s)).map(|s| [s])
}

/// The least s of the set that has an end which breaks a condition, and the least such end.
fn least_pair(starts: StateSet, wrong_ends: impl Fn(usize) -> StateSet) -> Option<[usize; 2]> {
    starts.members().find_map(|s| wrong_ends(s).least().map(|t| [s, t]))
}

/// The least s, t and u with s in the set, (s,t) in `first`, (t,u) in `second` and (s,u) not in
/// `whole`.
fn least_chain(
    starts: StateSet,
    first: &Relation,
    second: &Relation,
    whole: &Relation,
) -> Option<[usize; 3]> {
    starts.members().find_map(|s| {
        let wrong_ends = |t: usize| second.row(t).minus(whole.row(s));
        least_pair(first.row(s), wrong_ends).map(|[t, u]| [s, t, u])
    })
}

/// The four tables of a node.
pub struct Tables<'a> {
    pub p: StateSet,
    pub r: &'a Relation,
    pub g: &'a Relation,
    pub q: &'a Relation,
}

impl<'a> Tables<'a> {
    pub fn of(proof: &'a Proof, node: &Node) -> Tables<'a> {
        let relation = |number: usize| &proof.relations[number];
        Tables {
            p: proof.sets[node.p],
            r: relation(node.r),
            g: relation(node.g),
            q: relation(node.q),
        }
    }
}

struct Examiner<'a> {
    space: &'a Space,
    proof: &'a Proof,
}

impl Examiner<'_> {
    fn conditions(&self, node: &Node, statement: &Statement) -> Outcome {
        must(fits(node.rule, statement), 30)?;
        let own = Tables::of(self.proof, node);
        self.undisturbed(&own, node.rule, statement)?;
        stable(&own)?;
        let below = node.children.iter();
        let children: Vec<Tables> = below.map(|child| Tables::of(self.proof, child)).collect();
        match (statement, node.rule, children.as_slice()) {
            (_, Rule::Weaken, [child]) => weaken(&own, child),
            (Statement::Nil, ..) => skip(&own),
            (Statement::Assignment(variable, value), ..) => self.assignment(&own, *variable, value),
            (Statement::Sequence(..), _, [left, right]) => sequence(&own, left, right),
            (Statement::Parallel(..), _, [left, right]) => parallel(&own, left, right),
            (Statement::If(test, _), _, [body]) => self.if_rule(&own, body, test),
            (Statement::While(test, _), Rule::While { k, w }, [body]) => {
                let (k, w) = (self.proof.sets[k], &self.proof.relations[w]);
                self.while_rule(&own, body, test, k, w)
            }
            _ => unreachable!("30 refuses every other pairing"),
        }
    }

    /// 41 and 45, before 31 to 33: the rely moves no variable that an assignment or the test of
    /// an if reads.
    fn undisturbed(&self, own: &Tables, rule: Rule, statement: &Statement) -> Outcome {
        let unread = |expression: &Expression| expression.occurrences(&self.moved(own)) == 0;
        match (rule, statement) {
            (Rule::Assignment, Statement::Assignment(_, value)) => must(unread(value), 41),
            (Rule::If, Statement::If(test, _)) => must(unread(test), 45),
            _ => Ok(()),
        }
    }

    fn assignment(&self, own: &Tables, variable: usize, value: &Expression) -> Outcome {
        let end = |s: usize| self.space.store(s, variable, value.value(self.space.values(s)));
        let stores: Vec<[usize; 2]> = own.p.members().map(|s| [s, end(s)]).collect();
        let mut pairs = stores.iter().copied();
        unless(pairs.clone().find(|[s, end]| !own.q.has(*s, *end)), 42)?;
        unless(pairs.find(|[s, end]| s != end && !own.g.has(*s, *end)), 43)
    }

    fn if_rule(&self, own: &Tables, body: &Tables, test: &Expression) -> Outcome {
        let holds = self.space.where_true(test);
        body_tables(own, body, own.p.meet(holds), own.q)?;
        unless(least_state(own.p.minus(holds), |s| !own.q.has(s, s)), 46)
    }

    fn while_rule(
        &self,
        own: &Tables,
        body: &Tables,
        test: &Expression,
        k: StateSet,
        w: &Relation,
    ) -> Outcome {
        let holds = self.space.where_true(test);
        let fails = own.p.minus(holds);
        body_tables(own, body, own.p.meet(k), &w.ending_in(own.p))?;
        must(test.occurrences(&self.moved(own)) <= 1, 50)?;
        // 51 and 57 range over all N states, P or not.
        unless(least_state(self.space.all(), |s| w.has(s, s)), 51)?;
        unless(least_chain(self.space.all(), w, w, w), 57)?;
        unless(least_state(own.p.meet(holds), |s| !k.has(s)), 52)?;
        unless(least_pair(own.p.meet(k), |s| own.r.row(s).minus(k)), 53)?;
        unless(least_pair(fails, |s| own.r.row(s).meet(holds)), 54)?;
        unless(least_pair(own.p, |s| own.r.row(s).without(s).minus(w.row(s))), 55)?;
        let ends = |s: usize| w.row(s).with(s).meet(fails);
        unless(least_pair(own.p, |s| ends(s).minus(own.q.row(s))), 56)
    }

    /// Which variables the rely moves: some pair of R from a state of P differs in it.
    fn moved(&self, own: &Tables) -> impl Fn(usize) -> bool {
        let mut moved = [false; 4];
        for (variable, is_moved) in moved.iter_mut().enumerate().take(self.space.sizes().len()) {
            *is_moved = own
                .p
                .members()
                .any(|s| own.r.row(s).members().any(|t| self.space.differ(variable, s, t)));
        }
        move |variable| moved[variable]
    }
}

/// 30: the rule is that of the statement at hand; weaken fits all.
fn fits(rule: Rule, statement: &Statement) -> bool {
    match rule {
        Rule::Skip => matches!(statement, Statement::Nil),
        Rule::Assignment => matches!(statement, Statement::Assignment(..)),
        Rule::Sequence => matches!(statement, Statement::Sequence(..)),
        Rule::Parallel => matches!(statement, Statement::Parallel(..)),
        Rule::If => matches!(statement, Statement::If(..)),
        Rule::While { .. } => matches!(statement, Statement::While(..)),
        Rule::Weaken => true,
    }
}

/// 31 to 33: interference keeps P, and Q takes it in before and after.
pub(crate) fn stable(own: &Tables) -> Outcome {
    unless(least_pair(own.p, |s| own.r.row(s).minus(own.p)), 31)?;
    unless(least_chain(own.p, own.r, own.q, own.q), 32)?;
    unless(least_chain(own.p, own.q, own.r, own.q), 33)
}

/// 36 and 37: a child has the node's own R and G.
fn same_r_and_g(own: &Tables, child: &Tables) -> Outcome {
    must(child.r == own.r, 36)?;
    must(child.g == own.g, 37)
}

/// 34 and 36 to 38: the body of an if or a while has this P and Q, and the node's own R and G.
pub(crate) fn body_tables(own: &Tables, body: &Tables, p: StateSet, q: &Relation) -> Outcome {
    must(body.p == p, 34)?;
    same_r_and_g(own, body)?;
    must(body.q == q, 38)
}

fn skip(own: &Tables) -> Outcome {
    unless(least_state(own.p, |s| !own.q.has(s, s)), 35)
}

fn sequence(own: &Tables, left: &Tables, right: &Tables) -> Outcome {
    must(left.p == own.p, 34)?;
    same_r_and_g(own, left)?;
    same_r_and_g(own, right)?;
    unless(least_pair(own.p, |s| left.q.row(s).minus(right.p)), 60)?;
    unless(least_chain(own.p, left.q, right.q, own.q), 61)
}

fn parallel(own: &Tables, left: &Tables, right: &Tables) -> Outcome {
    for (child, sibling) in [(left, right), (right, left)] {
        must(child.p == own.p, 34)?;
        must(*child.r == own.r.join(sibling.g), 36)?;
    }
    must(left.g.lies_in(own.g) && right.g.lies_in(own.g), 65)?;
    let reach = own.r.join(left.g).join(right.g).reach();
    let both = |s: usize| left.q.row(s).meet(right.q.row(s)).meet(reach.row(s));
    unless(least_pair(own.p, |s| both(s).minus(own.q.row(s))), 66)
}

fn weaken(own: &Tables, child: &Tables) -> Outcome {
    must(own.p.lies_in(child.p), 70)?;
    must(own.r.lies_in(child.r), 71)?;
    must(child.g.lies_in(own.g), 72)?;
    must(child.q.lies_in(own.q), 73)
}
