//! Every run of a handler from P with interference within R, against what acceptance promises.
//!
//! A layer holds all that can remain after so many own steps, with the starts it can come
//! from; changes by others stay within a layer, an own step leads to the next one.

use crate::steps::{turn, Turn};
use crate::wraps::{in_turn, Wraps};
use reference::language::{Handler, Statement};
use reference::states::{Relation, StateSet};
use reference::{check, handler_file, proof_file, Verdict, TABLE_WORDS};
use std::collections::HashMap;

/// The root's tables.
#[derive(Clone, Debug)]
pub struct Promise {
    pub p: StateSet,
    pub r: Relation,
    pub g: Relation,
    pub q: Relation,
    pub steps: u32,
}

/// A claim of the promise of acceptance (docs/RULES.md) that does not hold.
#[derive(Clone, Copy, PartialEq, Eq, Debug)]
pub enum Breach {
    /// An own step changed the state outside G.
    Guarantee,
    /// A part that has its turn stands still, or no step is open before the end.
    StandsStill,
    /// More own steps than the step number.
    Steps,
    /// At the end, (start, present) is not in Q.
    Postcondition,
}

#[derive(Clone, Copy, PartialEq, Eq, Debug)]
pub enum Exploration {
    /// All claims hold. So many moments were looked at, the longest run makes so many own steps,
    /// and in some run stores wrap so.
    Holds {
        moments: usize,
        longest: u32,
        wraps: Wraps,
    },
    Broken(Breach),
    /// Given up: too many moments.
    TooLarge,
}

/// Explores a pair of files, up to `most` moments, if it is accepted; what is promised is read from
/// the files.
pub fn explore_files(handler: &[u8], proof: &[u8], most: usize) -> Option<Exploration> {
    let mut work = vec![0; TABLE_WORDS];
    let Verdict::Accepted(steps) = check(handler, proof, &mut work) else { return None };
    let handler = handler_file::read(handler).expect("it was accepted");
    let proof = proof_file::read(proof, handler.space.states()).expect("it was accepted");
    let root = &proof.root;
    let relation = |number: usize| proof.relations[number].clone();
    let [r, g, q] = [root.r, root.g, root.q].map(relation);
    let promise = Promise { p: proof.sets[root.p], r, g, q, steps };
    Some(explore(&handler, &promise, most))
}

/// A remaining handler by number, and the present state.
type Moment = (usize, usize);
/// The starts from which each moment can come.
type Layer = HashMap<Moment, StateSet>;

/// Explores all runs, up to `most` moments.
pub fn explore(handler: &Handler, promise: &Promise, most: usize) -> Exploration {
    let mut explorer = Explorer::new(handler, promise);
    let whole = explorer.number(&handler.statement);
    let start = |s: usize| ((whole, s), StateSet::NONE.with(s));
    let mut layer: Layer = promise.p.members().map(start).collect();
    let (mut moments, mut longest) = (0, 0);
    for made in 0.. {
        layer = interfered(layer, &promise.r);
        moments += layer.len();
        if layer.is_empty() {
            break;
        }
        if made > promise.steps {
            return Exploration::Broken(Breach::Steps);
        }
        if moments > most {
            return Exploration::TooLarge;
        }
        longest = made;
        layer = match explorer.own_steps(&layer) {
            Ok(next) => next,
            Err(breach) => return Exploration::Broken(breach),
        };
    }
    let remaining = explorer.remaining.iter();
    let wraps =
        remaining.map(|rest| in_turn(&handler.space, rest)).fold(Wraps::default(), Wraps::or);
    Exploration::Holds { moments, longest, wraps }
}

/// The layer with every change by others, any number of them in a row.
fn interfered(layer: Layer, r: &Relation) -> Layer {
    let reach = r.reach();
    let mut closed = Layer::with_capacity(layer.len());
    for ((remaining, state), starts) in layer {
        for present in reach.row(state).members() {
            let known = closed.entry((remaining, present)).or_default();
            *known = known.join(starts);
        }
    }
    closed
}

struct Explorer<'a> {
    handler: &'a Handler,
    promise: &'a Promise,
    numbers: HashMap<Statement, usize>,
    remaining: Vec<Statement>,
}

impl<'a> Explorer<'a> {
    fn new(handler: &'a Handler, promise: &'a Promise) -> Explorer<'a> {
        Explorer { handler, promise, numbers: HashMap::new(), remaining: Vec::new() }
    }

    fn number(&mut self, statement: &Statement) -> usize {
        if let Some(number) = self.numbers.get(statement) {
            return *number;
        }
        self.numbers.insert(statement.clone(), self.remaining.len());
        self.remaining.push(statement.clone());
        self.remaining.len() - 1
    }

    fn own_steps(&mut self, layer: &Layer) -> Result<Layer, Breach> {
        let mut next = Layer::new();
        for (&(remaining, state), starts) in layer {
            let statement = &self.remaining[remaining];
            if *statement == Statement::Nil {
                self.at_end(state, *starts)?;
                continue;
            }
            let Turn { open, stands_still } = turn(&self.handler.space, statement, state);
            if stands_still || open.is_empty() {
                return Err(Breach::StandsStill);
            }
            for (left, end) in open {
                if end != state && !self.promise.g.has(state, end) {
                    return Err(Breach::Guarantee);
                }
                let known = next.entry((self.number(&left), end)).or_default();
                *known = known.join(*starts);
            }
        }
        Ok(next)
    }

    fn at_end(&self, present: usize, starts: StateSet) -> Result<(), Breach> {
        if starts.members().all(|start| self.promise.q.has(start, present)) {
            Ok(())
        } else {
            Err(Breach::Postcondition)
        }
    }
}
