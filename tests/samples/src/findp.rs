//! FINDP, the parallel search of Coleman and Jones (CS-TR-1029, figure 4): the least index of a
//! vector at which a predicate holds, searched for by one thread over the odd indices and one
//! over the even ones.
//!
//! For the indices 1 to 3 the four variables take 3 · 2 · 3 · 2 = 36 states; for 1 to 4 they
//! would take 81. The vector is fixed: the predicate holds at 2 and at 3.

use crate::Sample;
use generate::author::operate;
use generate::derivation::{Derivation, Step, Tables};
use generate::pairs::Pair;
use generate::programs::{number, parallel, read, repeat, sequence, store, when};
use reference::language::{Expression, Handler, Operation, Statement};
use reference::space::{Space, Values};
use reference::states::{Relation, StateSet};

const SIZES: [usize; 4] = [3, 2, 3, 2];
/// 0, 1, 2 mean 1, 3, 4 (not found).
const OT: usize = 0;
/// 0, 1 mean 2, 4 (not found).
const ET: usize = 1;
/// 0, 1, 2 mean 1, 3, 5; after the threads it holds the result, and 0, 1, 2 mean 1, 2, 3.
const OC: usize = 2;
/// 0, 1 mean 2, 4.
const EC: usize = 3;

const ABOUT: &str = "\
FINDP is the parallel search of Coleman and Jones (CS-TR-1029, 2007, figure 4): the least index at
which a predicate holds, searched for by one thread over the odd indices and one over the even
ones. Here the indices are 1 to 3 and the predicate holds at 2 and 3, so that the result r is 2. It
is the largest search that fits: with the indices 1 to 4 the four variables would take 81 states.

A variable holds a code, to keep the states few:

| variable | 0 | 1 | 2 |
|---|---|---|---|
| ot | 1 | 3 | 4, not found |
| et | 2 | 4, not found | |
| oc | 1 | 3 | 5 |
| ec | 2 | 4 | |

In codes, oc < et is oc < et + 1, and ec < ot is ec + ec < ot. After the threads the variable oc
holds r, and its values 0, 1, 2 mean 1, 2, 3.

One thing differs from the published FINDP: the counters oc and ec are set before the threads start.
If a thread set its own counter, its guarantee would have to allow at any time that the counter is
lowered. The other thread's W would have to descend along that step as well as along the steps that
raise the counter, and no W can (conditions 51, 55 and 57 of [RULES.md](../../docs/RULES.md)).

The odd thread only lowers ot and only raises oc, the even one only lowers et and only raises ec:
these are their guarantees. W takes these four directions together and is the same in both loops.
The threads' P says what the search has found so far: if oc is 5 then ot is 3, and if ec is 4 then
et is 2.";

pub fn sample() -> Sample {
    let statement = statement();
    let derivation = Proof { space: Space::new(&SIZES) }.whole();
    let handler = Handler { space: Space::new(&SIZES), statement };
    let pair = Pair::new(handler, derivation).expect("the tables are few enough");
    Sample { name: "findp", about: ABOUT, variables: &["ot", "et", "oc", "ec"], pair }
}

fn plus(left: Expression, right: Expression) -> Expression {
    operate(Operation::Add, left, right)
}

fn less(left: Expression, right: Expression) -> Expression {
    operate(Operation::Less, left, right)
}

fn both(left: Expression, right: Expression) -> Expression {
    operate(Operation::And, left, right)
}

/// oc < ot ∧ oc < et
fn odd_goes_on() -> Expression {
    both(less(read(OC), read(OT)), less(read(OC), plus(read(ET), number(1))))
}

/// ec < et ∧ ec < ot
fn even_goes_on() -> Expression {
    both(less(read(EC), read(ET)), less(plus(read(EC), read(EC)), read(OT)))
}

/// A thread: its counter, its result, when it goes on, and the code at which the predicate holds.
fn thread(counter: usize, result: usize, goes_on: Expression, hit: i64) -> Statement {
    let holds = operate(Operation::Equal, read(counter), number(hit));
    let found = both(less(read(counter), read(result)), holds);
    let body = sequence(
        when(found, store(result, read(counter))),
        store(counter, plus(read(counter), number(1))),
    );
    repeat(goes_on, body)
}

fn statement() -> Statement {
    let threads = parallel(thread(OC, OT, odd_goes_on(), 1), thread(EC, ET, even_goes_on(), 0));
    let odd_is_less = less(read(OT), plus(read(ET), number(1)));
    let even_is_less = less(plus(read(ET), read(ET)), read(OT));
    let result = sequence(
        when(odd_is_less, store(OC, plus(read(OT), read(OT)))),
        when(even_is_less, store(OC, plus(read(ET), number(1)))),
    );
    let steps = [
        store(OT, number(2)),
        store(ET, number(1)),
        store(OC, number(0)),
        store(EC, number(0)),
        threads,
    ];
    steps.into_iter().rev().fold(result, |rest, step| sequence(step, rest))
}

/// What the thread of a pair of variables knows of its body.
struct Side {
    counter: usize,
    result: usize,
    /// The loop's test, and the test of the if in its body.
    goes_on: Expression,
    hit: i64,
    r: Relation,
    g: Relation,
}

struct Proof {
    space: Space,
}

impl Proof {
    fn set(&self, wanted: impl Fn(&Values) -> bool) -> StateSet {
        (0..self.space.states()).filter(|s| wanted(self.space.values(*s))).collect()
    }

    fn relation(&self, wanted: impl Fn(&Values, &Values) -> bool) -> Relation {
        let row = |s: usize| self.set(|after| wanted(self.space.values(s), after));
        Relation::of_rows((0..self.space.states()).map(row))
    }

    /// All pairs that end in the set.
    fn ending_in(&self, set: StateSet) -> Relation {
        Relation::of_rows(vec![set; self.space.states()])
    }

    /// What has been searched has been found: the threads' P.
    fn searched(&self) -> StateSet {
        let odd = |v: &Values| matches!((v[OC], v[OT]), (0, 2) | (1, 1 | 2) | (2, 1));
        let even = |v: &Values| matches!((v[EC], v[ET]), (0, 0 | 1) | (1, 0));
        self.set(|v| odd(v) && even(v))
    }

    /// The pairs within P, or into it, that raise counters and lower results among the given
    /// variables and leave the others alone.
    fn onwards(&self, from: StateSet, variables: &[usize]) -> Relation {
        let way = |before: &Values, after: &Values, variable: usize| match variable {
            _ if !variables.contains(&variable) => before[variable] == after[variable],
            OC | EC => before[variable] <= after[variable],
            _ => before[variable] >= after[variable],
        };
        let relation = self.relation(|before, after| {
            before != after && (0..4).all(|variable| way(before, after, variable))
        });
        let relation = relation.ending_in(self.searched());
        let row = |s: usize| if from.has(s) { relation.row(s) } else { StateSet::NONE };
        Relation::of_rows((0..self.space.states()).map(row))
    }

    fn whole(&self) -> Derivation {
        let p = self.searched();
        let odd = self.onwards(p, &[OT, OC]);
        let even = self.onwards(p, &[ET, EC]);
        let odd_side = self.thread(Side {
            counter: OC,
            result: OT,
            goes_on: odd_goes_on(),
            hit: 1,
            r: even.clone(),
            g: odd.clone(),
        });
        let even_side = self.thread(Side {
            counter: EC,
            result: ET,
            goes_on: even_goes_on(),
            hit: 0,
            r: odd,
            g: even,
        });
        let done = |test: Expression| p.minus(self.space.where_true(&test));
        let ended = done(odd_goes_on()).meet(done(even_goes_on()));
        let threads = self.alone(Step::Parallel, p, ended, vec![odd_side, even_side]);
        self.in_order(ended, threads)
    }

    /// The stores before the threads, the threads, and the result after them.
    fn in_order(&self, ended: StateSet, threads: Derivation) -> Derivation {
        let found = self.set(|v| v[OC] == 1);
        let set = |values: &[(usize, i64)]| {
            self.set(|v| values.iter().all(|(variable, value)| v[*variable] == *value))
        };
        let starts = [
            self.space.all(),
            set(&[(OT, 2)]),
            set(&[(OT, 2), (ET, 1)]),
            set(&[(OT, 2), (ET, 1), (OC, 0)]),
            self.searched(),
        ];
        // The even thread finds 2, so the first if has nothing to do and the second always has.
        let copy = |p, q| self.alone(Step::Assignment, p, q, vec![]);
        let first = self.alone(Step::If, ended, ended, vec![copy(StateSet::NONE, ended)]);
        let second = self.alone(Step::If, ended, found, vec![copy(ended, found)]);
        let mut rest = self.alone(Step::Sequence, ended, found, vec![first, second]);
        rest = self.alone(Step::Sequence, starts[4], found, vec![threads, rest]);
        for ends in starts.windows(2).rev() {
            let store = copy(ends[0], ends[1]);
            rest = self.alone(Step::Sequence, ends[0], found, vec![store, rest]);
        }
        rest
    }

    /// A node outside the threads: nobody else moves anything, and every step is allowed.
    fn alone(
        &self,
        step: Step,
        p: StateSet,
        ends: StateSet,
        children: Vec<Derivation>,
    ) -> Derivation {
        let g = self.ending_in(self.space.all());
        let tables = Tables { p, r: Relation::none(), g, q: self.ending_in(ends) };
        Derivation { step, tables, children }
    }

    fn thread(&self, side: Side) -> Derivation {
        let p = self.searched();
        let w = self.onwards(self.space.all(), &[OT, ET, OC, EC]);
        let ended = p.minus(self.space.where_true(&side.goes_on));
        // Only what the other side leaves alone holds in the body.
        let k = p.meet(self.set(|v| v[side.counter] < v[side.result]));
        let hit = k.meet(self.set(|v| v[side.counter] == side.hit));
        let past = |v: &Values| {
            v[side.counter] < side.hit || v[side.counter] == side.hit && v[side.result] == side.hit
        };
        let looked_at = p.meet(self.set(past));
        let stays = self.relation(|before, after| before == after).join(&w).ending_in(looked_at);
        let node = |step, p, q: &Relation, children| Derivation {
            step,
            tables: Tables { p, r: side.r.clone(), g: side.g.clone(), q: q.clone() },
            children,
        };
        let found = node(Step::If, k, &stays, vec![node(Step::Assignment, hit, &stays, vec![])]);
        let next = node(Step::Assignment, looked_at, &w, vec![]);
        let body = node(Step::Sequence, k, &w, vec![found, next]);
        node(Step::While { k, w: Box::new(w.clone()) }, p, &self.ending_in(ended), vec![body])
    }
}
