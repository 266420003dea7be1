//! Every run of small accepted pairs keeps the promise, and the explorer sees what breaks it.

use generate::author::operate;
use generate::damage::damaged;
use generate::explore::{explore, explore_files, Breach, Exploration, Promise};
use generate::guests::guests;
use generate::pairs::{accepted, Scale};
use generate::programs::{count_down, number, parallel, read, sequence, store};
use generate::random::Random;
use generate::wraps::Wraps;
use reference::language::{Expression, Handler, Operation, Statement};
use reference::space::Space;
use reference::states::{Relation, StateSet};
use reference::{compose, Composition, TABLE_WORDS};

const MOST_MOMENTS: usize = 60_000;

/// How many own steps the longest run makes, and how stores wrap in some run; none where the
/// exploration was given up.
fn longest_run(exploration: Exploration, handler: &[u8], proof: &[u8]) -> Option<(u32, Wraps)> {
    match exploration {
        Exploration::Broken(breach) => panic!("{breach:?} {handler:02X?} {proof:02X?}"),
        Exploration::Holds { longest, wraps, .. } => Some((longest, wraps)),
        Exploration::TooLarge => None,
    }
}

/// What the explored pairs are like.
#[derive(Default, Debug)]
struct Explored {
    whole: usize,
    long: usize,
    wrap_up: usize,
    wrap_down: usize,
}

impl Explored {
    fn count(&mut self, run: Option<(u32, Wraps)>) {
        let Some((longest, wraps)) = run else { return };
        self.whole += 1;
        self.long += usize::from(longest > 10);
        self.wrap_up += usize::from(wraps.up);
        self.wrap_down += usize::from(wraps.down);
    }
}

/// Pairs as generated, and those of their damaged versions that are still accepted.
#[test]
fn accepted_pairs_keep_demand_3() {
    let mut random = Random::new(0xE1);
    let (mut generated, mut damaged_too) = (Explored::default(), Explored::default());
    for _ in 0..600 {
        let pair = accepted(&mut random, Scale::SMALL);
        let (handler, proof) = (&pair.handler_file.bytes, &pair.proof_file.bytes);
        let exploration =
            explore_files(handler, proof, MOST_MOMENTS).expect("a generated pair is accepted");
        generated.count(longest_run(exploration, handler, proof));
        for _ in 0..12 {
            let (handler, proof) = damaged(&mut random, &pair);
            let explored = explore_files(&handler, &proof, MOST_MOMENTS);
            damaged_too.count(explored.and_then(|found| longest_run(found, &handler, &proof)));
        }
    }
    let Explored { whole, long, wrap_up, wrap_down } = generated;
    assert!(whole > 500 && long > 100 && wrap_up > 50 && wrap_down > 50, "{generated:?}");
    assert!(damaged_too.whole > 1000, "{damaged_too:?}");
}

/// The parallel of two small guests, and of three where that is explored too.
#[test]
fn composed_pairs_keep_demand_3() {
    let mut random = Random::new(0xE4);
    let (mut two_sides, mut again) = (Explored::default(), 0);
    for _ in 0..600 {
        let pairs = guests(&mut random, Scale::SMALL, 3);
        let [one, two, three] = [0, 1, 2].map(|index| {
            let pair = &pairs[index];
            (pair.handler_file.bytes.clone(), pair.proof_file.bytes.clone())
        });
        let Some(both) = composed(&one, &two) else { continue };
        two_sides.count(explored(&both));
        let all = composed(&both, &three).and_then(|all| explored(&all));
        again += usize::from(all.is_some());
    }
    let Explored { whole, long, .. } = two_sides;
    assert!(whole > 550 && long > 100 && again > 500, "{two_sides:?} {again}");
}

type Files = (Vec<u8>, Vec<u8>);

/// None where a limit is passed.
fn composed(first: &Files, second: &Files) -> Option<Files> {
    let ((h1, p1), (h2, p2)) = (first, second);
    match compose(h1, p1, h2, p2, TABLE_WORDS, usize::MAX, usize::MAX) {
        Composition::Made { handler, proof, .. } => Some((handler, proof)),
        Composition::Refused { .. } => None,
    }
}

/// The longest run of an accepted pair, or none where the exploration was given up.
fn explored((handler, proof): &Files) -> Option<(u32, Wraps)> {
    let exploration = explore_files(handler, proof, MOST_MOMENTS).expect("it is accepted");
    longest_run(exploration, handler, proof)
}

fn handler(sizes: &[usize], statement: Statement) -> Handler {
    Handler { space: Space::new(sizes), statement }
}

/// Everything is allowed but what a test takes away.
fn lenient(handler: &Handler, steps: u32) -> Promise {
    let all = handler.space.all();
    let every = Relation::of_rows(vec![all; handler.space.states()]);
    Promise { p: all, r: Relation::none(), g: every.clone(), q: every, steps }
}

fn without(relation: &Relation, s: usize, t: usize) -> Relation {
    let mut left = relation.clone();
    left.set_row(s, left.row(s).without(t));
    left
}

/// d ← c + c takes 4 steps, and with c read as 0 and then as 1 it stores the odd value 1.
#[test]
fn reads_in_separate_steps() {
    let sum = operate(Operation::Add, read(0), read(0));
    let handler = handler(&[2, 3], store(1, sum));
    let mut promise = lenient(&handler, 4);
    assert!(matches!(explore(&handler, &promise, 1000), Exploration::Holds { longest: 4, .. }));
    promise.steps = 3;
    assert_eq!(explore(&handler, &promise, 1000), Exploration::Broken(Breach::Steps));
    promise.steps = 4;
    // From (0,0), with no interference, only (0,0) is reached: (1,1), state 4, is not.
    promise.p = StateSet::NONE.with(0);
    promise.q = without(&promise.q, 0, 4);
    assert!(matches!(explore(&handler, &promise, 1000), Exploration::Holds { .. }));
    promise.r.set_row(0, StateSet::NONE.with(3));
    assert_eq!(explore(&handler, &promise, 1000), Exploration::Broken(Breach::Postcondition));
}

/// The test (c = 0) ∨ (c = 1) is true in both states, yet it can be read false.
#[test]
fn a_test_is_not_read_at_one_instant() {
    let is = |value| operate(Operation::Equal, read(0), number(value));
    let test = operate(Operation::Or, is(0), is(1));
    let body = Statement::If(test, Box::new(store(1, number(1))));
    let handler = handler(&[2, 2], body);
    let mut promise = lenient(&handler, 100);
    promise.p = StateSet::NONE.with(2);
    promise.q = without(&without(&promise.q, 2, 0), 2, 2);
    assert!(matches!(explore(&handler, &promise, 1000), Exploration::Holds { .. }));
    promise.r.set_row(0, StateSet::NONE.with(2));
    promise.r.set_row(2, StateSet::NONE.with(0));
    assert_eq!(explore(&handler, &promise, 1000), Exploration::Broken(Breach::Postcondition));
}

/// The count from 3 down to 0 stays within its 28 steps.
#[test]
fn a_countdown_ends() {
    let handler = handler(&[4], count_down(0));
    let mut promise = lenient(&handler, 28);
    assert!(matches!(explore(&handler, &promise, 9000), Exploration::Holds { longest: 28, .. }));
    promise.g = without(&promise.g, 2, 1);
    assert_eq!(explore(&handler, &promise, 9000), Exploration::Broken(Breach::Guarantee));
    promise.steps = 27;
    promise.g = lenient(&handler, 27).g;
    assert_eq!(explore(&handler, &promise, 9000), Exploration::Broken(Breach::Steps));
}

/// Where c has size 3, c ← c + 1 leads from 2 to 0, and c ← c − 1 from 0 to 2; nowhere else.
#[test]
fn a_register_wraps() {
    for (operation, s, end, wraps) in [
        (Operation::Add, 2, 0, Wraps { up: true, down: false }),
        (Operation::Subtract, 0, 2, Wraps { up: false, down: true }),
    ] {
        let handler = handler(&[3], store(0, operate(operation, read(0), number(1))));
        let mut promise = lenient(&handler, 3);
        promise.p = StateSet::NONE.with(s);
        let only = |s: usize, t: usize| {
            let mut relation = Relation::none();
            relation.set_row(s, StateSet::NONE.with(t));
            relation
        };
        (promise.g, promise.q) = (only(s, end), only(s, end));
        let explored = explore(&handler, &promise, 1000);
        assert!(matches!(explored, Exploration::Holds { longest: 3, wraps: w, .. } if w == wraps));
        promise.q = without(&lenient(&handler, 3).q, s, end);
        assert_eq!(explore(&handler, &promise, 1000), Exploration::Broken(Breach::Postcondition));
        promise.g = without(&lenient(&handler, 3).g, s, end);
        assert_eq!(explore(&handler, &promise, 1000), Exploration::Broken(Breach::Guarantee));
    }
}

/// A value of the wrong kind stands still, even where the other side still steps.
#[test]
fn a_wrong_kind_stands_still() {
    let wrong = [
        store(0, Expression::Truth(true)),
        Statement::If(number(1), Box::new(Statement::Nil)),
        store(0, operate(Operation::Add, number(1), Expression::Truth(true))),
    ];
    for left in wrong {
        let right = sequence(store(1, number(1)), store(1, number(0)));
        let handler = handler(&[2, 2], parallel(left, right));
        let promise = lenient(&handler, 100);
        assert_eq!(explore(&handler, &promise, 1000), Exploration::Broken(Breach::StandsStill));
    }
}
