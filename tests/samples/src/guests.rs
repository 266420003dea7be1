//! Two guests, each of which relies on what the other guarantees, and their composition.

use crate::small::{derived, states};
use crate::Sample;
use generate::author::operate;
use generate::derivation::{Derivation, Step, Tables};
use generate::pairs::Pair;
use generate::programs::{number, parallel, read, repeat, sequence, store, when};
use reference::language::{Handler, Operation, Statement};
use reference::space::Space;
use reference::states::{Relation, StateSet};

const PRODUCER: &str = "\
The first of two guests over the same variables. It fills a slot: it sets full to 1.

P is an invariant, and the other guest has the same one: only what was filled is taken. R has every
change that the other guest may make: it leaves full alone, only lowers tries, only raises taken, and
keeps P. The other guest is [consumer](../consumer/README.md). [guests](../guests/README.md) is the
composition of both.";

const CONSUMER: &str = "\
The second of two guests over the same variables. It waits for a full slot, but only for as many rounds
as tries allows. Then it takes what is in the slot, unless it gave up.

R has every change that the other guest may make: it raises full and changes nothing else. So a full
slot stays full (condition 54), and where tries is above 0 after the loop, the slot is full. The if
tests tries alone, which the other guest does not move (condition 45). The conditions are those of
[RULES.md](../../docs/RULES.md). The other guest is [producer](../producer/README.md).
[guests](../guests/README.md) is the composition of both.";

const GUESTS: &str = "\
Two guests on one core: the parallel of [producer](../producer/README.md) and
[consumer](../consumer/README.md). Both files of this folder are what composing the two pairs gives. Their
step number is 135: both step numbers, 1 and 133, plus 1.

The two can be composed because the consumer's G lies in the producer's R (otherwise the number is 91),
the producer's G lies in the consumer's R (92), and no pair of either G leads out of the P that they
share (93). The tables that the composition makes:

- Set 0 is both P met, here the P of both. Relation 0 is both R met. The producer allows others to
  change tries and taken, the consumer allows them to change full, and no change is in both: so nobody
  else may change anything.
- Relation 1 is both G joined.
- Relation 2 is Q. At the end full is 1, as the producer's Q says, and taken is 1 or tries is 0, as the
  consumer's Q says. Neither says both.
- Nodes 1 and 3 are the weaken nodes. The R of node 1 is relation 0 joined with the consumer's G, and
  that of node 3 is relation 0 joined with the producer's G. Below them are both derivations as they
  were, but for the numbers of their tables.

[COMPOSITION.md](../../docs/COMPOSITION.md) has what holds of every composition.";

const SIZES: [usize; 3] = [2, 3, 2];
const NAMES: &[&str] = &["full", "tries", "taken"];
const FULL: usize = 0;
const TRIES: usize = 1;
const TAKEN: usize = 2;

/// The P of both guests: only what was filled is taken.
fn invariant() -> StateSet {
    states(&SIZES, |values| values[TAKEN] <= values[FULL])
}

/// The changes between states of the invariant that do this to the values.
fn changes(wanted: impl Fn(&[i64; 4], &[i64; 4]) -> bool) -> Relation {
    let (space, p) = (Space::new(&SIZES), invariant());
    let fits = |s: usize, t: usize| s != t && wanted(space.values(s), space.values(t));
    let row = |s: usize| match p.has(s) {
        true => p.members().filter(|t| fits(s, *t)).collect(),
        false => StateSet::NONE,
    };
    Relation::of_rows((0..space.states()).map(row))
}

pub fn producer() -> Sample {
    let r = changes(|s, t| s[FULL] == t[FULL] && s[TRIES] >= t[TRIES] && s[TAKEN] <= t[TAKEN]);
    Sample {
        name: "producer",
        about: PRODUCER,
        variables: NAMES,
        pair: derived(&SIZES, store(FULL, number(1)), invariant(), &r),
    }
}

pub fn consumer() -> Sample {
    let r = changes(|s, t| s[FULL] < t[FULL] && s[TRIES] == t[TRIES] && s[TAKEN] == t[TAKEN]);
    Sample {
        name: "consumer",
        about: CONSUMER,
        variables: NAMES,
        pair: derived(&SIZES, wait_and_take(), invariant(), &r),
    }
}

fn wait_and_take() -> Statement {
    let left = operate(Operation::Greater, read(TRIES), number(0));
    let empty = operate(Operation::Equal, read(FULL), number(0));
    let fewer = operate(Operation::Subtract, read(TRIES), number(1));
    let wait = repeat(operate(Operation::And, empty, left.clone()), store(TRIES, fewer));
    sequence(wait, when(left, store(TAKEN, number(1))))
}

/// The composition of both. tests/samples.rs holds it to the reference's.
pub fn guests() -> Sample {
    let [first, second] = [producer(), consumer()].map(|sample| sample.pair);
    let tables = joined(&first.derivation.tables, &second.derivation.tables);
    let (left, right) = (&first.derivation, &second.derivation);
    let children = vec![
        left.clone().weakened(tables.p, tables.r.join(&right.tables.g)),
        right.clone().weakened(tables.p, tables.r.join(&left.tables.g)),
    ];
    let statement = parallel(first.handler.statement, second.handler.statement);
    let handler = Handler { space: Space::new(&SIZES), statement };
    let derivation = Derivation { step: Step::Parallel, tables, children };
    Sample {
        name: "guests",
        about: GUESTS,
        variables: NAMES,
        pair: Pair::new(handler, derivation).expect("the sample is small"),
    }
}

/// The tables of the root, from those of both roots.
fn joined(one: &Tables, two: &Tables) -> Tables {
    let (p, r, g) = (one.p.meet(two.p), one.r.meet(&two.r), one.g.join(&two.g));
    let both = one.q.meet(&two.q).meet(&r.join(&g).reach());
    let from_p = |s: usize| if p.has(s) { both.row(s) } else { StateSet::NONE };
    let q = Relation::of_rows((0..both.rows().len()).map(from_p));
    Tables { p, r, g, q }
}
