//! The small samples.

use crate::Sample;
use generate::author::operate;
use generate::derivation::{Derivation, Step, Tables};
use generate::derive::{least, Demand};
use generate::pairs::Pair;
use generate::programs::{count_down, count_up, number, parallel, read, repeat, sequence, store};
use reference::language::{Handler, Operation, Statement};
use reference::space::Space;
use reference::states::{Relation, StateSet};

const FIRST: &str = "\
A store alone: the handler stores 1 in c, and nobody else changes c (R has no pair).
G allows the store, and Q says that c is 1 at the end.";

const SLOT: &str = "\
A slot is handed over through a flag. One side fills the slot and then raises the flag. The other
waits for the flag, but only for as many rounds as tries allows.

The flag is raised by one side while the loop of the other reads it. The test reads it once
(condition 50), and a flag that is up stays up (condition 54). The body of the loop starts with
tries above 0, whatever the flag is by then: that is its K. The conditions are those of
[RULES.md](../../docs/RULES.md).";

const COUNTDOWN: &str = "\
A loop that counts c down to 0. W, the order in which it descends, is that of the numbers.

The test c > 0 has a variable and an operation, so its E is 2. The body takes 3 steps and there are
4 states: the step number is 4 × (2 + 2) + 3 × (3 + 1) = 28, by the formula for a while of
[RULES.md](../../docs/RULES.md).";

const COUNTERS: &str = "\
Two counters in parallel, one counting down and one counting up. The rely of each side holds the
stores of the other, so that its W must descend along those too (condition 55). At the end both
counters have arrived, which neither side's Q says alone (condition 66). The conditions are those of
[RULES.md](../../docs/RULES.md).";

const RING: &str = "\
A ring buffer has 4 slots. The handler reads the entries that are left, one in each round: it moves on
to the next slot and then lowers the count. Nobody else changes either (R has no pair).

slot wraps: from slot 3 the store of slot + 1, which is 4, leaves 0. The proof allows it as it allows
every other store. G, relation 1, has (3,1) → (0,1) and (3,2) → (0,2), and the Q of the first
assignment, relation 4, has them too: those are conditions 43 and 42. At the end no entry is left, and
slot is as many slots on as entries were left at the start, counted around the ring: Q, relation 2,
leads from (3,2) to (1,0). The loop ends because left goes down in every pair of W, relation 3; slot goes
around. The conditions are those of [RULES.md](../../docs/RULES.md).";

/// The pair with the least tables for this precondition and rely.
pub(crate) fn derived(sizes: &[usize], statement: Statement, p: StateSet, r: &Relation) -> Pair {
    let space = Space::new(sizes);
    let derivation =
        least(&space, &statement, Demand { p, r, coarse: false }).expect("the sample holds");
    Pair::new(Handler { space, statement }, derivation).expect("the sample is small")
}

/// The states at which the values are as wanted.
pub(crate) fn states(sizes: &[usize], wanted: impl Fn(&[i64; 4]) -> bool) -> StateSet {
    let space = Space::new(sizes);
    (0..space.states()).filter(|s| wanted(space.values(*s))).collect()
}

/// Its tables are chosen by hand, so that its bytes stay those that other pages show.
pub fn first() -> Sample {
    let to_one = StateSet::NONE.with(1);
    let tables = Tables {
        p: StateSet::first(2),
        r: Relation::none(),
        g: Relation::of_rows([to_one]),
        q: Relation::of_rows([to_one, to_one]),
    };
    let derivation = Derivation { step: Step::Assignment, tables, children: vec![] };
    let handler = Handler { space: Space::new(&[2]), statement: store(0, number(1)) };
    Sample {
        name: "first",
        about: FIRST,
        variables: &["c"],
        pair: Pair::new(handler, derivation).expect("the sample is small"),
    }
}

pub fn slot() -> Sample {
    let sizes = [3, 2, 3];
    let (slot, flag, tries) = (0, 1, 2);
    let hand_over = sequence(store(slot, number(2)), store(flag, number(1)));
    let waiting = operate(
        Operation::And,
        operate(Operation::Equal, read(flag), number(0)),
        operate(Operation::Greater, read(tries), number(0)),
    );
    let fewer = operate(Operation::Subtract, read(tries), number(1));
    let statement = parallel(hand_over, repeat(waiting, store(tries, fewer)));
    let p = states(&sizes, |values| values[flag] == 0);
    Sample {
        name: "slot",
        about: SLOT,
        variables: &["slot", "flag", "tries"],
        pair: derived(&sizes, statement, p, &Relation::none()),
    }
}

pub fn countdown() -> Sample {
    Sample {
        name: "countdown",
        about: COUNTDOWN,
        variables: &["c"],
        pair: derived(&[4], count_down(0), StateSet::first(4), &Relation::none()),
    }
}

pub fn ring() -> Sample {
    let sizes = [4, 3];
    let (slot, left) = (0, 1);
    let on = store(slot, operate(Operation::Add, read(slot), number(1)));
    let fewer = store(left, operate(Operation::Subtract, read(left), number(1)));
    let some_left = operate(Operation::Greater, read(left), number(0));
    Sample {
        name: "ring",
        about: RING,
        variables: &["slot", "left"],
        pair: derived(
            &sizes,
            repeat(some_left, sequence(on, fewer)),
            StateSet::first(12),
            &Relation::none(),
        ),
    }
}

pub fn counters() -> Sample {
    let statement = parallel(count_down(0), count_up(1, 3));
    Sample {
        name: "counters",
        about: COUNTERS,
        variables: &["a", "b"],
        pair: derived(&[4, 4], statement, StateSet::first(16), &Relation::none()),
    }
}
