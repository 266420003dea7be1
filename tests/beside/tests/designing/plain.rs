//! P and Q beside a rely, sequence, if and parallel.

use crate::world::*;
use generate::derivation::{Derivation, Step, Tables};
use generate::programs::{number, parallel, read, sequence, store, when};
use reference::language::Statement;

pub fn claims() -> Vec<Claim> {
    let mut claims = stores();
    claims.extend(overwritten());
    claims.extend(sequences());
    claims.extend(ifs());
    claims.extend(parallels());
    claims
}

/// `done ← 1` while others raise flag.
fn stores() -> Vec<Claim> {
    let w = world([("flag", 2), ("done", 2)]);
    let tables = || Tables {
        p: w.all(),
        r: w.relation(|[f, d, ..], [g, e, ..]| f == 0 && g == 1 && d == e),
        g: w.relation(|[f, d, ..], [g, e, ..]| f == g && d == 0 && e == 1),
        q: w.relation(|[f, ..], [g, e, ..]| f <= g && e == 1),
    };
    let with = |name, change: &dyn Fn(&mut Tables)| {
        let mut tables = tables();
        change(&mut tables);
        w.claim(name, store(1, number(1)), assignment(tables))
    };
    vec![
        with("store", &|_| {}),
        with("store-31", &|tables| tables.p = w.set(|[f, ..]| f == 0)),
        with("store-32", &|tables| {
            tables.q = w.relation(|[f, ..], [g, e, ..]| f == g && e == 1);
        }),
        with("store-43", &|tables| tables.g = none()),
    ]
}

/// `done ← 1` while others clear done.
fn overwritten() -> Vec<Claim> {
    let w = world([("done", 2)]);
    let tables = |q| Tables {
        p: w.all(),
        r: w.relation(|[d, ..], [e, ..]| d > e),
        g: w.relation(|[d, ..], [e, ..]| d < e),
        q,
    };
    let with = |name, q| w.claim(name, store(0, number(1)), assignment(tables(q)));
    vec![with("cleared-33", w.ending(|[d, ..]| d == 1)), with("cleared", w.every_pair())]
}

/// `c ← 2; c ← c − 1`.
fn sequences() -> Vec<Claim> {
    let w = world([("c", 3)]);
    let ending = |value| w.ending(move |[c, ..]| c == value);
    let with = |name, left_q, right_p, q| {
        let tables = |p, q| Tables { p, r: none(), g: w.every_pair(), q };
        let right_q = w.relation(|[c, ..], [d, ..]| d + 1 == c);
        let statement = sequence(store(0, number(2)), store(0, minus(read(0), number(1))));
        let (left, right) =
            (assignment(tables(w.all(), left_q)), assignment(tables(right_p, right_q)));
        w.claim(name, statement, over(Step::Sequence, tables(w.all(), q), left, right))
    };
    let two = w.set(|[c, ..]| c == 2);
    vec![
        with("then", ending(2), two, ending(1)),
        with("then-60", w.every_pair(), two, ending(1)),
        with("then-42", w.every_pair(), w.all(), w.every_pair()),
        with("then-61", ending(2), two, w.relation(|[c, ..], [d, ..]| c == 0 && d == 1)),
    ]
}

/// `if c > 0 then c ← c − 1`.
fn ifs() -> Vec<Claim> {
    let w = world([("c", 4)]);
    let tables = |q| Tables { p: w.all(), r: none(), g: w.every_pair(), q };
    let lower = || w.relation(|[c, ..], [d, ..]| d == (c - 1).max(0));
    let positive = w.set(|[c, ..]| c > 0);
    let statement = || when(greater(read(0), number(0)), store(0, minus(read(0), number(1))));
    let mut all_in_body = when_node(tables(lower()), positive, assignment);
    all_in_body.children[0].tables.p = w.all();
    let forgets = w.relation(|[c, ..], [d, ..]| d + 1 == c);
    vec![
        w.claim("if", statement(), when_node(tables(lower()), positive, assignment)),
        w.claim("if-34", statement(), all_in_body),
        w.claim("if-46", statement(), when_node(tables(forgets), positive, assignment)),
    ]
}

/// The tables of `a ← 1` beside `b ← 1`, the parallel's first.
struct Sides {
    whole: Tables,
    left: Tables,
    right: Tables,
}

fn sides(w: &World) -> Sides {
    let raise_a = w.relation(|[a, b, ..], [c, d, ..]| a == 0 && c == 1 && b == d);
    let raise_b = w.relation(|[a, b, ..], [c, d, ..]| b == 0 && d == 1 && a == c);
    let p = w.all();
    Sides {
        whole: Tables {
            p,
            r: none(),
            g: raise_a.join(&raise_b),
            q: w.ending(|[a, b, ..]| a == 1 && b == 1),
        },
        left: Tables { p, r: raise_b.clone(), g: raise_a.clone(), q: w.ending(|[a, ..]| a == 1) },
        right: Tables { p, r: raise_a, g: raise_b, q: w.ending(|[_, b, ..]| b == 1) },
    }
}

fn both(sides: Sides) -> Derivation {
    let Sides { whole, left, right } = sides;
    over(Step::Parallel, whole, assignment(left), assignment(right))
}

fn raise_both() -> Statement {
    parallel(store(0, number(1)), store(1, number(1)))
}

fn parallels() -> Vec<Claim> {
    let w = world([("a", 2), ("b", 2)]);
    let with = |name, statement: Statement, change: &dyn Fn(&mut Sides)| {
        let mut sides = sides(&w);
        change(&mut sides);
        w.claim(name, statement, both(sides))
    };
    let copy = parallel(store(0, number(1)), store(1, read(0)));
    vec![
        with("both", raise_both(), &|_| {}),
        with("both-36", raise_both(), &|sides| sides.left.r = none()),
        with("both-32", raise_both(), &|sides| {
            sides.left.q = w.relation(|[_, b, ..], [c, d, ..]| c == 1 && b == d);
        }),
        with("both-33", raise_both(), &|sides| {
            sides.left.g = w.every_pair();
            sides.right.r = w.every_pair();
            sides.whole.g = w.every_pair();
        }),
        with("both-65", raise_both(), &|sides| sides.whole.g = sides.left.g.clone()),
        with("both-66", raise_both(), &|sides| {
            sides.whole.q =
                w.relation(|[a, b, ..], [c, d, ..]| (a, b) == (0, 0) && (c, d) == (1, 1));
        }),
        with("both-41", copy, &|_| {}),
    ]
    .into_iter()
    .chain(started_once(&w))
    .collect()
}

/// The parallel from a = 0 and b = 0 alone.
fn started_once(w: &World) -> [Claim; 2] {
    let start = w.set(|[a, b, ..]| (a, b) == (0, 0));
    let mut narrow = sides(w);
    for tables in [&mut narrow.whole, &mut narrow.left, &mut narrow.right] {
        tables.p = start;
    }
    let outer = Tables { p: start, ..sides(w).whole };
    [
        w.claim("both-31", raise_both(), both(narrow)),
        w.claim("both-start", raise_both(), weaken(outer, both(sides(w)))),
    ]
}
